import { fail } from './fail.js';

const pause = () => new Promise((resolve) => setTimeout(resolve, 1));

async function late(text) {
  await pause();
  fail(text);
}

class Store {
  async load(key) {
    return this.read(key);
  }

  async read(key) {
    await pause();
    return key === 'none' ? fail('no key') : key;
  }

  static async open() {
    const store = new Store();
    await store.load('none');
  }

  static #count = 0;

  #next = Store.#count > 0 ? fail('a field') : 1;

  async #sum() {
    await pause();
    return this.#next > 0 ? fail('a private method') : 1;
  }

  async count() {
    return (await this.#sum()) + 1;
  }

  static again() {
    Store.#count += 1;
    return new Store();
  }

  async *[Symbol.asyncIterator]() {
    yield;
    await late('an async generator');
  }
}

async function first(...texts) {
  return Promise.any(texts.map((text) => late(text)));
}

async function showLate(kind, body) {
  try {
    await body();
  } catch (error) {
    console.log(`== ${kind}\n${error.stack}\n`);
    for (const inner of error.errors ?? []) console.log(inner.stack);
  }
}

await showLate('async', () => late('async'));
await showLate('async methods', () => Store.open());
await showLate('Promise.all', () => Promise.all([pause(), late('Promise.all'), late('the third')]));
await showLate('Promise.any', () => first('one', 'two'));
await showLate('await inside all', async () => {
  await Promise.all(['a', 'b'].map(async (text) => {
    await pause();
    await late(text);
  }));
});
await showLate('a private method', () => new Store().count());
await showLate('for await', async () => {
  for await (const n of new Store()) n?.toString();
});
await showLate('a class with a field', () => Store.again());
await showLate('then', () => pause().then(() => fail('then')));
await showLate('finally', () => pause().finally(() => fail('finally')));
await showLate('a thenable', async () => {
  await { then: () => fail('a thenable') };
});
await showLate('import', () => import('data:text/javascript,throw new Error("an imported module")'));
await showLate('a missing module', () => import('node:missing'));
await showLate('a timer', () => new Promise((_, reject) => {
  setTimeout(() => {
    try {
      fail('a timer');
    } catch (error) {
      reject(error);
    }
  }, 1);
}));
queueMicrotask(() => {
  try {
    fail('a microtask');
  } catch (error) {
    console.log(error.stack);
  }
});
await pause();
await Store.open();
