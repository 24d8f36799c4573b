'use strict';
// A program of many functions, each of which throws: modules that are made of the kinds and the bodies below, each kind
// with each body. `_N` is a number, so that each name is there once; and each call has a line of its own. `held_N` and
// `object_N` are variables whose functions have other names.

// How a function throws. What `inner_N` is would else be put into where it is called once.
const BODIES = [`
  throw new Error('_N');`, `
  fail('_N');`, `
  const inner_N = (t) => {
    throw new Error('_N' + t);
  };
  if (inner_N(0)) inner_N(1);`, `
  [3].forEach(function each_N(item) {
    [item].map((n) => {
      throw new Error('_N' + n);
    });
  });`, `
  function deeper_N(depth) {
    if (depth > 2) throw new Error('_N');
    const t = { e: (n) => deeper_N(n + 1), a(r) {
      return t.e(r);
    } };
    return t.a(depth);
  }
  deeper_N(0);`];

// A function of each kind, and behind `>` what has it throw.
const KINDS = `
function declared_N(x) {BODY
}
> declared_N(1)

var assigned_N = function (x) {BODY
};
> assigned_N(1)

const held_N = function own_N(x) {BODY
};
> held_N(1)

const object_N = { held_N: function own_N(x) {BODY
} };
> object_N.held_N(1)

const arrow_N = (x) => {BODY
};
> arrow_N(1)

const short_N = (x) => long_N(x), long_N = (x) => {BODY
};
> short_N(1)

function curried_N(x) {
  return (y) => (z) => {BODY
  };
}
> curried_N(1)(2)(3)

let late_N;
late_N ??= function (x) {BODY
};
> late_N(1)

const chosen_N = Math.random() < 2 ? function (x) {BODY
} : () => 1;
> chosen_N(1)

function outer_N(inner) {
  function inside_N(inner) {
    function inner(e, t, n) {BODY
    }
    return inner(1, 2, 3);
  }
  return inside_N(inner);
}
> outer_N(1)

function even_N(n) {
  return n === 0 ? odd_N(7) : odd_N(n - 1);
}
function odd_N(n) {
  if (n === 7) {BODY
  }
  return even_N(n - 1);
}
> even_N(4)

function recursive_N(n) {
  if (n > 0) return recursive_N(n - 1) + 1;BODY
}
> recursive_N(3)

function given_N(x = default_N()) {
  return x;
}
function default_N() {BODY
}
> given_N()

function taken_N({ a = (() => {BODY
})() }) {
  return a;
}
> taken_N({})

function tagged_N(parts, ...rest) {BODY
}
> tagged_N${'`'}a${'${1}'}b${'`'}

function größe_N(x) {BODY
}
> größe_N(1)

function $dollar_N(x) {BODY
}
> $dollar_N(1)

const iife_N = () => (function named_N() {BODY
})();
> iife_N(1)

function caught_N(e) {
  try {
    null.a;
  } catch (e) {
    switch (e.name) {
      default: {
        function block_N(e) {BODY
        }
        block_N(e);
      }
    }
  }
}
> caught_N(1)

async function awaited_N(x) {
  await null;BODY
}
> awaited_N(1)

const soon_N = async (x) => {
  await null;BODY
};
> soon_N(1)

async function waits_N(n) {
  if (n > 0) {
    await waits_N(n - 1);
    return;
  }
  await null;BODY
}
> waits_N(2)

function* generated_N(x) {
  yield 1;BODY
}
> Array.from(generated_N(1))

function* delegated_N(x) {
  yield* yielded_N(x);
}
function* yielded_N(x) {
  yield 1;BODY
}
> Array.from(delegated_N(1))

async function* several_N(x) {
  yield 1;
  await null;BODY
}
async function collected_N() {
  for await (const n of several_N(1)) void n;
}
> collected_N(1)

class Made_N {
  constructor(x) {BODY
  }
}
> new Made_N(1)

class Base_N {
  constructor(x) {BODY
  }
}
class Derived_N extends Base_N {}
> new Derived_N(1)

class Above_N {
  t(x) {BODY
  }
}
class Below_N extends Above_N {
  constructor() {
    super();
    this.t(1);
  }
  t(x) {
    super.t(x);
  }
}
> new Below_N(1)

class Static_N {
  static e(x) {BODY
  }
}
> Static_N.e(1)

class Hidden_N {
  #n(x) {BODY
  }
  run(x) {
    return this.#n(x);
  }
}
> new Hidden_N().run(1)

class Getter_N {
  get r() {BODY
  }
}
> new Getter_N().r

class Setter_N {
  set o(x) {BODY
  }
}
> { new Setter_N().o = 1; }

function blocked_N(x) {
  class Block_N {
    static {BODY
    }
  }
  return Block_N;
}
> blocked_N(1)

class Field_N {
  a = 1;
  b = ((x) => {BODY
  })(1);
}
> new Field_N()

function fields_N(x) {
  return class Fields_N {
    static s = (() => {BODY
    })();
  };
}
> fields_N(1)

class Arrows_N {
  i = (x) => {BODY
  };
}
> new Arrows_N().i(1)

class Symbols_N {
  *[Symbol.iterator]() {BODY
  }
}
> Array.from(new Symbols_N())

class Awaits_N {
  async a(x) {
    await null;BODY
  }
  static async c(x) {
    await new this().a(x);
  }
}
> Awaits_N.c(1)

const Held_N = class Own_N {
  constructor(x) {
    this.l(x);
  }
  l(x) {BODY
  }
};
> new Held_N(1)

const Given_N = class {
  constructor(x) {BODY
  }
};
> new Given_N(1)

const object_N = { t(x) {BODY
} };
> object_N.t(1)

const object_N = { e: (x) => {BODY
} };
> object_N.e(1)

const object_N = { 'n': function (x) {BODY
} };
> object_N.n(1)

const object_N = { get r() {BODY
} };
> object_N.r

const object_N = { ['o' + '_N'](x) {BODY
} };
> object_N['o' + '_N'](1)

function Old_N() {}
Old_N.prototype.a = function (x) {BODY
};
> new Old_N().a(1)

function Bare_N(x) {BODY
}
> new Bare_N(1)

function holder_N() {}
holder_N.i = (x) => {BODY
};
> holder_N.i(1)

const defined_N = Object.defineProperty({}, 's', { get() {BODY
} });
> defined_N.s

const proxied_N = new Proxy({}, { get(t, e) {BODY
} });
> proxied_N.a

const sorted_N = () => [3, 4].sort(function compare_N(e, t) {BODY
});
> sorted_N()

const text_N = { toString() {BODY
} };
> ${'`${text_N}`'}

function executor_N() {
  return new Promise((done, lost) => {
    setTimeout(function tick_N() {
      try {
        timed_N(1);
      } catch (error) {
        lost(error);
      }
    }, 1);
  });
}
function timed_N(x) {BODY
}
> executor_N()

function handler_N(x) {BODY
}
> Promise.resolve(1).then(handler_N)

function thrown_N(x) {
  return Promise.reject(new Error('a')).catch(function (e) {BODY
  });
}
> thrown_N(1)

export default function (x) {BODY
}
import * as part_N from './part_PART.mjs';
> part_N.default(1)

export function exported_N(x) {BODY
}
import * as again_N from './part_PART.mjs';
> again_N.exported_N(1)`;

const CASES = `export const cases = [];
export function add(run) {
  cases.push(run);
}
export function fail(message) {
  throw new Error(message);
}
`;

const MAIN = `import { cases } from './cases.mjs';
import './part_0.mjs';
import './part_1.mjs';
import './part_2.mjs';
async function all() {
  await import('./part_3.mjs');
  await import('./part_4.mjs');
  const stacks = [];
  for (const run of cases) {
    try {
      await run();
      stacks.push('nothing');
    } catch (error) {
      stacks.push(error.message + '\\n' + error.stack);
    }
  }
  report(JSON.stringify(stacks));
}
all();
`;

// The modules of the program, by name.
function sources() {
  const modules = { 'main.mjs': MAIN, 'cases.mjs': CASES };
  let number = 100;
  BODIES.forEach((body, part) => {
    const kinds = KINDS.trim().split('\n\n').map((kind) => {
      const [text, call] = kind.split('\n> ');
      const run = call.startsWith('{') ? call : `{\n  return ${call};\n}`;
      number += 1;
      const all = `${text.replace('BODY', () => body)}\nadd(() => ${run});\n`;
      return all.replaceAll('part_PART', `part_${part}`).replaceAll('_N', number);
    });
    modules[`part_${part}.mjs`] = `import { add, fail } from './cases.mjs';\n${kinds.join('')}`;
  });
  return modules;
}

module.exports = { sources };
