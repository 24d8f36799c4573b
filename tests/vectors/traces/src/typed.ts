abstract class Base<T> {
  constructor(protected readonly value: T) {}

  abstract run(): Promise<T>;
}

class Größe extends Base<number> {
  async run(): Promise<number> {
    await Promise.resolve();
    const { wert } = this;
    return wert;
  }

  private get wert(): number {
    throw new RangeError(`größe ${this.value}`);
  }
}

namespace Inner {
  export async function call(base: Base<unknown>): Promise<void> {
    await base.run();
  }
}

Inner.call(new Größe(7)).catch((error: Error) => console.log(error.stack));
Inner.call(new Größe(8));
