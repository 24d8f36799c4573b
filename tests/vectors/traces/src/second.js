import { fail, show } from './fail.js';

class Second {
  static run() {
    return globalThis.first.call(() => fail('the second piece'));
  }
}

show('from the second piece', () => Second.run());
show('from the first piece', () => globalThis.first.call());
