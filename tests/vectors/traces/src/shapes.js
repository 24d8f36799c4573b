import { fail } from './fail.js';

export class Shape {
  static made = 0;

  #size;

  corners = this.#countCorners();

  constructor(size) {
    this.#size = size;
    if (size < 0) fail('a constructor');
    Shape.made += 1;
  }

  static of(size) {
    return new Shape(size);
  }

  static #smallest() {
    return fail('a private static method');
  }

  static least() {
    return Shape.#smallest();
  }

  #countCorners() {
    return Shape.made === 100 ? fail('a field of a class') : 4;
  }

  #grow(by) {
    this.#size += by > 5 ? fail('a private method') : by;
  }

  grow(by) {
    this.#grow(by);
    return this;
  }

  get area() {
    return fail('a getter');
  }

  set area(size) {
    fail(`a setter of ${size}`);
  }

  [Symbol.toPrimitive](hint) {
    return fail(`a symbol, ${hint}`);
  }

  *[Symbol.iterator]() {
    yield this.#size;
    fail('a generator');
  }

  'odd name (of a method)'() {
    return fail('a name with a parenthesis');
  }
}

export class Square extends Shape {
  constructor(size) {
    super(size);
    this.side = size;
  }

  grow(by) {
    return super.grow(by * 2);
  }

  toJSON() {
    return fail('toJSON');
  }
}
