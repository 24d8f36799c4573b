import { fail, show } from './fail.js';
import { Shape, Square } from './shapes.js';

const outer = { alias: function inner() { fail('another name'); } };
outer.größe = outer.alias;

function tagged(strings, ...values) {
  return strings.join(fail(`a template with ${values.length}`));
}

function recursive(depth) {
  return depth === 0 ? fail('a recursion') : recursive(depth - 1);
}

// Imports a function and exports one that calls it.
const CODE = Uint8Array.of(
  0, 97, 115, 109, 1, 0, 0, 0, 1, 4, 1, 96, 0, 0, 2, 7, 1, 1, 109, 1, 102, 0, 0, 3, 2, 1, 0,
  7, 5, 1, 1, 103, 0, 1, 10, 6, 1, 4, 0, 16, 0, 11,
);

show('a function', () => fail('a function'));
show('a method', () => new Shape(1).grow(6));
show('a method of the class above', () => new Square(2).grow(3));
show('a constructor', () => new Square(-1));
show('a static method', () => Shape.of(-2));
show('a private static method', () => Shape.least());
show('a field', () => {
  Shape.made = 100;
  return new Shape(1);
});
Shape.made = 0;
show('a getter', () => new Shape(1).area);
show('a setter', () => {
  new Shape(1).area = 7;
});
show('a symbol', () => `${new Shape(1)}`);
show('a generator', () => [...new Shape(1)]);
show('another name', () => outer.alias());
show('a name beyond ASCII', () => outer.größe());
show('a name with a parenthesis', () => new Shape(1)['odd name (of a method)']());
show('a callback', () => [3, 4].map((n) => [n].forEach((size) => Shape.of(-size))));
show('sort', () => [3, 4].sort(() => fail('sort')));
show('replace', () => 'a b'.replace(/ /, () => fail('replace')));
show('JSON', () => JSON.stringify({ square: new Square(1) }));
show('Reflect', () => Reflect.construct(Square, [-3]));
show('a proxy', () => new Proxy({}, { get: (_, key) => fail(key) }).field);
show('a bound function', () => recursive.bind(null, 1).call());
show('a template', () => tagged`a${1}b${2}`);
show('new Promise', () => {
  let failure;
  new Promise(() => fail('an executor')).catch((error) => {
    failure = error;
  });
  return new Promise((resolve) => {
    if (!failure) fail('another executor');
    resolve();
  });
});
show('eval', () => (0, eval)('(function made(f) { return f("eval"); })')(fail));
show('eval in eval', () => (0, eval)('[1].map((n) => (0, eval)("null.field"))'));
show('new Function', () => new Function('fail', 'return fail("new Function")')(fail));
show('a named text', () => (0, eval)('(f) => f("a named text")\n//# sourceURL=https://example.test/made.js')(fail));
show('WebAssembly', () => {
  const module = new WebAssembly.Module(CODE);
  new WebAssembly.Instance(module, { m: { f: () => fail('WebAssembly') } }).exports.g();
});
Error.stackTraceLimit = 20;
show('a recursion', () => recursive(18));
Error.stackTraceLimit = 1;
show('one frame', () => recursive(2));
Error.stackTraceLimit = 0;
show('no frame', () => recursive(2));
