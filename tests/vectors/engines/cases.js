function fail(message) {
  throw new Error(message);
}

class Shape {
  static made = 0;
  static { seen('a static block', () => fail('a static block')); }
  field = Shape.made > 99 ? fail('a field') : 0;
  #size = 1;
  constructor(size) { if (size < 0) fail('a constructor'); this.#size = size; }
  grow(by) { return this.#size + fail(by); }
  get area() { return fail('a getter'); }
  set area(size) { fail(size); }
  static of(size) { return new this(size); }
  static #least() { return fail('a private static method'); }
  static least() { return this.#least(); }
  #hidden() { return fail('a private method'); }
  hidden() { return this.#hidden(); }
  *[Symbol.iterator]() { yield fail('a generator'); }
  async *[Symbol.asyncIterator]() { yield await this.later(); }
  async later() { await null; fail('an async method'); }
  [Symbol.toPrimitive]() { return fail('a symbol'); }
  ['a b']() { fail('a blank in a name'); }
  static async wait() { await null; return new Shape(-1); }
}
class Square extends Shape {
  constructor(size) { super(size); }
  grow(by) { return super.grow(by); }
}

const odd = {};
for (const name of ['a b', 'x@y', 'f (g', 'f (g)', '@', '', 'größe', '形', 'at f', 'async f', 'new f', 'f:1:2', 'a/b', 'a<b>', 'g\nh', 'i\rj', 'k\tl', 'http://example.test/x.js:1:2', ' (http://example.test/x.js:1:2)', 'm [as n]', '[o]', 'a.b']) {
  odd[name] = { [name]() { fail('in ' + JSON.stringify(name)); } }[name];
}
odd.symbol = { [Symbol('s t')]() { fail('a symbol with a text'); } };
odd.bare = { [Symbol()]() { fail('a symbol without one'); } };
const text = { 'x@y'() { fail('a literal name'); }, 'f (g'() { fail('a literal name'); }, 12() { fail('a number'); }, get 'p q'() { return fail('a getter with a blank'); } };
const assigned = {};
assigned['x@y'] = function () { fail('an assigned name'); };
assigned['f (g'] = () => fail('an assigned name');
assigned.plain = function () { fail('an assigned name'); };
assigned.deep = { er: [function () { fail('an item'); }] };
const aliased = { as: function inner() { fail('another name'); } };
function Old() { this.made = fail('an old constructor'); }
Old.prototype.run = function () { fail('a prototype'); };
Old.run = function () { fail('a static of old'); };
function tagged(parts, ...values) { return parts.join(fail('a template with ' + values.length)); }
function deep(depth) { return depth === 0 ? fail('a recursion') : deep(depth - 1); }
async function waits(depth) { if (depth === 0) { await null; fail('awaited'); } await waits(depth - 1); }
async function* several() { yield 1; await null; fail('an async generator'); }
const renamed = function () { fail('a changed name'); };
Object.defineProperty(renamed, 'name', { value: 'changed name' });
const nameless = (() => () => fail('a function without a name'))();
const inModule = globalThis.WebAssembly && Uint8Array.of(
  0, 97, 115, 109, 1, 0, 0, 0, 1, 4, 1, 96, 0, 0, 2, 7, 1, 1, 109, 1, 102, 0, 0, 3, 2, 1, 0,
  7, 5, 1, 1, 103, 0, 1, 10, 6, 1, 4, 0, 16, 0, 11);

const CASES = {
  'a function': () => fail('a function'),
  'the engine': () => null.field,
  'a method': () => new Shape(1).grow('a method'),
  'a method above': () => new Square(1).grow('a method above'),
  'a constructor': () => new Square(-1),
  'a static method': () => Shape.of(-1),
  'a private static method': () => Shape.least(),
  'a private method': () => new Shape(1).hidden(),
  'a field': () => { Shape.made = 100; try { return new Shape(1); } finally { Shape.made = 0; } },
  'a getter': () => new Shape(1).area,
  'a setter': () => { new Shape(1).area = 'a setter'; },
  'a generator': () => [...new Shape(1)],
  'a symbol': () => `${new Shape(1)}`,
  'a blank': () => new Shape(1)['a b'](),
  'another name': () => aliased.as(),
  'old': () => new Old(),
  'a prototype': () => Object.create(Old.prototype).run(),
  'a static of old': () => Old.run(),
  'Reflect': () => Reflect.construct(Square, [-1]),
  'Reflect.apply': () => Reflect.apply(fail, null, ['applied']),
  'a proxy': () => new Proxy({}, { get: (_, key) => fail(key) }).key,
  'a proxy of a function': () => new Proxy(fail, {})('a proxy'),
  'bound': () => deep.bind(null, 1).call(),
  'map': () => [3].map((n) => [n].forEach((m) => fail(m))),
  'sort': () => [3, 4].sort(() => fail('sort')),
  'reduce': () => [3, 4].reduce(function () { fail('reduce'); }),
  'from': () => Array.from([1], () => fail('from')),
  'replace': () => 'a b'.replace(/ /, () => fail('replace')),
  'JSON.parse': () => JSON.parse('[1]', () => fail('a reviver')),
  'toJSON': () => JSON.stringify({ toJSON() { fail('toJSON'); } }),
  'a map': () => new Map([[1, 2]]).forEach(() => fail('a map')),
  'a template': () => tagged`a${1}b${2}`,
  'an iterator': () => { for (const a of { [Symbol.iterator]: () => ({ next: () => fail('next') }) }) return a; return 0; },
  'a default': () => ((a = fail('a default')) => a)(),
  'an error of a call': () => [1].map(null),
  'an error of JSON': () => JSON.parse('{'),
  'an error of a RegExp': () => new RegExp('('),
  'a recursion': () => deep(3),
  'a stack overflow': () => { const over = () => over() + 1; return over(); },
  'no name': () => nameless(),
  'a changed name': () => renamed(),
  'eval': () => eval('fail("eval")'),
  'eval of a function': () => eval('(function inner() { fail("eval of a function"); })()'),
  'indirect eval': () => (0, eval)('[1].map((n) => null.field)'),
  'eval in eval': () => eval('eval("fail(1)")'),
  'new Function': () => new Function('f', 'return f("new Function")')(fail),
  'a text that does not parse': () => eval('let 1'),
  'a named text': () => (0, eval)('(f) => f("a named text")\n//# sourceURL=http://example.test/made.js')(fail),
  'a text with an odd name': () => (0, eval)('(f) => f("a named text")\n//# sourceURL=webpack-internal:///./src/(a)@1/b.js?c:1:2')(fail),
  'a relative name': () => (0, eval)('(function named(f) { f("a named text"); })\n//# sourceURL=async/made.js')(fail),
  'lines in a message': () => fail('one\n    at f (http://example.test/cases.js:1:2)\nf@http://example.test/cases.js:1:2\n'),
  'an empty message': () => fail(''),
  'an error with another name': () => { const error = new Error('m'); error.name = 'a b'; throw error; },
  'a cause': () => { try { fail('the cause'); } catch (cause) { throw new Error('caused', { cause }); } },
  'a cause, shown': () => { try { fail('the cause'); } catch (cause) { throw cause; } },
  'many': () => { throw new AggregateError([new Error('a'), new TypeError('b')], 'many'); },
  'not thrown': () => { throw [new Error('made in a list')][0]; },
  'WebAssembly': () => new WebAssembly.Instance(new WebAssembly.Module(inModule), { m: { f: () => fail('wasm') } }).exports.g(),
  'async': () => waits(2),
  'an async method': () => new Shape(1).later(),
  'a static async method': () => Shape.wait(),
  'async arrow': async () => { await null; fail('an async arrow'); },
  'an async generator': async () => { for await (const n of several()) void n; },
  'an async iterator': async () => { for await (const n of new Shape(1)) void n; },
  'then': () => Promise.resolve('then').then(fail),
  'then, within': () => Promise.resolve().then(() => fail('then')).then(() => 0),
  'catch': () => Promise.reject(new Error('a')).catch(() => fail('catch')),
  'finally': () => Promise.resolve().finally(() => fail('finally')),
  'all': async () => { await Promise.all([1, waits(1)]); },
  'any': async () => { await Promise.any([waits(1), waits(0)]); },
  'allSettled': async () => { throw (await Promise.allSettled([waits(0)]))[0].reason; },
  'race': async () => { await Promise.race([waits(0)]); },
  'new Promise': () => new Promise(() => fail('an executor')),
  'a thenable': async () => { await { then() { fail('a thenable'); } }; },
  'a timer': () => new Promise((done, lost) => { setTimeout(() => { try { fail('a timer'); } catch (error) { lost(error); } }, 1); }),
  'a named timer': () => new Promise((done, lost) => { setTimeout(function tick() { try { deep(1); } catch (error) { lost(error); } }, 1); }),
  'a microtask': () => new Promise((done, lost) => { queueMicrotask(() => { try { fail('a microtask'); } catch (error) { lost(error); } }); }),
  'a literal with @': () => text['x@y'](),
  'a literal with (': () => text['f (g'](),
  'a literal number': () => text[12](),
  'a literal getter': () => text['p q'],
  'assigned with @': () => assigned['x@y'](),
  'assigned with (': () => assigned['f (g'](),
  'assigned': () => assigned.plain(),
  'an item': () => assigned.deep.er[0](),
  'a symbol with a text': () => Object.values(Object.getOwnPropertySymbols(odd.symbol).map((s) => odd.symbol[s]))[0](),
  'a bare symbol': () => Object.getOwnPropertySymbols(odd.bare).map((s) => odd.bare[s])[0](),
};
for (const name of Object.keys(odd)) if (typeof odd[name] === 'function') CASES['named ' + JSON.stringify(name)] = () => odd[name]();

Error.stackTraceLimit = 12;
(async () => {
  for (const name of Object.keys(CASES)) await seen(name, CASES[name]);
  ended();
})();
