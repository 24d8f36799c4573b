// Errors of many kinds, met in a module that is two folders deeper. The first argument names the kind.
import { Price } from './util/price.js';

declare const process: { argv: string[] };

function fail(): Error {
  try {
    return new Error(String(new Price([{ count: 2 }]).total));
  } catch (error) {
    return error as Error;
  }
}
const kinds: Record<string, () => unknown> = {
  plain: () => console.error(fail()),
  uncaught: () => { throw fail(); },
  properties: () => console.error(Object.assign(fail(), { code: 'E_PRICE', order: 7 })),
  cause: () => console.error(new Error('no receipt', { cause: fail() })),
  many: () => console.error(new AggregateError([fail(), fail()], 'all failed')),
  rejection: () => new Price([{ count: 2 }]).later(),
  stack: () => console.error(JSON.stringify({ level: 50, stack: fail().stack })),
  nested: () => console.error({ request: { error: fail() } }),
  timer: () => setTimeout(() => { throw fail(); }, 1),
};
kinds[process.argv[2]]();
