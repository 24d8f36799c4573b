// What a module imports of the library in node by name. Where this file stands, or above it, is node_modules/smap.
import { createRequire } from 'node:module';
import * as imported from 'smap';
import { TraceMap, originalPositionFor } from 'smap';

const required = createRequire(import.meta.url)('smap');
const missing = Object.keys(required).filter((name) => imported[name] !== required[name]);
const { source } = originalPositionFor(new TraceMap('{"version":3,"sources":["a.js"],"mappings":"AAAA"}'), { line: 1, column: 0 });
console.log(source, ...missing);
