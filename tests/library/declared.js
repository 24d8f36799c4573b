'use strict';
// Writes what tsc compiles of trace-mapping's own declaration against that of the library in node, name by name: node declared.js FOLDER.
// In the folder, which has node_modules/smap, are put the declaration, whose TraceMap is the library's, and names.ts: each value that it
// exports has to be of its type in the library, and each type as good as the library's in both directions. It prints the names.
const fs = require('node:fs');
const path = require('node:path');
const ts = require('typescript');

const [folder] = process.argv.slice(2);
const main = require.resolve('@jridgewell/trace-mapping/package.json');
const { typings } = JSON.parse(fs.readFileSync(main));
const file = path.join(path.dirname(main), typings);

function exportsOf() {
  const program = ts.createProgram([file], {});
  const checker = program.getTypeChecker();
  const isValue = (symbol) => ((symbol.flags & ts.SymbolFlags.Alias ? checker.getAliasedSymbol(symbol) : symbol).flags & ts.SymbolFlags.Value) !== 0;
  return checker.getExportsOfModule(checker.getSymbolAtLocation(program.getSourceFile(file))).map((symbol) => [symbol.name, isValue(symbol)]);
}

fs.cpSync(path.dirname(file), path.join(folder, 'theirs'), { recursive: true });
// Its class has private members, which no other has.
const own = /export declare class TraceMap ([^]*?)\n}/;
const text = fs.readFileSync(file, 'utf8');
if (!own.test(text)) throw new Error('the declaration has no class TraceMap');
const changed = text.replace(own, (whole) => whole.replace('class TraceMap', 'class OwnTraceMap').replace(/^ *private .*\n/gm, ''));
fs.writeFileSync(path.join(folder, 'theirs', path.basename(file)), `import { TraceMap } from 'smap';\nexport { TraceMap };\n${changed}`);

const names = exportsOf().filter(([name]) => name !== 'default');
const lines = names.flatMap(([name, isValue]) => {
  if (name === 'TraceMap') return ['export const asTheirs = (map: ours.TraceMap): theirs.OwnTraceMap => map;'];
  if (isValue) return [`export const value${name}: typeof theirs.${name} = ours.${name};`];
  return [`export const from${name} = (given: ours.${name}): theirs.${name} => given;`, `export const to${name} = (given: theirs.${name}): ours.${name} => given;`];
});
const imports = `import * as ours from 'smap';\nimport * as theirs from './theirs/${path.basename(file, '.d.ts')}';\n`;
fs.writeFileSync(path.join(folder, 'names.ts'), `${imports}${lines.join('\n')}\n`);
console.log(names.map(([name]) => name).sort().join(' '));
