// What tests/try-library gives to tsc --strict: the types of the library in node, as a script uses them.
import {
  AnyMap, Bias, Context, EachMapping, EncodedSourceMap, Fit, FlattenMap, GREATEST_LOWER_BOUND, Generated, LEAST_UPPER_BOUND, LoaderContext, Maps, Needle, Place, Refused, RemappedSourceMap, RewriteStream, SectionedSourceMap, SectionedSourceMapInput, SourceMapInput, SourceMapLoader, SourceMapSegment, SourceNeedle, Table, TraceMap, allGeneratedPositionsFor, compose,
  composeAll, decodedMap, decodedMappings, eachMapping, encodedMap, encodedMappings, frameUrls, generated as generatedOn, generatedPositionFor, isIgnored, lookUpMany, originalPositionFor, presortedDecodedMap, remapping,
  rewrite, rewriteAsync, sourceContent, sourceContentFor, sourceContext, sourceName, traceSegment,
} from 'smap';

const object = { version: 3, sources: ['a.js', null], names: [], mappings: [[[0, 0, 0, 0]]] };
const map: TraceMap = new TraceMap(object, 'dist/a.js.map');
const others: TraceMap[] = [new TraceMap('{}', new URL('https://e.test/'), 64), new TraceMap('{}', null, { interval: 64, maxNames: 1 }), AnyMap(new Uint8Array(2)), new AnyMap('{}', null), new FlattenMap('{}'), presortedDecodedMap(object, null), new TraceMap(map)];

const found = originalPositionFor(map, { line: 1, column: 0, bias: LEAST_UPPER_BOUND });
const line: number = found.line === null ? GREATEST_LOWER_BOUND : found.line;
const segment: SourceMapSegment | null = traceSegment(map, 0, 0);
const column: number = segment === null ? 0 : segment[0];
const original: number | null = segment !== null && segment.length === 5 ? segment[4] : null;
const answers: Uint32Array = lookUpMany(map, Uint32Array.of(line, column));

const columns: number[] = [];
eachMapping(map, (mapping: EachMapping) => columns.push(mapping.generatedColumn));
for (const mapping of map.mappings()) if (mapping.source !== null) columns.push(mapping.originalLine, mapping.originalColumn);
const lines: SourceMapSegment[][] = decodedMappings(map);
const text: string = encodedMappings(map);
const written: EncodedSourceMap = encodedMap(map);
const list: number[] = decodedMap(map).ignoreList || [];
const names: (string | null)[] = [...map.sources, ...map.resolvedSources, ...map.names, map.sourceRoot || null, ...(map.sourcesContent || [])];
const content: string | null = sourceContentFor(map, 'a.js');
const ignored: boolean = isIgnored(map, 'a.js');
const first: (string | null)[] = [sourceName(map, 0), sourceContent(map, 0)];
map.sourceRoot = undefined;
map.sources = first;
const saved: EncodedSourceMap = map.toJSON();
const debugId: string | undefined = map.toJSON({ debugId: true }).debugId || map.debugId;
const { sources, unmapped } = map.bytesBySource('x');
const { fits, past, inside, same }: Fit = map.fit('x');
const functionName: string | null = map.withGenerated('x').functionName(1, 0, 'async f');
const generated: number | null = generatedPositionFor(map, { source: 'a', line: 1, column: 0 }).column;
const standing: number[] = allGeneratedPositionsFor(map, { source: 'a', line: 1, column: 0, bias: 1 }).map(({ column }) => column);
const spans: Generated[] = [...generatedOn(map, 0, 1), ...generatedOn(map, 'a', 1, 0, true)];
columns.push(...spans.map(({ lastColumn, originalColumn }) => lastColumn - originalColumn), (map.placeAt(1, 0) as Place).lastColumn);
const section: SectionedSourceMap = { version: 3, sections: [{ offset: { line: 0, column: 0 }, map: written }] };
const inputs: (SourceMapInput | SectionedSourceMapInput)[] = ['{}', written, decodedMap(map), map, section];
const bias: Bias = 1;
const needles: [Needle, SourceNeedle] = [{ line: 1, column: 0, bias }, { source: 'a', line: 1, column: 0, bias: -1 }];
const loader: SourceMapLoader = (source: string, context: LoaderContext) => {
  if (context.depth === 1) context.ignore = source !== context.importer;
  return context.content ? written : null;
};
const remapped: RemappedSourceMap = remapping([written, new Uint8Array(2)], loader, { decodedMappings: true });
columns.push(remapping(map, () => undefined, true).version, inputs.length, needles.length, `${remapped}`.length);
const total: number = sources.reduce((sum, bytes) => sum + bytes, unmapped) + map.counts.segments;

const made: Uint8Array[] = [compose(map, 0, others[0]), composeAll(map, { 'a.js': others[1] }, { load: (source) => source, prune: true }), map.write()];
const table = new Table({ 'https://e.test/a.js': map }, { load: (url) => (url === '' ? null : '{}'), refused: (url, error) => names.push(url, String(error)) });
names.push(...table.refusals.map(({ url }) => url));
made.push(rewrite(table, 'f@a.js:1:1', { hideIgnored: true, maxOutput: 1 }));
const stream: RewriteStream = new RewriteStream(table, { anywhere: true });
const places: number = 'places' in stream.counts ? stream.counts.places : stream.counts.frames;
stream.on('refused', (url: string, error: unknown) => names.push(url, String(error))).end('x');
const place: Place | null = table.lookUp('https://e.test/a.js?v=3', 1, 0);
const context: Context | null = sourceContext(map, place ? place.index : 0, 1, 3);
const kept = new Maps({ load: () => null, loadAsync: async (url) => `{"file":"${url}"}`, maxBytes: map.nbytes, atOnce: 4, retryAfter: 1, noneFor: Infinity });
const inFolder: Maps = Maps.folder('https://e.test/', '.', { maxBytes: 1, paths: true, maxNames: 1, freshFor: 0.5 });
const waiting: Promise<Buffer> = rewriteAsync(kept, 'x', { stripAnsi: true });
names.push(...frameUrls('x', { anywhere: true }), context ? context.before.join(context.line) : '', String(inFolder.get('x')));
table[Symbol.dispose]();
map.close();
export const all = [functionName, fits, past + inside + same, waiting, kept.lookUp('x', 1, 0), kept.load(['x']), line, original, answers, columns, lines, text, written, list, names, content, ignored, total, made, places, saved, new Refused('x').code];

// What no call takes.
// @ts-expect-error
new TraceMap(7);
// @ts-expect-error
rewrite(table, 'x', { anyWhere: true });
// @ts-expect-error
new RewriteStream(table, { highWaterMark: 1 });
// @ts-expect-error
new Maps({ load: () => null });
// @ts-expect-error
composeAll(map, {}, { pruned: true });
// @ts-expect-error
lookUpMany(map, [1, 2]);
// @ts-expect-error
remapping(map);
