/** Source maps of ECMA-426 over the library libsmap. Lines count from 1 and columns from 0, in UTF-16 code units. */

import { Transform } from 'stream';

declare global {
  interface SymbolConstructor {
    /** What `using` calls at the end of a block. */
    readonly dispose: unique symbol;
  }
}

export const GREATEST_LOWER_BOUND: 1;
export const LEAST_UPPER_BOUND: -1;

/** What was given is refused. The message is the program's line and, of a map that is refused, the lines of the explanation. */
export class Refused extends Error {
  /** The program's, as "M14": of a map M1 to M18, and of its base "usage" where that is no URL and "U1" where it is too long. */
  code: string;
  /** The fault of the mappings of a map, as "F10", or why no index is built, as "B2". */
  cause?: string;
  /** The generated line of the faulty segment, from 0. */
  line?: number;
  /** The section, from 0. */
  section?: number;
  /** Where the faulty segment begins in the mappings, from 0. */
  byte?: number;
  /** The `mapUrl`, the URL under which a table was to have the map, or the name of the source that it was to be of. */
  url?: string;
  /** The value for which a segment of the mappings is refused, as the map has it: lines, columns and indices from 0. */
  value?: number;
  /** The least that the value may be where it is below that, and else the most; -1 is the most of an index into an empty list. */
  limit?: number;
  /** The generated column of the faulty segment, from 0. */
  column?: number;
  /** Of X5 how many whole lines of what would come out fit. */
  lines?: number;
  /** What is known of why a map is refused: sentences in lines that begin with two blanks and end with LF. In them lines and
   * columns count from 1. */
  explanation?: string;
}

export interface SourceEntry {
  name: string | null;
  content: string | null;
  ignored: boolean;
}

/** What a map holds; `lines` are the generated lines with a mapping. */
export interface Counts {
  sections: number;
  sources: number;
  names: number;
  segments: number;
  lines: number;
  checkpoints: number;
}

/** A mapping; with an original it has a line and a column of it. */
export type EachMapping =
  | { generatedLine: number; generatedColumn: number; source: null; originalLine: null; originalColumn: null; name: null }
  | { generatedLine: number; generatedColumn: number; source: string | null; originalLine: number; originalColumn: number; name: string | null };

/** The generated column; or it, the source, the original line and column, and the name. All of them from 0. */
export type SourceMapSegment = [number] | [number, number, number, number] | [number, number, number, number, number];

export interface SourceMapV3 {
  file?: string | null | undefined;
  names: string[];
  sourceRoot?: string | undefined;
  sources: (string | null)[];
  sourcesContent?: (string | null)[] | undefined;
  ignoreList?: number[] | undefined;
  version: 3;
}

export interface EncodedSourceMap extends SourceMapV3 {
  mappings: string;
}

export interface DecodedSourceMap extends SourceMapV3 {
  mappings: SourceMapSegment[][];
}

export interface Section {
  offset: { line: number; column: number };
  map: EncodedSourceMap | DecodedSourceMap | SectionedSourceMap;
}

/** An index map. One within a section is refused, M7. */
export interface SectionedSourceMap {
  file?: string | null | undefined;
  sections: Section[];
  version: 3;
}

type Fixed<T> = T extends readonly (infer Item)[] ? readonly Fixed<Item>[] : T extends object ? { readonly [Key in keyof T]: Fixed<T[Key]> } : T;
/** Maps as texts and objects; bytes are taken too. */
export type SourceMapInput = string | Fixed<EncodedSourceMap> | Fixed<DecodedSourceMap> | TraceMap;
export type SectionedSourceMapInput = SourceMapInput | Fixed<SectionedSourceMap>;

/** How many bytes of a generated file come from each source, and from none. */
export interface BytesBySource {
  sources: number[];
  unmapped: number;
}

/** How a map fits a generated file: it can be its map where no mapping stands past the text or inside a word of it. */
export interface Fit {
  fits: boolean;
  mappings: number;
  past: number;
  inside: number;
  /** The mappings whose source has content; of these, those past the content, and those that show the same in both texts. */
  compared: number;
  outside: number;
  same: number;
}

/** The names of a map's sources may be made of so many bytes together, 268,435,456 if not given. With more it is refused, M18. */
interface NamesOption {
  maxNames?: number;
}

/** A checkpoint is made at every `interval`-th segment of a line, 1 to 4096: 8 in a map below 1 MiB, 64 in a larger one. */
export interface ReadOptions extends NamesOption {
  interval?: number;
}

/** Whether the debug id is kept in what is written, of a composed map that of the outer one. */
interface DebugIdOption {
  debugId?: boolean;
}

/** A source map that was read. A TraceMap that is given is itself. */
export class TraceMap implements SourceMapV3 {
  /** `mapUrl` is the URL or path at which the map stands; a number in place of options is the interval. The mappings of an
   * object may be decoded, and then it may leave its version out. What is given is not kept. */
  constructor(map: string | Uint8Array | object, mapUrl?: string | URL | null, options?: number | ReadOptions);
  readonly counts: Counts;
  /** From here to `resolvedSources` what is assigned takes a member's place; no answer changes. */
  version: 3;
  file: string | null | undefined;
  names: string[];
  /** These four are as the map has them; an index map has the names of its sources and no root. */
  sources: (string | null)[];
  sourceRoot: string | undefined;
  sourcesContent: (string | null)[] | undefined;
  ignoreList: number[] | undefined;
  /** The names of the sources. That of a source without one is null, though the type, which is trace-mapping's, does not say so. */
  resolvedSources: string[];
  readonly sourceEntries: SourceEntry[];
  /** The debug id, which the generated file names too: the text at `debugId`, or at `debug_id` where that is none. */
  readonly debugId: string | undefined;
  /** About how many bytes of memory the map takes. */
  readonly nbytes: number;
  /** Where a generated position comes from, or null where no mapping answers that has an original. */
  placeAt(line: number, column: number): Place | null;
  /** Each mapping in its order. */
  mappings(): IterableIterator<EachMapping>;
  /** The bytes of the generated file by the source that they come from. Here and below a text is that of the file, never its path. */
  bytesBySource(generated: string | Uint8Array): BytesBySource;
  /** Whether the map can be that of the generated file. */
  fit(generated: string | Uint8Array): Fit;
  /** The map itself, which has read what its generated file declares, for `functionName`. */
  withGenerated(generated: string | Uint8Array): this;
  /** The name that a function has in its source, or null: it is called `name` in a frame at this generated position. A name is one word, which
   * may stand behind `async ` and `new `. An error where `withGenerated` was given no file. */
  functionName(line: number, column: number, name: string): string | null;
  /** The text of one regular map that states the same; with `debugId` with its debug id, as the last member. */
  write(options?: DebugIdOption): Buffer;
  /** What `encodedMap` gives; with `debugId` with the debug id. The name under which JSON has the map is passed over. */
  toJSON(options?: DebugIdOption | string): EncodedSourceMap & { debugId?: string | undefined };
  close(): void;
  [Symbol.dispose](): void;
}

/** A map or an index map: both are read alike. */
export const AnyMap: {
  (map: string | Uint8Array | object, mapUrl?: string | URL | null, options?: number | ReadOptions): TraceMap;
  new (map: string | Uint8Array | object, mapUrl?: string | URL | null, options?: number | ReadOptions): TraceMap;
};
export const FlattenMap: typeof AnyMap;
export function presortedDecodedMap(map: object, mapUrl?: string | URL | null): TraceMap;

export type Bias = typeof GREATEST_LOWER_BOUND | typeof LEAST_UPPER_BOUND;

/** A generated position: the line from 1; the column from 0, and one past the line's end, and Infinity, has the line's last mapping. */
export type Needle = { line: number; column: number; bias?: Bias };

/** Where a place of a generated file comes from. The line counts from 1 and the column from 0; `index` is the source's number, and
 * `lastColumn` the last column of the generated line for which this holds, or Infinity. */
export interface Place {
  source: string | null;
  line: number;
  column: number;
  name: string | null;
  ignored: boolean;
  index: number;
  lastColumn: number;
}

/** A line of a source, and those before and after it. */
export interface Context {
  before: string[];
  line: string;
  after: string[];
}

/** The line, from 1, of the source of this number, from 0, with up to so many lines before and after it, 2 if not given; or null where its
 * content has no such line. Of a line those characters are given that stand in its first 65,536 bytes. */
export function sourceContext(map: TraceMap, index: number, line: number, before?: number, after?: number): Context | null;

export type OriginalMapping = { source: string | null; line: number; column: number; name: string | null };
export type { OriginalMapping as Mapping };
export type InvalidOriginalMapping = { source: null; line: null; column: null; name: null };

export function originalPositionFor(map: TraceMap, needle: Needle): OriginalMapping | InvalidOriginalMapping;
/** An original position: the name of a source, a line and a column. */
export type SourceNeedle = { source: string; line: number; column: number; bias?: Bias };
export type GeneratedMapping = { line: number; column: number };
export type InvalidGeneratedMapping = { line: null; column: null };
/** Where the original position stands in the generated file. The first call of a map makes an index of 16 bytes a mapping. */
export function generatedPositionFor(map: TraceMap, needle: SourceNeedle): GeneratedMapping | InvalidGeneratedMapping;
/** All places of the generated file where the original position stands. */
export function allGeneratedPositionsFor(map: TraceMap, needle: SourceNeedle): GeneratedMapping[];

/** A place of the generated file with the column of its original; it holds up to `lastColumn`, or Infinity. */
export interface Generated extends GeneratedMapping {
  lastColumn: number;
  originalColumn: number;
}

/** The generated places of a line of a source, by its number from 0 or its name: those at the greatest original column at or before this
 * one, or with `after` at the least at or after it; without a column all of the line, by their original columns. */
export function generated(map: TraceMap, source: number | string, line: number, column?: number, after?: boolean): Generated[];
/** The segment that answers, or null. Here lines count from 0. */
export function traceSegment(map: TraceMap, line: number, column: number): SourceMapSegment | null;
export function eachMapping(map: TraceMap, call: (mapping: EachMapping) => void): void;
/** Of more lines than 1,000,000, and than 16 for each byte of the map, a RangeError; so is `decodedMap`. */
export function decodedMappings(map: TraceMap): SourceMapSegment[][];
export function encodedMappings(map: TraceMap): string;
export function decodedMap(map: TraceMap): DecodedSourceMap;
export function encodedMap(map: TraceMap): EncodedSourceMap;
/** Two numbers a position: the line, from 1, and the column, from 0. Seven numbers an answer: the kind (0 nothing, 1 without an
 * original, 2 with one), the generated column, the source, the line from 1, the column, 1 where there is a name, and the name.
 * What there is not is 0. */
export function lookUpMany(map: TraceMap, positions: Uint32Array): Uint32Array;
/** The name and the content of the source of this number, from 0: a RangeError where there is none. */
export function sourceName(map: TraceMap, index: number): string | null;
export function sourceContent(map: TraceMap, index: number): string | null;
export function sourceContentFor(map: TraceMap, source: string): string | null;
export function isIgnored(map: TraceMap, source: string): boolean;
export function compose(outer: TraceMap, source: number, inner: TraceMap, options?: DebugIdOption): Buffer;

type Given = string | Uint8Array | object | TraceMap;

/** Maps, each under a name: an object or pairs. */
type Named<Name> = readonly (readonly [Name, Given])[] | Iterable<readonly [Name, Given]> | Record<string, Given>;

export interface ComposeAllOptions extends DebugIdOption {
  /** Gives the map of a source by its name, or none. It is asked once for each name, for the sources of the outer map that
   * have no map among the inner ones, and for those of the maps that were found. */
  load?: (source: string) => Given | null | undefined;
  /** Leaves out sources and names that no mapping has, and of equal ones all but the first. */
  prune?: boolean;
  /** Leaves out the contents of the sources. */
  noContent?: boolean;
}

/** The inner maps stand under the names of the sources that they are of; in a pair the number of a source may stand for its
 * name, from 0. A TraceMap that is given is copied, and stays open. */
export function composeAll(
  outer: TraceMap,
  inners?: Named<string | number>,
  options?: ComposeAllOptions,
): Buffer;

/** What a loader is told of a source: the name of the map's that has it, and how many maps lead to it. What is put into `source` is the
 * name of an original, or where its map stands; `content` and `ignore` are those of an original. */
export interface LoaderContext {
  readonly importer: string;
  readonly depth: number;
  source: string;
  content: string | null | undefined;
  ignore?: boolean | undefined;
}

export type SourceMapLoader = (source: string, context: LoaderContext) => Given | null | undefined | void;

export interface RemappingOptions {
  /** Leaves out the contents of the sources. */
  excludeContent?: boolean;
  /** Gives mappings as lines of segments. */
  decodedMappings?: boolean;
}

/** What `remapping` gives: as a text it is JSON. */
export interface RemappedSourceMap extends SourceMapV3 {
  mappings: string | SourceMapSegment[][];
  toString(): string;
}

/** The one map that a map comes to with those of its sources, which the loader gives, as of @ampproject/remapping. In a list each map is
 * of the only source of the one before it. */
export function remapping(input: Given | readonly Given[], loader: SourceMapLoader, options?: boolean | RemappingOptions): RemappedSourceMap;

/** What was in a trace: its lines, how many of them were frames, and how many of these were replaced and hidden. */
export interface FrameCounts {
  lines: number;
  frames: number;
  mapped: number;
  hidden: number;
}

/** What was in a text with `anywhere`: its lines, its places, and how many of these were replaced. */
export interface PlaceCounts {
  lines: number;
  places: number;
  mapped: number;
}

export type TraceCounts = FrameCounts | PlaceCounts;

/** A map that was not read: the URL that `load` was asked for, and what it threw or why its map is refused. */
export interface Refusal {
  url: string;
  error: unknown;
}

/** In seconds, or Infinity for ever. */
interface TimeOptions {
  /** What failed is asked for again after so long, 30 if not given; twice as long after each failure in a row, up to 600. */
  retryAfter?: number;
  /** What has no map is asked for again after so long, and never if it is not given. */
  noneFor?: number;
}

export interface TableOptions extends NamesOption, TimeOptions {
  /** Gives the map of a URL or path that has none here, without query and fragment. It is asked once for each, when a frame or a
   * place first names it. */
  load?: (url: string) => Given | null | undefined;
  /** Is told of each map that is not read for an error. */
  refused?: (url: string, error: unknown) => void;
  /** Relative sources go on from the folder of a URL that is a path with a folder, as node prints them. */
  paths?: boolean;
}

/** The maps of a trace, each under the URL that frames name, or under `*` and the text with which URLs end, from the beginning of a piece on:
 * `*app.js`, and not `*.js`. A TraceMap that is given is closed. */
export class Table {
  constructor(maps: Named<string>, options?: TableOptions);
  /** What was told to no one: the first 100. */
  readonly refusals: Refusal[];
  /** Those of the last text that `rewrite` rewrote over this table. */
  readonly counts: TraceCounts | null;
  /** Where a place in the file of a URL comes from, by the map under it, or else under it without query and fragment, or else of a
   * pattern. */
  lookUp(url: string, line: number, column: number): Place | null;
  close(): void;
  [Symbol.dispose](): void;
}

export interface MapsOptions extends NamesOption, TimeOptions {
  /** As a table's. One of the two is wanted. */
  load?: (url: string) => Given | null | undefined;
  /** Is called for a URL by one that waits, and the others wait with it. A map of more than 1 MB is read by another thread. */
  loadAsync?: (url: string) => Promise<Given | null | undefined>;
  /** For how many bytes of memory maps count at most, or one by itself. */
  maxBytes: number;
  refused?: (url: string, error: unknown) => void;
  /** So many promises are waited for at once, 8 if not given. */
  atOnce?: number;
  /** As a table's. */
  paths?: boolean;
}

export interface FolderOptions extends Pick<MapsOptions, 'maxBytes' | 'refused' | 'paths' | 'maxNames' | 'retryAfter' | 'noneFor'> {
  /** A file is looked at again after so many seconds, and read where it has changed; where that is refused, its map stays. If it is not
   * given, it is never looked at again. */
  freshFor?: number;
}

/** Maps by URL within a bound of memory: what was longest not asked for goes first. A TraceMap that is given stays open. */
export class Maps {
  constructor(options: MapsOptions);
  /** Those of URLs with this prefix, which ends in `/`, in a folder: that of PREFIXjs/app.js is js/app.js.map. That there is no such
   * folder is told once. */
  static folder(prefix: string, root: string, options: FolderOptions): Maps;
  maxBytes: number;
  /** For how many bytes what is kept counts, and how many maps are kept. */
  readonly nbytes: number;
  readonly size: number;
  readonly refusals: Refusal[];
  readonly counts: TraceCounts | null;
  /** Whether it is known what map this URL has, or that it has none. */
  has(url: string): boolean;
  /** This, `lookUp` and `context` ask `load`; without it, a map that `loadAsync` has yet to give is an error. */
  get(url: string): TraceMap | null;
  lookUp(url: string, line: number, column: number): Place | null;
  context(url: string, index: number, line: number, before?: number, after?: number): Context | null;
  /** Puts a map under this very URL; with its generated file functions of frames get the names of their sources. */
  add(url: string, map: Given, options?: { generated?: string | Uint8Array }): void;
  /** Drops what is known of a URL, so that it is asked for anew. */
  discard(url: string): void;
  /** Asks for the maps of these URLs that are not known. */
  load(urls: Iterable<string>): Promise<void>;
  close(): void;
}

/** With `anywhere` each place URL:line:column is replaced, wherever it stands; it excludes `hideIgnored`. With `stripAnsi` the text is
 * read without the control sequences that colour a terminal. */
export interface RewriteOptions {
  hideIgnored?: boolean;
  anywhere?: boolean;
  stripAnsi?: boolean;
  /** So many bytes may come out, 1,073,741,824 if not given. Where it would be more the text is refused, X5, and nothing comes
   * out. In a stream this is for each part that is written to it. */
  maxOutput?: number;
}

export function rewrite(table: Table | Maps, trace: string | Uint8Array, options?: RewriteOptions): Buffer;
/** The same, once the maps are there that the trace names. */
export function rewriteAsync(maps: Maps, trace: string | Uint8Array, options?: RewriteOptions): Promise<Buffer>;
/** The URLs and paths for whose maps a loader would be asked, each once. */
export function frameUrls(trace: string | Uint8Array, options?: { anywhere?: boolean }): string[];

/** Rewrites what is written to it, line by line. At most an unfinished line is held back. The table stays open. A map that is not
 * read for an error is an event `refused`, or where none listens told as the table tells it. It waits for what `loadAsync` gives. */
export class RewriteStream extends Transform {
  constructor(table: Table | Maps, options?: RewriteOptions);
  on(event: 'refused', listener: (url: string, error: unknown) => void): this;
  on(event: string | symbol, listener: (...args: any[]) => void): this;
  /** Those of all that was rewritten so far. */
  readonly counts: TraceCounts;
}
