// The calls, each with its answer, which is written out by hand. Those that take memory have what they answer where it is
// wanting: one answer, or several of which each has to come. `growths` is how often it grows with ample memory, where that is
// pinned, and `again` what is reported in place of its answer where it is not made again.
'use strict';

const TWO = '0,0,0,0,0 0,10,1,0,0';
const TWO_WRITTEN = '{"mappings":"AAAA,UCAA","names":[],"sources":["a.js","b.js"],"version":3}';
const FIVE = '0,0,0,0,0 0,1,0,0,1 0,2,0,0,2 0,3,0,0,3 0,4,0,0,4';
const COMPOSED = '{"mappings":"ACAA,KACI","names":[],"sources":["mid.js","a.ts"],"version":3}';
const LINE = '    at f (https://ex.test/app.js:1:6)';
// Its map is read without a base, so that the source keeps its name.
const REPLACED = '1 1 1|    at f (a.ts:1:2)';
const NO_ROOM = '3||memory/';
const COUNTS = 'ok sections 2 sources 2 names 0 segments 2 lines 2 checkpoints 2';
const REFUSAL = 'refused: m.map: M14 Text 0 F10 SourceIndex line 1 byte 0';
const COUNTS_JSON =
  '{"checkpoints":2,"lines":2,"names":0,"ok":true,"path":"a.map","sections":2,"segments":2,"sources":2}';
const WHY = '  segment "ACAA" at line 1, column 1, numbers 0, 1, 0, 0/  source index 1, and the map has 1 source/';
const CUT =
  '  the file begins as JSON/  reading stopped at byte 1 (line 1, column 2): ..{ » ..; the file ends too early, as one that was cut does/';
const KEY_WHY =
  '  `names`, item 0 is null, and the key may hold a list of texts, at most 33,554,432 in the file/';
const OVERLAP_WHY =
  '  section 1 begins at line 1, column 11/  the mapping that is at fault is at line 1, column 12/';
const NEAREST =
  '  line 2 has no mapping/  the last mapping at the position or before it is at line 1, column 2/  no mapping stands after it/';
const CODE =
  'C1 SourceIndex/  means: The map, in `compose` the outer one, has no source of this number./  causes: Sources count from 0, or the number is of another map./  to do: See with `smap sources MAP` which sources the map has./';
const PRUNED = '{"mappings":"AAAA,KACI","names":[],"sources":["a.ts"],"version":3}';
const LISTED = '1:1 a.js:1:1/1:11 b.js:1:1/';
const LISTED_JSON =
  '{"answer":"found","generatedColumn":1,"generatedLine":1,"ignored":false,"name":null,"originalColumn":1,"originalLine":1,"source":"a.js","sourceIndex":0}/{"answer":"found","generatedColumn":11,"generatedLine":1,"ignored":false,"name":null,"originalColumn":1,"originalLine":1,"source":"b.js","sourceIndex":1}/';
const BY_BYTES = '1 1 11 b.js no content/0 1 10 a.js no content/unmapped 0/total 21/';
const BY_BYTES_JSON =
  '{"bytes":11,"content":false,"ignored":false,"segments":1,"source":"b.js","sourceIndex":1}/{"bytes":10,"content":false,"ignored":false,"segments":1,"source":"a.js","sourceIndex":0}/{"total":21,"unmapped":0}/';
const EXCERPT = 'a.ts:1:7/let 😀x/     ^/';
const EXCERPT_JSON =
  '{"answer":"found","column":1,"excerpt":["let 😀x","     ^"],"generatedColumn":1,"ignored":false,"line":1,"name":null,"originalColumn":7,"originalLine":1,"source":"a.ts","sourceIndex":0}/';
const REFUSAL_JSON =
  '{"byte":0,"fault":"F10","faultName":"SourceIndex","generatedColumn":1,"least":0,"line":1,"most":0,"name":"Text","numbers":[0,1,0,0],"ok":false,"path":"m.map","quantity":"source index","refusal":"M14","section":0,"segment":"ACAA","value":1}';

// Two lines that are rewritten; and the second as it was, for whose map memory ran out.
const BOTH_MAPPED = '    at f (https://ex.test/a.ts:1:2)/    at g (https://ex.test/js/a.ts:1:2)/';
const ONE_MAPPED = '    at f (https://ex.test/a.ts:1:2)/    at g (https://ex.test/js/b.js:1:6)/';

// What stays where a map is not put into a table: what comes back, and the line over the table as it was.
const KEPT = `Memory https://ex.test/app.js 2 1 1 0|${LINE}`;

const TAKING = [
  { call: 'texts write_vlq', answer: '!+/////D', memory: 'memory !' },
  { call: 'texts decode', answer: FIVE, memory: 'memory', growths: 1 },
  { call: 'texts encode', answer: 'AAAA,UCAA', memory: 'Memory', growths: 1 },
  { call: 'texts control: ten bytes', answer: 'ten bytes', again: '-', memory: 'memory', growths: 2 },
  { call: 'texts control: five checkpoints', answer: 'five checkpoints', again: '-', memory: 'memory', growths: 2 },
  { call: 'texts build 1', answer: `5 checkpoints of ${FIVE}`, memory: 'Memory', growths: 1 },
  { call: 'texts build 64', answer: `1 checkpoints of ${FIVE}`, memory: 'Memory', growths: 1 },
  { call: 'texts decode_all', answer: TWO, memory: 'memory', growths: 1 },
  { call: 'texts encode_all', answer: 'AAAA,UCAA', memory: 'Memory', growths: 1 },
  { call: 'texts resolve with a base', answer: 'URL https://ex.test/js/src/a.ts', memory: 'Memory' },
  { call: 'texts resolve without a base', answer: 'text src/a.ts', memory: 'Memory' },
  { call: 'texts resolve a URL', answer: 'URL webpack:///src/a.ts', memory: 'Memory' },
  { call: 'texts segment_numbers', answer: 'Some([0, 1, 0, 0])', memory: 'memory' },
  { call: 'texts excerpt', answer: 'let 😀x/     ^', memory: 'memory' },
  { call: 'maps read two sections', answer: `${TWO} ${TWO_WRITTEN}`, memory: 'Memory' },
  {
    call: 'maps read one section',
    answer: '0,0,0,0,0 0,1,0,0,1 {"mappings":"AAAA,CAAC","names":[],"sources":["a.ts"],"version":3}',
    memory: 'Memory',
  },
  {
    call: 'maps read a content',
    answer:
      '0,0,0,0,6 {"mappings":"AAAM","names":[],"sources":["a.ts"],"sourcesContent":["let 😀x"],"version":3}',
    memory: 'Memory',
  },
  {
    call: 'maps read all kinds',
    answer:
      '0,0,0,0,0,1 1,0,1,2,3,0 {"file":"o.js","ignoreList":[1],"mappings":"AAAAC;ACEGD","names":["f","g"],"sources":["https://ex.test/js/src/a.ts",null,"https://ex.test/js/src/c.ts"],"sourcesContent":[null,"x","y"],"version":3}',
    memory: 'Memory',
  },
  {
    call: 'maps read_owned',
    answer: '0,0,0,0,0 0,1,0,0,1 {"mappings":"AAAA,CAAC","names":[],"sources":["a.ts"],"version":3}',
    memory: 'Memory',
  },
  { call: 'maps read no JSON', answer: 'NotJson', memory: 'Memory' },
  {
    call: 'maps read a bad source',
    answer: 'Text(0, Fault { byte: 0, line: 0, kind: SourceIndex })',
    memory: 'Memory',
  },
  { call: 'maps read an overlap', answer: 'Build(SectionOverlap(1))', memory: 'Memory' },
  { call: 'maps decode_all', answer: TWO, memory: 'memory', growths: 1 },
  { call: 'maps write', answer: TWO_WRITTEN, memory: 'Memory' },
  { call: 'maps write_record', answer: TWO_WRITTEN, memory: 'memory' },
  { call: 'maps compose', answer: `0,0,1,0,0 0,5,1,1,4 ${COMPOSED}`, memory: 'Memory' },
  { call: 'maps compose_all', answer: `0,0,1,0,0 0,5,1,1,4 ${COMPOSED}`, memory: 'Memory' },
  { call: 'maps compose_all, pruned', answer: `0,0,0,0,0 0,5,0,1,4 ${PRUNED}`, memory: 'Memory' },
  { call: 'maps Composed::write', answer: COMPOSED, memory: 'memory' },
  { call: 'traces add to an empty table', answer: REPLACED, memory: KEPT },
  { call: 'traces add to a table of 1', answer: REPLACED, memory: KEPT },
  { call: 'traces add to a table of 11', answer: REPLACED, memory: KEPT },
  { call: 'traces rewrite', answer: REPLACED, memory: 'Memory|' },
  { call: 'traces rewrite_anywhere', answer: REPLACED, memory: 'Memory|' },
  { call: 'traces answer_position_lines', answer: 'answered|a.ts:1:2/bad position/', memory: 'not answered|' },
  {
    call: 'traces answer_position_lines as JSON',
    answer:
      'answered|{"answer":"found","column":2,"generatedColumn":2,"ignored":false,"line":1,"name":null,"originalColumn":2,"originalLine":1,"source":"a.ts","sourceIndex":0}/{"answer":"bad position"}/',
    memory: 'not answered|',
  },
  { call: 'lists print_mappings', answer: `printed|${LISTED}`, memory: 'memory|' },
  { call: 'lists print_mappings as JSON', answer: `printed|${LISTED_JSON}`, memory: 'memory|' },
  { call: 'lists sources_text', answer: '0 1 a.js no content/1 1 b.js no content/', memory: 'memory' },
  { call: 'lists sources_text with bytes', answer: BY_BYTES, memory: 'memory' },
  { call: 'lists sources_text as JSON', answer: BY_BYTES_JSON, memory: 'memory' },
  { call: 'lists lookup_text', answer: EXCERPT, memory: 'memory' },
  { call: 'lists lookup_as_json', answer: EXCERPT_JSON, memory: 'memory' },
  { call: 'lists bytes_by_source', answer: '[10, 11] 0', memory: 'memory' },
  { call: 'lists segments_by_source', answer: '[1, 1]', memory: 'memory' },
  { call: 'lists source_table', answer: '1 1 Some(11), 0 1 Some(10), 0', memory: 'memory' },
  {
    call: 'verdicts explain no JSON',
    answer: CUT,
    memory: 'memory',
  },
  {
    call: 'verdicts explain a list',
    answer: '  the JSON value is a list, of which the length is 0, and must be an object/',
    memory: 'memory',
  },
  { call: 'verdicts explain a key', answer: KEY_WHY, memory: 'memory' },
  { call: 'verdicts explain a segment', answer: WHY, memory: 'memory' },
  { call: 'verdicts explain an overlap', answer: OVERLAP_WHY, memory: 'memory' },
  {
    call: 'verdicts explanation_text of no JSON',
    answer: CUT,
    memory: 'memory',
  },
  { call: 'verdicts explanation_text of a key', answer: KEY_WHY, memory: 'memory' },
  { call: 'verdicts explanation_text of a segment', answer: WHY, memory: 'memory' },
  { call: 'verdicts explanation_text of an overlap', answer: OVERLAP_WHY, memory: 'memory' },
  {
    call: 'verdicts refusal_json of a key',
    answer:
      '{"found":"null","item":0,"key":"names","name":"Names","ok":false,"path":"m.map","refusal":"M9"}',
    memory: 'memory',
  },
  { call: 'verdicts refusal_json of a segment', answer: REFUSAL_JSON, memory: 'memory' },
  {
    call: 'verdicts refusal_json of an overlap',
    answer:
      '{"index":"B3","indexName":"SectionOverlap","mapping":{"column":12,"line":1},"name":"Build","offset":{"column":11,"line":1},"ok":false,"path":"m.map","refusal":"M15","section":1}',
    memory: 'memory',
  },
  { call: 'verdicts refusal_text', answer: 'M14 Text 0 F10 SourceIndex line 1 byte 0', memory: 'memory' },
  { call: 'verdicts refusal_of', answer: `${REFUSAL}/`, memory: 'memory' },
  { call: 'verdicts fault_text', answer: 'F10 SourceIndex line 1 byte 0', memory: 'memory' },
  { call: 'verdicts nearest_text', answer: NEAREST, memory: 'memory' },
  { call: 'verdicts counts_text', answer: COUNTS, memory: 'memory' },
  { call: 'verdicts counts_json', answer: COUNTS_JSON, memory: 'memory' },
  { call: 'verdicts code_text', answer: CODE, memory: 'memory' },
  { call: 'verdicts all_codes_text', answer: 'M1 TooLarge .. refused', memory: 'memory' },
  { call: 'stores add_file', answer: 'app.map none', memory: 'memory, none none' },
  {
    call: 'stores add_list',
    answer: 'app.map maps/b.js.map',
    memory: ['1 Memory, none none', '2 Memory, none maps/b.js.map'],
  },
  { call: 'stores path_for a file', answer: 'app.map', memory: 'memory' },
  { call: 'stores path_for a file of a folder', answer: 'maps/b.js.map', memory: 'memory' },
  { call: 'stores url_lengths', answer: '[22]', memory: 'memory' },
  { call: 'stores prefix_lengths', answer: '[19]', memory: 'memory' },
  { call: 'stores MapUrls::new', answer: 'made', memory: 'memory' },
  { call: 'stores LineCounter::new', answer: 'made', memory: 'memory' },
  {
    call: 'stores rewrite_over',
    answer: 'rewritten|    at f (a.ts:1:2)|0 0',
    memory: ['memory||0 0', `rewritten|${LINE}|1 0`, `rewritten|${LINE}|0 1`],
  },
  { call: 'parse smap raw 1 6', answer: 'raw 0 5', memory: 'Memory' },
  { call: 'parse smap check m.map', answer: 'check m.map', memory: 'Memory' },
  { call: 'parse smap check --base https://ex.test/ m.map', answer: 'check m.map with a base', memory: 'Memory' },
  { call: 'parse smap check m.map n.map', answer: 'check m.map n.map', memory: 'Memory' },
  { call: 'parse smap check --json m.map', answer: 'check m.map as JSON', memory: 'Memory' },
  { call: 'parse smap lookup c.map 1 1', answer: 'lookup c.map 0 0', memory: 'Memory' },
  { call: 'parse smap show b.map', answer: 'show b.map', memory: 'Memory' },
  { call: 'parse smap compose o.map 0 i.map', answer: 'compose o.map 0 i.map', memory: 'Memory' },
  {
    call: 'parse smap rewrite https://ex.test/app.js=app.map',
    answer: 'rewrite https://ex.test/app.js of app.map',
    memory: 'Memory',
  },
  {
    call: 'parse smap rewrite --anywhere https://ex.test/app.js=app.map',
    answer: 'rewrite from https://ex.test/app.js of app.map',
    memory: 'Memory',
  },
  {
    call: 'parse smap rewrite --anywhere --hide-ignored u=m',
    answer: 'mistake: usage: not together: --hide-ignored, --anywhere',
    memory: 'Memory',
  },
  { call: 'parse smap positions --json m.map', answer: 'positions m.map', memory: 'Memory' },
  { call: 'parse smap rewrite --maps list', answer: 'rewrite from', memory: 'Memory' },
  { call: 'parse smap mappings --json m.map 2', answer: 'mappings m.map', memory: 'Memory' },
  { call: 'parse smap sources --sort bytes m.map g.js', answer: 'sources m.map', memory: 'Memory' },
  { call: 'parse smap sources --content 0 m.map', answer: 'content m.map 0', memory: 'Memory' },
  { call: 'parse smap show --prune m.map', answer: 'show of m.map', memory: 'Memory' },
  {
    call: 'parse smap compose --prune o.map 0 i.map',
    answer: 'compose of o.map 0 i.map',
    memory: 'Memory',
  },
  {
    call: 'parse smap compose --inner mid.js=i.map o.map',
    answer: 'compose o.map mid.js of i.map',
    memory: 'Memory',
  },
  { call: 'parse smap explain C1', answer: 'explain C1', memory: 'Memory' },
  { call: 'parse smap fit a.map a.js', answer: 'fit 2 paths', memory: 'Memory' },
  { call: 'parse smap explain', answer: 'explain', memory: 'Memory' },
  { call: 'parse smap rewrite app.map', answer: 'mistake: usage: no URL=FILE: app.map', memory: 'Memory' },
  { call: 'parse smap check --base nope m.map', answer: 'mistake: usage: bad base URL', memory: 'Memory' },
  {
    call: 'parse smap raw 0 1',
    answer: "mistake: error: invalid value '0' for '<LINE>': 0 is not in 1..=2147483648",
    memory: 'Memory',
  },
  { call: 'run raw', answer: '0|source 0 line 1 column 2/|', memory: NO_ROOM },
  { call: 'run raw, refused', answer: '1||refused: F5 NegativeZero line 1 byte 0/', memory: NO_ROOM },
  {
    call: 'run check',
    answer: `0|${COUNTS}/|`,
    memory: NO_ROOM,
  },
  {
    call: 'run check, refused',
    answer: `1||${REFUSAL}/`,
    memory: NO_ROOM,
  },
  {
    call: 'run check of two',
    answer: `1|a.map: ${COUNTS}/|${REFUSAL}/`,
    memory: [`3|a.map: ${COUNTS}/|memory/`, `3||${REFUSAL}/memory/`],
  },
  {
    call: 'run check of two as JSON',
    answer: `1|${REFUSAL_JSON}/${COUNTS_JSON}/|`,
    memory: [`3|${COUNTS_JSON}/|memory/`, `3|${REFUSAL_JSON}/|memory/`],
  },
  { call: 'run check, unread', answer: '3||device: read o.map/', memory: NO_ROOM },
  { call: 'run lookup', answer: '0|b.js:1:1/|', memory: NO_ROOM },
  { call: 'run lookup with an excerpt', answer: '0|a.ts:1:7/let 😀x/     ^/|', memory: NO_ROOM },
  {
    call: 'run lookup as JSON',
    answer:
      '0|{"answer":"found","column":1,"excerpt":["let 😀x","     ^"],"generatedColumn":1,"ignored":false,"line":1,"name":null,"originalColumn":7,"originalLine":1,"source":"a.ts","sourceIndex":0}/|',
    memory: NO_ROOM,
  },
  { call: 'run positions', answer: '0|b.js:1:1/|', memory: NO_ROOM },
  {
    call: 'run positions as JSON',
    answer:
      '0|{"answer":"found","column":11,"generatedColumn":11,"ignored":false,"line":1,"name":null,"originalColumn":1,"originalLine":1,"source":"b.js","sourceIndex":1}/|',
    memory: NO_ROOM,
  },
  { call: 'run positions, refused', answer: '1|bad position/|refused: P1 BadPosition 1/', memory: NO_ROOM },
  { call: 'run rewrite anywhere', answer: '0|12:34 (https://ex.test/a.ts:1:2) {|', memory: NO_ROOM },
  { call: 'run show', answer: `0|${TWO_WRITTEN}/|`, memory: NO_ROOM },
  { call: 'run compose', answer: `0|${COMPOSED}/|`, memory: NO_ROOM },
  { call: 'run compose, refused', answer: '1||refused: C1 SourceIndex/', memory: NO_ROOM },
  { call: 'run rewrite', answer: '0|    at f (https://ex.test/a.ts:1:2)|', memory: NO_ROOM },
  { call: 'run rewrite, refused', answer: '2||usage: A1 BadUrl: =app.map/', memory: NO_ROOM },
  { call: 'run mappings', answer: `0|${LISTED}|`, memory: NO_ROOM },
  { call: 'run mappings as JSON', answer: `0|${LISTED_JSON}|`, memory: NO_ROOM },
  {
    call: 'run fit',
    answer: '1|m.map: does not fit g.js: 0 past the text, 1 inside a word, of 2 mappings/|',
    memory: NO_ROOM,
  },
  {
    call: 'run fit as JSON',
    answer:
      '0|{"compared":1,"explanation":null,"firstInside":null,"firstPast":null,"fits":true,"generated":"g.js","inside":0,"map":"m.map","mappings":1,"outside":0,"past":0,"same":0}/|',
    memory: NO_ROOM,
  },
  { call: 'run sources', answer: `0|${BY_BYTES}|`, memory: NO_ROOM },
  { call: 'run sources as JSON', answer: `0|${BY_BYTES_JSON}|`, memory: NO_ROOM },
  { call: 'run sources --content', answer: '0|let 😀x|', memory: NO_ROOM },
  { call: 'run explain', answer: `0|${CODE}|`, memory: NO_ROOM },
  { call: 'run check with explain', answer: `1||${REFUSAL}/${WHY}`, memory: NO_ROOM },
  {
    call: 'run check of two with explain',
    answer: `1|a.map: ${COUNTS}/|${REFUSAL}/${WHY}`,
    memory: [`3|a.map: ${COUNTS}/|memory/`, `3||${REFUSAL}/${WHY}memory/`],
  },
  { call: 'run lookup with explain', answer: `0|none/${NEAREST}|`, memory: NO_ROOM },
  {
    call: 'run show in part',
    answer: '0|{"mappings":"AAAM","names":[],"sources":["a.ts"],"version":3}/|',
    memory: NO_ROOM,
  },
  { call: 'run compose in part', answer: `0|${PRUNED}/|`, memory: NO_ROOM },
  { call: 'run compose all', answer: `0|${PRUNED}/|`, memory: NO_ROOM },
  { call: 'run compose all of a list', answer: `0|${PRUNED}/|`, memory: NO_ROOM },
  {
    call: 'run rewrite over a folder',
    answer: `0|${BOTH_MAPPED}|`,
    memory: [NO_ROOM, `3|${ONE_MAPPED}|memory: maps/b.js.map/`, `3|${ONE_MAPPED}|memory/`],
  },
  {
    call: 'run rewrite over a folder, with a summary',
    answer: `0|${BOTH_MAPPED}|ok lines 2 frames 2 mapped 2 hidden 0 long 0 maps 2 missing 0 refused 0 passed 0/`,
    memory: [
      NO_ROOM,
      `3|${ONE_MAPPED}|memory/ok lines 2 frames 2 mapped 1 hidden 0 long 0 maps 1 missing 0 refused 0 passed 0/`,
      `3|${ONE_MAPPED}|memory: maps/b.js.map/ok lines 2 frames 2 mapped 1 hidden 0 long 0 maps 1 missing 1 refused 0 passed 0/`,
      `3|${ONE_MAPPED}|memory/ok lines 2 frames 2 mapped 1 hidden 0 long 0 maps 2 missing 0 refused 0 passed 0/`,
      `3|${BOTH_MAPPED}|memory/`,
    ],
  },
  {
    call: 'run rewrite anywhere over a folder',
    answer: `0|${BOTH_MAPPED}|`,
    memory: [NO_ROOM, `3|${ONE_MAPPED}|memory: maps/b.js.map/`, `3|${ONE_MAPPED}|memory/`],
  },
  { call: 'load /dev/null', answer: '0 bytes', memory: NO_ROOM },
  { call: 'load /', answer: 'unread', memory: NO_ROOM },
];

const FREE = [
  { call: 'free read_vlq', answer: 'Ok((2147483647, 8)) Err(BadDigit)' },
  { call: 'free check', answer: '2 segments' },
  { call: 'free check, refused', answer: 'refused AAAA,B' },
  {
    call: 'free start, next, segments, used_lines',
    answer: '3 segments on 2 lines, 3 counted, columns 1',
  },
  { call: 'free Meter', answer: '1 0 true' },
  { call: 'free Index', answer: '3,0,0,3 3,0,0,3: 3 5 1, 1 and 1 counted' },
  { call: 'free SourceName::text', answer: 'a.ts' },
  { call: 'free MapFile', answer: '0,0,0,6 0,0,0,6 let 😀x None None (1, 1, 0, 1, 1, 1)' },
  { call: 'free line_at, units, unit_place', answer: 'let 😀x 7 Inside(4) At(8) Past(7)' },
  { call: 'free frame', answer: 'https://ex.test/app.js 1 6' },
  { call: 'free Table::new', answer: 'takes a map' },
  { call: 'free Composed::mappings', answer: '0,0,1,0,0 0,5,1,1,4' },
  { call: 'free neighbours', answer: '0 3' },
  { call: 'free Locations::new, MapCache::new', answer: 'false 0' },
];

module.exports = { FREE, TAKING };
