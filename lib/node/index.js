'use strict';
// Source maps of ECMA-426 over the library libsmap, with the calls of @jridgewell/trace-mapping: lines from 1 and columns
// from 0, in UTF-16 code units. index.d.ts has the types.
const { compose, composeAll } = require('./composing.js');
const { TraceMap, sourceContext } = require('./map.js');
const { Maps, frameUrls, rewriteAsync } = require('./maps.js');
const { Refused } = require('./refused.js');
const { remapping } = require('./remapping.js');
const { RewriteStream } = require('./stream.js');
const { Table, rewrite } = require('./table.js');
const {
  AnyMap,
  FlattenMap,
  GREATEST_LOWER_BOUND,
  LEAST_UPPER_BOUND,
  allGeneratedPositionsFor,
  decodedMap,
  decodedMappings,
  eachMapping,
  encodedMap,
  encodedMappings,
  generated,
  generatedPositionFor,
  isIgnored,
  lookUpMany,
  originalPositionFor,
  presortedDecodedMap,
  sourceContent,
  sourceContentFor,
  sourceName,
  traceSegment,
} = require('./tracing.js');

// Each name stands here by itself, for `import { .. } from 'smap'`: node finds no others.
module.exports = {
  AnyMap,
  FlattenMap,
  GREATEST_LOWER_BOUND,
  LEAST_UPPER_BOUND,
  Maps,
  Refused,
  RewriteStream,
  Table,
  TraceMap,
  allGeneratedPositionsFor,
  compose,
  composeAll,
  decodedMap,
  decodedMappings,
  eachMapping,
  encodedMap,
  encodedMappings,
  frameUrls,
  generated,
  generatedPositionFor,
  isIgnored,
  lookUpMany,
  originalPositionFor,
  presortedDecodedMap,
  remapping,
  rewrite,
  rewriteAsync,
  sourceContent,
  sourceContentFor,
  sourceContext,
  sourceName,
  traceSegment,
};
