'use strict';
// Why something is refused.
const addon = require('./addon.js');

const { E1, M14, U1, USAGE, X3, X5 } = addon.codes;

// What was given is refused, with a code of the program. `message` is its line, and after it what is known of why a map is refused;
// `url` is that at which the map stands.
class Refused extends Error {
  constructor(message, code, { cause, line, section, byte, url, value, limit, column, explanation, lines } = {}) {
    super(explanation ? `${message}\n${explanation.slice(0, -1)}` : message);
    this.name = 'Refused';
    [this.code, this.cause, this.line, this.section, this.byte] = [label(code), cause, line, section, byte];
    this.url = url;
    [this.value, this.limit, this.column, this.explanation, this.lines] = [value, limit, column, explanation, lines];
  }
}

const textOf = (code) => addon.codeText(code) || String(code);

// The letter and the number of a code, or its word.
const label = (code) => textOf(code).split(' ', 1)[0];

const shown = (url) =>
  url.length <= 200 ? JSON.stringify(url) : `${JSON.stringify(url.slice(0, 200))} and ${url.length - 200} characters more`;

// What is known of why the map of these bytes is refused: the program's line, the value of the faulty segment, its limit, which is the
// least where it is below that and else the most, the segment's column, and sentences; or null where that is no refusal of a map.
function why(bytes, numbers) {
  const reported = new Float64Array(4);
  return reason(reported, addon.refusalExplain(bytes, numbers, reported));
}

// The same of the numbers and the lines of the library.
function reason(reported, lines) {
  if (lines === null) return null;
  const [value, least, most, column] = Array.from(reported, (n) => (Number.isNaN(n) ? undefined : n));
  const text = lines.toString();
  const end = text.indexOf('\n');
  return { first: text.slice(0, end), value, limit: value < least ? least : most, column, explanation: text.slice(end + 1) || undefined };
}

// The bytes of texts that look like paths.
const seemingPaths = new WeakSet();

// These bytes, of a text that looks like a path: what is said of them where they are no JSON says so.
function seemingPath(bytes) {
  seemingPaths.add(bytes);
  return bytes;
}

const PATH_HINT = '  a text is that of a map: `fs.readFileSync` reads the file at a path\n';

// Why the map of these bytes is refused at this base, by the numbers of the library, and what is known of that.
function refusedMap(bytes, numbers, base, url, known = () => why(bytes, numbers)) {
  const [code, cause, line, hasSection, section, byte] = numbers;
  if (code === USAGE || code === U1) return new Refused(`the base is ${code === U1 ? 'too long' : 'no URL'}: ${shown(base)}`, code, { url });
  const told = known() || { first: textOf(code) };
  if (seemingPaths.has(bytes) && label(code) === 'M2') told.explanation = (told.explanation || '') + PATH_HINT;
  return new Refused(`refused: ${url === undefined ? '' : `${url}: `}${told.first}`, code, {
    ...told,
    ...(cause && { cause: label(cause) }),
    ...(hasSection && { section }),
    ...(code === M14 && { line, byte }),
    url,
  });
}

// What was given is refused with this code, and with what stands behind it.
function refusedAs(code, behind = '') {
  return new Refused(`refused: ${textOf(code)}${behind}`, code);
}

// Why a table takes no map under this URL.
function refusedUrl(code, url) {
  return new Refused(`usage: ${textOf(code)}: ${shown(url)}`, code, { url });
}

// Why a text is not rewritten; where more would come out than may, with how many whole lines of that fit.
function refusedText(code = X3, lines = undefined) {
  return code === X5 ? new Refused(`refused: ${textOf(code)}: ${lines} whole lines fit`, code, { lines }) : refusedAs(code);
}

// Why mappings of these numbers, eight each, have no text. Their lines do not fall: of one out of order that is its column.
function refusedEncoding([code, mapping], numbers) {
  if (code !== E1) return refusedAs(code);
  const [[, limit], [line, column]] = [numbers.subarray(8 * (mapping - 1)), numbers.subarray(8 * mapping)];
  return new Refused(`refused: ${textOf(code)} ${mapping}`, code, { line, value: column, limit, column });
}

module.exports = { Refused, reason, refusedAs, refusedEncoding, refusedMap, refusedText, refusedUrl, seemingPath };
