// Runs before the cases: keeps what they throw as the engine prints it; or, where `asSites` is set, as V8 has it.
'use strict';
const SEEN = [];
if (globalThis.asSites) {
  Error.prepareStackTrace = (_, sites) =>
    sites.map((site) => [site.getScriptNameOrSourceURL() ?? null, site.getLineNumber(), site.getColumnNumber(), site.isEval() && site.getEvalOrigin() !== undefined]);
}
globalThis.seen = function (name, run) {
  const keep = (error) => {
    const { stack, fileName, lineNumber, columnNumber, sourceURL, line, column } = error;
    SEEN.push({ name, stack, title: globalThis.asSites ? '' : String(error), top: [fileName ?? sourceURL, lineNumber ?? line, columnNumber ?? column] });
  };
  try {
    const result = run();
    if (result && result.then) return result.then(() => SEEN.push({ name }), keep);
    SEEN.push({ name });
  } catch (error) {
    keep(error);
  }
  return null;
};
globalThis.ended = function () {
  report(JSON.stringify(SEEN));
};
