// What a text says where to go: a position, or a frame of a trace as V8, Firefox and Safari print it. All count from 1 here.
export { fileOf, framesIn, placeIn };

const LARGEST = 2147483648;

// The last piece of a URL's path.
function fileOf(url) {
  return url.replace(/[?#].*$/, '').replace(/^.*[/\\]/, '');
}

function placeOf(line, column, url) {
  const place = { line: Number(line), column: Number(column), url };
  return place.line >= 1 && place.line <= LARGEST && place.column >= 1 && place.column <= LARGEST ? place : null;
}

// The place that a text names, or null. Of several the first is taken whose URL a test holds of, else that of the frame.
function placeIn(text, isNamed) {
  const said = text.trim();
  const bare = /^\(?(\d{1,10})(?:(?:\s*[:,]\s*|\s+)(\d{1,10}))?\)?$/.exec(said);
  if (bare) return placeOf(bare[1], bare[2] ?? '1', '');
  const places = [...said.matchAll(/([^\s()@]*):(\d{1,10}):(\d{1,10})(?!\d)/g)]
    .map(([, url, line, column]) => placeOf(line, column, url))
    .filter((place) => place);
  const own = places.find((place) => isNamed(place.url));
  if (own) return own;
  const frame = /^(?:at .* \(|at (?:async )?|[^@]*@)?([^\s@]*):(\d{1,10}):(\d{1,10})\)?$/.exec(said);
  return (frame && placeOf(frame[2], frame[3], frame[1])) ?? places[0] ?? null;
}

// The lines of a trace that name a place of a file, each with that place and its number, from 0.
function framesIn(trace, isNamed) {
  const frames = trace.split('\n').map((line, number) => ({ text: line.trim(), place: placeIn(line, isNamed), number }));
  return frames.filter(({ place }) => place?.url);
}
