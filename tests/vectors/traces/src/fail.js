// Six frames of a trace show.
Error.stackTraceLimit = 6;

export class Failure extends Error {}

export function fail(text) {
  throw new Failure(text);
}

// Prints the trace of what a function throws.
export function show(kind, body) {
  try {
    body();
  } catch (error) {
    console.log(`== ${kind}\n${error.stack}\n`);
  }
}
