/** What a station measured at an hour of the day. */
export interface Reading {
  station: string;
  hour: number;
  degrees: number;
}

/** Reads a line as `harbour;14;21.5`. */
export function readingOf(line: string): Reading {
  const [station, hour, degrees] = line.split(";");
  return { station: station.trim(), hour: Number(hour), degrees: Number(degrees) };
}

/** The readings of a text, a line each; empty lines are passed over. */
export function readingsIn(text: string): Reading[] {
  const lines = text.split("\n").filter((line) => line.trim() !== "");
  return lines.map(readingOf);
}
