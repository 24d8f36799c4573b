/** Reads a line as `harbour;14;21.5`. */
export function readingOf(line) {
    const [station, hour, degrees] = line.split(";");
    return { station: station.trim(), hour: Number(hour), degrees: Number(degrees) };
}
/** The readings of a text, a line each; empty lines are passed over. */
export function readingsIn(text) {
    const lines = text.split("\n").filter((line) => line.trim() !== "");
    return lines.map(readingOf);
}
//# sourceMappingURL=reading.js.map