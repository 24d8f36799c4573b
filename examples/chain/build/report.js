import { mean, span } from "./figures.js";
const WIDTH = 12;
function lineOf(station, readings) {
    const degrees = readings.map((reading) => reading.degrees);
    const figures = [mean(degrees), span(degrees)].map((figure) => figure.toFixed(1));
    return station.padEnd(WIDTH) + figures.join(" ± ");
}
/** A line for each station: its name, the mean of its degrees, and their span. */
export function reportOf(stations) {
    return [...stations].map(([station, readings]) => lineOf(station, readings)).join("\n");
}
//# sourceMappingURL=report.js.map