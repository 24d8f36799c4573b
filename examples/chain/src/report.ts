import { mean, span } from "./figures.js";
import type { Reading } from "./reading.js";
import type { Stations } from "./stations.js";

const WIDTH = 12;

function lineOf(station: string, readings: Reading[]): string {
  const degrees = readings.map((reading) => reading.degrees);
  const figures = [mean(degrees), span(degrees)].map((figure) => figure.toFixed(1));
  return station.padEnd(WIDTH) + figures.join(" ± ");
}

/** A line for each station: its name, the mean of its degrees, and their span. */
export function reportOf(stations: Stations): string {
  return [...stations].map(([station, readings]) => lineOf(station, readings)).join("\n");
}
