/** Reads a line as `harbour;14;21.5`. */
function readingOf(line) {
    const [station, hour, degrees] = line.split(";");
    return { station: station.trim(), hour: Number(hour), degrees: Number(degrees) };
}
/** The readings of a text, a line each; empty lines are passed over. */
function readingsIn(text) {
    const lines = text.split("\n").filter((line) => line.trim() !== "");
    return lines.map(readingOf);
}

/** The sum of some numbers over how many there are. */
function mean(numbers) {
    if (numbers.length === 0) {
        throw new RangeError("there is no mean of no numbers");
    }
    const sum = numbers.reduce((left, right) => left + right, 0);
    return sum / numbers.length;
}
/** How far the least and the greatest of some numbers are apart. */
function span(numbers) {
    return Math.max(...numbers) - Math.min(...numbers);
}

const WIDTH = 12;
function lineOf(station, readings) {
    const degrees = readings.map((reading) => reading.degrees);
    const figures = [mean(degrees), span(degrees)].map((figure) => figure.toFixed(1));
    return station.padEnd(WIDTH) + figures.join(" ± ");
}
/** A line for each station: its name, the mean of its degrees, and their span. */
function reportOf(stations) {
    return [...stations].map(([station, readings]) => lineOf(station, readings)).join("\n");
}

/** The readings of each station, by the hour. */
function byStation(readings) {
    const stations = new Map();
    for (const reading of readings) {
        const own = stations.get(reading.station) ?? [];
        own.push(reading);
        stations.set(reading.station, own);
    }
    for (const own of stations.values()) {
        own.sort((one, other) => one.hour - other.hour);
    }
    return stations;
}

const MORNING = 12;
/** Prints what the stations measured, of the whole day or of the morning alone. */
function printReport(text, morningOnly = false) {
    const readings = readingsIn(text);
    const wanted = morningOnly ? readings.filter(({ hour }) => hour < MORNING) : readings;
    console.log(reportOf(byStation(wanted)));
}
printReport("harbour;6;14.2\nhill;6;9.8\nharbour;14;21.5\nhill;14;18.1\n");

export { printReport };
//# sourceMappingURL=bundle.js.map
