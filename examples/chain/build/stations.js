/** The readings of each station, by the hour. */
export function byStation(readings) {
    const stations = new Map();
    for (const reading of readings) {
        const own = stations.get(reading.station) ?? [];
        own.push(reading);
        stations.set(reading.station, own);
    }
    for (const own of stations.values()) {
        own.sort((one, other) => one.hour - other.hour);
    }
    return stations;
}
//# sourceMappingURL=stations.js.map