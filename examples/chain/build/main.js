import { readingsIn } from "./reading.js";
import { reportOf } from "./report.js";
import { byStation } from "./stations.js";
const MORNING = 12;
/** Prints what the stations measured, of the whole day or of the morning alone. */
export function printReport(text, morningOnly = false) {
    const readings = readingsIn(text);
    const wanted = morningOnly ? readings.filter(({ hour }) => hour < MORNING) : readings;
    console.log(reportOf(byStation(wanted)));
}
printReport("harbour;6;14.2\nhill;6;9.8\nharbour;14;21.5\nhill;14;18.1\n");
//# sourceMappingURL=main.js.map