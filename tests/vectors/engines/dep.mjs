export function lost() { throw new Error('lost'); }
export class Kept { run() { lost(); } }
export default function () { lost(); }
export const fail = () => lost();
