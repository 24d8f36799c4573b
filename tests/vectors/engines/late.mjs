export async function run() { await null; throw new Error("late"); }
