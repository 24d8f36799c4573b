/** The sum of some numbers over how many there are. */
export function mean(numbers: number[]): number {
  if (numbers.length === 0) {
    throw new RangeError("there is no mean of no numbers");
  }
  const sum = numbers.reduce((left, right) => left + right, 0);
  return sum / numbers.length;
}

/** How far the least and the greatest of some numbers are apart. */
export function span(numbers: number[]): number {
  return Math.max(...numbers) - Math.min(...numbers);
}
