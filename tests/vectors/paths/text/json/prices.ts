/** The prices of a receipt. */
export function pricesIn(text: string): number[] {
  const read: unknown = JSON.parse(text);
  return (read as unknown[]).map((price) => {
    if (typeof price !== 'number') {
      throw new TypeError(`no price: ${price}`);
    }
    return price;
  });
}
