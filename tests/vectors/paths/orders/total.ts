import { pricesIn } from '../text/json/prices';

export class Rate {
  constructor(readonly of: number) {
    if (of === 0) throw new RangeError('no rate');
  }
}

export function total(text: string, rate: number): number {
  const { of } = new Rate(rate);
  return pricesIn(text).reduce((sum, price) => sum + price * of, 0);
}
