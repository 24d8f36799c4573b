import { sum, Line } from './deep/sum.js';

export class Price {
  constructor(private readonly lines: Line[]) {}
  get total(): number { return sum(this.lines); }
  async later(): Promise<number> { await Promise.resolve(); return this.total; }
}
