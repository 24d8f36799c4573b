import { total } from './orders/total';

interface Receipt { readonly prices: string; readonly rate: number }

function tried<T>(call: () => T): void {
  try {
    console.log(call());
  } catch (error) {
    console.error((error as Error).stack);
  }
}

const receipts: readonly Receipt[] = [
  { prices: '[1, 2]', rate: 3 },
  { prices: '[1, "2"]', rate: 3 },
  { prices: '[1', rate: 3 },
  { prices: '[]', rate: 0 },
];

for (const { prices, rate } of receipts) tried(() => total(prices, rate));
process.on('exit', () => tried(() => { throw new RangeError('too late'); }));
