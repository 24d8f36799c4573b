import Mustache from 'mustache';
import { readOrder } from './orders';

const LINE = '{{count}} {{product}}: {{total}} EUR';

export async function receipt(number: string): Promise<string> {
  const order = await readOrder(number);
  const lines = order.lines.map((line) =>
    Mustache.render(LINE, {
      ...line,
      total: () => ((line.count * line.price!.cents) / 100).toFixed(2),
    }),
  );
  return [`Order ${order.number}`, ...lines].join('\n');
}
