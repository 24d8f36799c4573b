interface Line {
  product: string;
  count: number;
  price?: { cents: number };
}

interface Order {
  number: string;
  lines: Line[];
}

// Stands for a server. Its second product has no price.
export async function readOrder(number: string): Promise<Order> {
  await new Promise((resolve) => setTimeout(resolve, 1));
  return {
    number,
    lines: [
      { product: 'coffee', count: 2, price: { cents: 450 } },
      { product: 'cake', count: 1 },
    ],
  };
}
