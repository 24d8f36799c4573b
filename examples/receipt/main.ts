import { receipt } from './receipt';

async function main(number: string): Promise<void> {
  console.log(await receipt(number));
}

main('1017').catch((error: Error) => console.error(error.stack));
