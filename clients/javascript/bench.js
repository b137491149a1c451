// Reads from a region with 64 lines in flight on one connection, and prints how many records a second; the best of three.
//
//   node bench.js ADDRESS READS

import { Client } from "./src/index.js";

const IN_FLIGHT = 64;
const RECORDS = 1000;

async function rate(client, reads) {
  let next = 0;
  const readOn = async () => {
    for (let at = next++; at < reads; at = next++) {
      const key = `key-${String((at * 7919) % RECORDS).padStart(6, "0")}`;
      const record = await client.read(key);
      if (record?.key !== key) {
        throw new Error(`${record?.key} in place of ${key}`);
      }
    }
  };
  const begin = performance.now();
  await Promise.all(Array.from({ length: IN_FLIGHT }, readOn));
  return (reads / (performance.now() - begin)) * 1000;
}

const [address, reads] = process.argv.slice(2);
if (!(Number(reads) > 0)) {
  throw new Error("usage: node bench.js ADDRESS READS");
}
const client = new Client(address);
let best = 0;
for (let turn = 0; turn < 3; turn += 1) {
  best = Math.max(best, await rate(client, Number(reads)));
}
console.log(best.toFixed(0));
await client.close();
