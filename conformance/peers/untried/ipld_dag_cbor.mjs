// Untried here. @ipld/dag-cbor, the codec of IPLD for JavaScript: `npm install @ipld/dag-cbor`, and then
//     conformance/run node conformance/peers/untried/ipld_dag_cbor.mjs
import { createInterface } from 'node:readline';
import { decode, encode } from '@ipld/dag-cbor';

createInterface({ input: process.stdin, crlfDelay: Infinity }).on('line', (line) => {
  let answer;
  try {
    answer = `ok ${Buffer.from(encode(decode(Uint8Array.from(Buffer.from(line, 'hex'))))).toString('hex')}`;
  } catch (error) {
    answer = `refused ${error instanceof RangeError ? 'memory' : error.name}`;
  }
  process.stdout.write(`${answer}\n`);
});
