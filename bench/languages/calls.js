// Nanoseconds of each call for the block of each file, the least of RUNS:
// node calls.js ADDON RUNS FILE..
// Prints decode and encode of ours, JSON.parse and JSON.stringify of the same data (0 where JSON has
// no such data), and decode and encode of the package `cbor` (0 where it is not there, and of links,
// for which it has no class; a byte string is a Buffer there), one line for each file.
'use strict';
const { readFileSync } = require('fs');
const [, , addon, runs, ...paths] = process.argv;
const { CID, decode, encode } = require(addon);
const cborOf = () => {
  try {
    return require('cbor');
  } catch (error) {
    return undefined;
  }
};
const cbor = cborOf();
// Its `encode` is this, for what is shorter than the mark.
const cborEncode = (value) => cbor.encodeOne(value, { highWaterMark: 1 << 24 });

// Of each call, in turn: so what else the machine does falls on all of them.
const least = (calls) => {
  const now = () => process.cpuUsage().user + process.cpuUsage().system;
  const counts = calls.map(([call, given] = []) => {
    if (!call) return 0;
    const start = performance.now();
    let rounds = 0;
    while (rounds < 50 && performance.now() - start < 500) call(given), rounds++;
    return 1 + Math.floor(20 / (0.0001 + (performance.now() - start) / rounds));
  });
  const best = calls.map((it) => (it ? Infinity : 0));
  for (let run = 0; run < Number(runs); run++) {
    calls.forEach(([call, given] = [], i) => {
      if (!call) return;
      const start = now();
      for (let left = counts[i]; left > 0; left--) call(given);
      best[i] = Math.min(best[i], ((now() - start) * 1000) / counts[i]);
    });
  }
  return best;
};

const isData = (value) =>
  !(value instanceof CID || value instanceof Uint8Array || typeof value === 'bigint') &&
  (typeof value !== 'object' || value === null || Object.values(value).every(isData));

for (const path of paths) {
  const block = readFileSync(path);
  const value = decode(block);
  const [isJson, isBytes] = [isData(value), value instanceof Uint8Array];
  const calls = [[decode, block], [encode, value], undefined, undefined, undefined, undefined];
  if (isJson) calls.splice(2, 2, [JSON.parse, JSON.stringify(value)], [JSON.stringify, value]);
  const given = isBytes ? Buffer.from(value) : value;
  if (cbor && (isJson || isBytes)) calls.splice(4, 2, [cbor.decode, block], [cborEncode, given]);
  console.log(least(calls).join(' '));
}
