// A writer of blocks in JavaScript alone, written apart from the library, and random data for it.
'use strict';
const { CID } = require('..');

const head = (major, n) => {
  n = BigInt(n);
  const wide = n < 1n << 32n ? [26, 4] : [27, 8];
  const [info, width] =
    n < 24n ? [Number(n), 0] : n < 256n ? [24, 1] : n < 65536n ? [25, 2] : wide;
  const number = n.toString(16).padStart(16, '0').slice(16 - 2 * width);
  return Buffer.concat([Buffer.of(32 * major + info), Buffer.from(width ? number : '', 'hex')]);
};

const spelling = (value) => {
  if (value === null) return Buffer.of(0xf6);
  if (typeof value === 'boolean') return Buffer.of(value ? 0xf5 : 0xf4);
  if (typeof value === 'number' || typeof value === 'bigint') {
    return value < 0 ? head(1, -1n - BigInt(value)) : head(0, value);
  }
  if (typeof value === 'string') {
    return Buffer.concat([head(3, Buffer.byteLength(value)), Buffer.from(value)]);
  }
  if (value instanceof CID) {
    const payload = Buffer.concat([Buffer.of(0), value.bytes]);
    return Buffer.concat([Buffer.of(0xd8, 0x2a), spelling(payload)]);
  }
  if (value instanceof Uint8Array) return Buffer.concat([head(2, value.length), value]);
  if (Array.isArray(value)) return Buffer.concat([head(4, value.length), ...value.map(spelling)]);
  // Heads of texts rise with their lengths: so the spellings of keys are in the order of keys.
  const entries = Object.keys(value).map((key) => [spelling(key), spelling(value[key])]);
  entries.sort(([a], [b]) => Buffer.compare(a, b));
  return Buffer.concat([head(5, entries.length), ...entries.flat()]);
};

// A generator of numbers below 1, by its seed (mulberry32).
const generator = (seed) => () => {
  seed = (seed + 0x6d2b79f5) | 0;
  let t = Math.imul(seed ^ (seed >>> 15), 1 | seed);
  t = (t + Math.imul(t ^ (t >>> 7), 61 | t)) ^ t;
  return ((t ^ (t >>> 14)) >>> 0) / 4294967296;
};

const randomData = (random) => {
  const below = (n) => Math.floor(random() * n);
  const of = (list) => list[below(list.length)];
  const bytes = (count) => Uint8Array.from({ length: count }, () => below(256));
  const integer = () => {
    const bits = of([4, 8, 16, 32, 53, 54, 63, 64]);
    const n = BigInt.asUintN(bits, (BigInt(below(2 ** 32)) << 32n) | BigInt(below(2 ** 32)));
    const signed = below(2) ? n : -1n - n;
    return Number.isSafeInteger(Number(signed)) ? Number(signed) : signed;
  };
  const letter = () => of(['a', 'b', '7', '\0', 'é', '水', '𐅑', '\uffff']);
  const text = () => Array.from({ length: of([0, 1, 3, 23, 24, 70, 256]) }, letter).join('');
  const odd = () => of(['__proto__', 'constructor', 'toString', '0', '10', 'length', '']);
  const key = () => of([text, odd])();
  const value = (levels) => {
    const kind = below(levels ? 9 : 6);
    if (kind === 0) return of([null, false, true]);
    if (kind === 1 || kind === 2) return integer();
    if (kind === 3) return text();
    if (kind === 4) return bytes(of([0, 1, 23, 24, 300]));
    if (kind === 5) return new CID(Buffer.concat([Buffer.of(1, 0x71, 0x12, 32), bytes(32)]));
    if (kind < 8) return Array.from({ length: below(6) }, () => value(levels - 1));
    const map = {};
    for (let left = below(20); left > 0; left--) {
      const own = { enumerable: true, configurable: true, writable: true };
      Object.defineProperty(map, key(), { ...own, value: value(levels - 1) });
    }
    return map;
  };
  return value(5);
};

module.exports = { generator, randomData, spelling };
