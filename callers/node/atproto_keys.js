// Keys of records as texts. A key may have any bytes: each that is not UTF-8 is a surrogate alone,
// from \udc80 to \udcff, like in Python's `surrogateescape`.
'use strict';
const { fromLatin1, isAlone, isBytes, joined, whole } = require('./bytes.js');
const { DagCborError } = require('./errors.js');
const { latin1, utf8 } = require('./platform.js');

const [ESCAPE, LEAST] = [0xdc00, 0x80];
const encoder = new TextEncoder();

// Characters of UTF-8, each as its bytes, or a byte that belongs to none.
const PARTS = new RegExp(
  '((?:[\\0-\\x7f]|[\\xc2-\\xdf][\\x80-\\xbf]|\\xe0[\\xa0-\\xbf][\\x80-\\xbf]' +
    '|[\\xe1-\\xec\\xee\\xef][\\x80-\\xbf]{2}|\\xed[\\x80-\\x9f][\\x80-\\xbf]' +
    '|\\xf0[\\x90-\\xbf][\\x80-\\xbf]{2}|[\\xf1-\\xf3][\\x80-\\xbf]{3}' +
    '|\\xf4[\\x80-\\x8f][\\x80-\\xbf]{2})+)|[\\x80-\\xff]',
  'g',
);

const textOf = (part, text) => {
  if (text === undefined) return String.fromCharCode(ESCAPE + part.charCodeAt(0));
  return utf8(fromLatin1(text), 0, text.length);
};

const textOfKey = (bytes) => {
  const units = latin1(bytes);
  return /^[\0-\x7f]*$/.test(units) ? units : units.replace(PARTS, textOf);
};

const partOf = (part) => {
  const byte = part.charCodeAt(0) - ESCAPE;
  if (part.length === 1 && byte >= LEAST && byte <= 0xff) return Uint8Array.of(byte);
  if (isAlone(part)) throw new DagCborError('RequireUtf8', 'a key with a surrogate alone');
  return encoder.encode(part);
};

// A copy of the bytes of a key, or the bytes that a text stands for.
const bytesOfKey = (key) => {
  if (isBytes(key)) return whole(key).slice();
  if (typeof key !== 'string') throw new TypeError('a key is a text or a Uint8Array');
  return joined(key.split(/([\udc80-\udcff])/u).map(partOf));
};

module.exports = { bytesOfKey, textOfKey };
