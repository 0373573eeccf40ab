// Uint8Arrays as they are, whatever a script says that they are.
'use strict';

const getterOf = (made, name) => Object.getOwnPropertyDescriptor(made, name).get;
const above = Object.getPrototypeOf(Uint8Array.prototype);
const [tagOf, bufferOf, offsetOf, lengthOf] = [Symbol.toStringTag, 'buffer', 'byteOffset', 'length']
  .map((name) => getterOf(above, name));
const sizeOf = getterOf(ArrayBuffer.prototype, 'byteLength');

// Memory that is shared with other threads is not an ArrayBuffer.
const isOwn = (buffer) => {
  try {
    return sizeOf.call(buffer) >= 0;
  } catch (error) {
    return false;
  }
};

// True if it is a Uint8Array, of any realm, over memory that is not shared.
const isBytes = (value) => tagOf.call(value) === 'Uint8Array' && isOwn(bufferOf.call(value));

// A Uint8Array of no other class over the same memory.
const view = (bytes, from, to) =>
  new Uint8Array(bufferOf.call(bytes), offsetOf.call(bytes) + from, to - from);

// The bytes as a plain Uint8Array: if they are detached there are none.
const whole = (bytes) => {
  if (!isBytes(bytes)) {
    throw new TypeError('a Uint8Array over memory that is not shared is wanted');
  }
  const length = lengthOf.call(bytes);
  return length ? view(bytes, 0, length) : new Uint8Array();
};

const PIECE = 1 << 18; // of bytes in memory

// The length is that at the call: bytes that are taken away later are no end.
const pieces = function* (bytes, { length } = bytes) {
  for (let at = 0; at < length; at += PIECE) {
    yield bytes.subarray(at, at + PIECE);
    if (bytes.length !== length) throw new TypeError('the bytes were taken away while they were read');
  }
};

// Gives the bytes of a source in pieces: from bytes themselves, or from what is iterated.
const piecesOf = (source) => {
  const given = tagOf.call(source) === 'Uint8Array' ? pieces(whole(source)) : source;
  if (given?.[Symbol.asyncIterator] ?? given?.[Symbol.iterator]) return given;
  throw new TypeError('a Uint8Array or an iterable of Uint8Arrays is wanted');
};

const joined = (parts) => {
  const all = new Uint8Array(parts.reduce((sum, it) => sum + it.length, 0));
  parts.reduce((at, it) => (all.set(it, at), at + it.length), 0);
  return all;
};

// The bytes of a text that has one unit for each.
const fromLatin1 = (text) => {
  const bytes = new Uint8Array(text.length);
  for (let i = 0; i < text.length; i++) bytes[i] = text.charCodeAt(i);
  return bytes;
};

// True if a text has a surrogate without its pair.
const isAlone = (text) => /[\ud800-\udfff]/.test(text) && /\p{Surrogate}/u.test(text);

module.exports = { fromLatin1, isAlone, isBytes, joined, lengthOf, piecesOf, view, whole };
