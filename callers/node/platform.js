// What Node has of its own; other engines have it in another way (callers/wasm/esm).
'use strict';
const { read, write } = require('fs');
const { open } = require('fs/promises');
const { promisify, types } = require('util');
const { markAsUntransferable } = require('worker_threads');
const { lengthOf } = require('./bytes.js');

const [MOST, PIECE] = [1 << 30, 1 << 18]; // bytes of a file that one read takes, and that are one piece

const { latin1Slice, utf8Slice } = Buffer.prototype;

// Memory that blocks share: like that of Node's Buffers it is not transferred.
const newPool = (size) => {
  const made = new Uint8Array(size);
  markAsUntransferable(made.buffer);
  return made;
};

// Bytes that anything may stand in.
const unfilled = (size) => new Uint8Array(Buffer.allocUnsafeSlow(size).buffer);

// A text of one unit for each byte.
const latin1 = (bytes, from = 0, to = lengthOf.call(bytes)) => latin1Slice.call(bytes, from, to);

// The text of UTF-8.
const utf8 = (bytes, from, to) => utf8Slice.call(bytes, from, to);

// True if an object has more inside than properties, whatever class it says that it has.
const { isMap, isProxy } = types;
const hasInside = (value) =>
  isMap(value) || types.isSet(value) || types.isDate(value) || types.isBoxedPrimitive(value);

// Files, open as a number or as a FileHandle.
const openFile = (path) => open(path);
const callOf = (file, call, name) => {
  if (typeof file === 'number') return promisify(call).bind(null, file);
  if (typeof file?.[name] === 'function') return file[name].bind(file);
  throw new TypeError('an open file is wanted: a number or a FileHandle');
};

// This many bytes from a place on, or those up to the end.
const readAt = async (file, count, place) => {
  const [bytes, readInto] = [new Uint8Array(count), callOf(file, read, 'read')];
  for (let at = 0; at < count;) {
    const { bytesRead } = await readInto(bytes, at, Math.min(count - at, MOST), place + at);
    if (!bytesRead) return bytes.subarray(0, at);
    at += bytesRead;
  }
  return bytes;
};

const readAll = async function* (file) {
  for (let [at, piece] = [0, undefined]; piece?.length !== 0; at += piece.length) {
    piece = await readAt(file, PIECE, at);
    yield piece;
  }
};

const writeAt = async (file, bytes, place) => {
  const writeFrom = callOf(file, write, 'write');
  for (let at = 0; at < bytes.length;) {
    at += (await writeFrom(bytes, at, bytes.length - at, place + at)).bytesWritten;
  }
};

module.exports = {
  hasInside, isMap, isProxy, latin1, newPool, openFile, plain: latin1, readAll, readAt, unfilled,
  utf8, writeAt,
};
