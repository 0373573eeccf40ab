// The codec as `multiformats` and Helia take one, with the names of the package `@ipld/dag-cbor`.
'use strict';
const { decode: decodeBytes, decodeFirst } = require('./decode.js');
const { encode } = require('./encode.js');

const name = 'dag-cbor';
const code = 0x71;
const decode = (bytes) => decodeBytes(bytes instanceof ArrayBuffer ? new Uint8Array(bytes) : bytes);

module.exports = { name, code, decode, decodeFirst, encode };
