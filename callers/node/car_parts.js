// The parts of a CAR file as they are written: its header, and a section. The library judges
// each.
'use strict';
const { native } = require('./library.js');
const { isBytes, joined, whole } = require('./bytes.js');
const { CID, bytesOf, varint } = require('./cid.js');
const { encode } = require('./encode.js');
const { refusal } = require('./errors.js');

const [OTHER_BYTES, LEAST] = [-22, -23]; // of verdicts, the second the least one

const rootOf = (value) => {
  const cid = CID.asCID(value) ?? (isBytes(value?.bytes) ? new CID(value.bytes) : undefined);
  if (cid === undefined) throw new TypeError('roots are a CID, or an array of CIDs');
  return cid;
};

const headerOf = (roots) => {
  const header = encode({ roots: (Array.isArray(roots) ? roots : [roots]).map(rootOf), version: 1 });
  return joined([varint(header.length), header]);
};

const sectionOf = ({ cid, bytes }) => {
  const [name, block] = [bytesOf(cid), bytes].map(whole);
  const code = native.verify(name, block);
  if (code === OTHER_BYTES || code < LEAST) throw refusal(code);
  return joined([varint(name.length + block.length), name, block]);
};

const blockLength = ({ cid, bytes }) => {
  const length = bytesOf(cid).length + bytes.length;
  return varint(length).length + length;
};

// How long the header is for roots of these lengths. A link has a tag, which takes two bytes, and
// then a byte string of a zero and the CID.
const calculateHeaderLength = (lengths) => {
  const roots = lengths.map((it) => new Uint8Array(1 + it));
  const length = encode({ roots, version: 1 }).length + 2 * lengths.length;
  return varint(length).length + length;
};

const headerLength = ({ roots }) => headerOf(roots).length;

module.exports = { blockLength, calculateHeaderLength, headerLength, headerOf, sectionOf };
