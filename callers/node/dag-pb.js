// The codec of DAG-PB as `multiformats` and Helia take one, with the names of the package
// `@ipld/dag-pb`. Blocks go by their data model, which the library reads and writes.
'use strict';
const { native } = require('./library.js');
const { isBytes } = require('./bytes.js');
const { CID, unpack } = require('./cid.js');
const { decode: decodeModel } = require('./decode.js');
const { encode: encodeModel } = require('./encode.js');
const { answered } = require('./errors.js');
const { latin1 } = require('./platform.js');

const name = 'dag-pb';
const code = 0x70;
const encoder = new TextEncoder();

const no = (said) => { throw new TypeError(`Invalid DAG-PB form (${said})`); };
const isObject = (value) => typeof value === 'object' && value !== null && !Array.isArray(value);

// The answer for a block, or its refusal with the place.
const of = (call) => (bytes) => {
  const block = bytes instanceof ArrayBuffer ? new Uint8Array(bytes) : bytes;
  return answered(call(block), () => native.placeInNode(block));
};

const decode = (bytes) => decodeModel(of(native.fromNode)(bytes));
const links = (bytes) => unpack(of(native.nodeLinks)(bytes));

// Without properties that are undefined.
const told = (value) => (isObject(value) && !CID.asCID(value)
  ? Object.fromEntries(Object.entries(value).filter(([, it]) => it !== undefined))
  : value);
const modelOf = (node) => {
  const made = told(node);
  return Array.isArray(made?.Links) ? { ...made, Links: made.Links.map(told) } : made;
};

const encode = (node) => answered(native.toNode(encodeModel(modelOf(node))));

const cidIn = (value) => {
  if (typeof value === 'string') return CID.parse(value);
  return CID.asCID(value) ?? (isBytes(value) ? CID.decode(value) : no('a link has no CID'));
};

const asLink = (link) => {
  if (!isObject(link)) no('a link is no object');
  if (CID.asCID(link)) return { Hash: CID.asCID(link) };
  const made = { Hash: cidIn(link.Hash) };
  if (typeof link.Name === 'string') made.Name = link.Name;
  if (typeof link.Tsize === 'number' || typeof link.Tsize === 'bigint') made.Tsize = link.Tsize;
  return made;
};

// By the bytes of the names. A missing name counts as the empty one.
const order = ({ key: one }, { key: other }) => (one < other ? -1 : Number(one > other));
const sorted = (links) => {
  const named = links.map((link) => ({ link, key: latin1(encoder.encode(link.Name ?? '')) }));
  return named.sort(order).map(({ link }) => link);
};

// The node that a value means: bytes or a text are its data, links are CIDs, or have one as `Hash`,
// in any order.
const prepare = (given) => {
  const node = typeof given === 'string' || isBytes(given) ? { Data: given } : given;
  if (!isObject(node)) no('no object');
  const { Data, Links = [] } = node;
  if (!Array.isArray(Links)) no('Links is no list');
  const made = {};
  if (typeof Data === 'string') made.Data = encoder.encode(Data);
  else if (isBytes(Data)) made.Data = Data;
  else if (Data !== undefined) no('Data is no Uint8Array');
  made.Links = sorted(Links.map(asLink));
  return made;
};

const createNode = (data, links = []) => prepare({ Data: data, Links: links });
const createLink = (linkName, size, cid) => asLink({ Hash: cid, Name: linkName, Tsize: size });

// Throws if `encode` would.
const validate = (node) => { encode(node); };

module.exports = { name, code, decode, encode, links, prepare, createNode, createLink, validate };
