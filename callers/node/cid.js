// CIDs, with the names of the package `multiformats`. The library judges if bytes or a text are a
// CID.
'use strict';
const { native } = require('./library.js');
const { fromLatin1, isBytes, lengthOf, view, whole } = require('./bytes.js');
const { answered, refusal } = require('./errors.js');
const { latin1 } = require('./platform.js');

const DAG_PB = 0x70; // the codec of version 0
const MADE = Symbol('made'); // by the library
let binaryOf; // a CID's binary form, as a text of one unit for each byte; of others undefined
const isUnits = (text) => /^[\0-\xff]*$/.test(text);

// What a CID of another package says is its binary form. `multiformats` recognizes such CIDs.
const foreignOf = (value) => {
  if (typeof value !== 'object' || value === null) return undefined;
  const { bytes } = value;
  const isTold = value.asCID === value || value['/'] === bytes;
  return isTold && isBytes(bytes) ? latin1(bytes) : undefined;
};

// The binary form of a CID of this package that lost its class: a clone, as by `postMessage`, has
// only its property. No data has such a text, which is an object.
const MARK = 'binary';
const clonedOf = (value) => {
  const binary = value?.[MARK];
  if (typeof binary !== 'object') return undefined;
  try {
    const text = String.prototype.valueOf.call(binary);
    return isUnits(text) ? text : undefined;
  } catch (error) {
    return undefined;
  }
};

const toldBy = (value) => foreignOf(value) ?? clonedOf(value);

const isCid = (binary) => typeof native.cidText(binary) === 'string';

const varint = (n) => (n < 128 ? [n] : [(n % 128) + 128, ...varint(Math.floor(n / 128))]);
const numberOf = (n) => {
  if (Number.isSafeInteger(n) && n >= 0) return varint(n);
  throw new TypeError('a number of a CID is an integer from 0 to 2^53 - 1');
};

// What the front of a CID says, from its bytes, and where the multihash and its digest begin. For
// other bytes it says something too.
const frontOf = (bytes) => {
  let at = 0;
  const next = () => {
    for (let [n, unit] = [0, 1]; ; unit *= 128) {
      const byte = bytes[at++];
      n += (byte & 127) * unit;
      if (!(byte >= 128)) return n;
    }
  };
  const isFirst = bytes[0] === 0x12; // of version 0, which is a multihash alone
  const [version, code] = isFirst ? [0, DAG_PB] : [next(), next()];
  const begin = at;
  const [hash, size] = [next(), next()];
  return { version, code, hash, size, begin, end: at };
};

// The parts of a CID, from its bytes.
const partsOf = (bytes) => {
  const { version, code, hash, size, begin, end } = frontOf(bytes);
  const multihash = { code: hash, size, digest: bytes.subarray(end), bytes: bytes.subarray(begin) };
  return { version, code, multihash };
};

// What the front of a CID at the front of bytes says, if a CID can begin so.
const [FRONT, DIGEST] = [40, 64]; // bytes at most, of four numbers and of a digest
const inspected = (bytes) => {
  const front = bytes.subarray(0, FRONT);
  const { version, code: codec, hash, size: digestSize, begin, end } = frontOf(front);
  if (end > front.length || digestSize > DIGEST) throw refusal(-26);
  const any = new Uint8Array(end + digestSize);
  any.set(view(bytes, 0, end));
  if (!isCid(latin1(any))) throw refusal(-26);
  const multihashSize = end + digestSize - begin;
  return { version, codec, multihashCode: hash, digestSize, multihashSize, size: any.length };
};

// The bytes of a CID, of this package or another: for one of this package, a copy of what nobody
// can change.
const bytesOf = (cid) => {
  const binary = binaryOf(cid) ?? clonedOf(cid);
  if (binary !== undefined) return fromLatin1(binary);
  const bytes = cid?.bytes;
  return bytes instanceof Uint8Array ? bytes : cid;
};

// The parts of a CID of this package.
const toldOf = (cid) => (binaryOf(cid) === undefined ? {} : partsOf(bytesOf(cid)));

class CID {
  #binary; // a text, which nobody can change
  #bytes; // a copy
  [MARK]; // for who compares properties, and for a clone, which has no more

  static {
    const isOwn = (value) => typeof value === 'object' && value !== null && #binary in value;
    binaryOf = (value) => (isOwn(value) ? value.#binary : undefined);
  }

  constructor(value, made) {
    if (made === MADE) this.#binary = value;
    else if (typeof value === 'string') this.#binary = answered(native.cidFromText(value));
    else {
      if (!isBytes(value)) throw new TypeError('a text is wanted, or a Uint8Array of its own');
      this.#binary = latin1(value);
      if (!isCid(this.#binary)) throw refusal(-26);
    }
    this[MARK] = Object(this.#binary);
  }

  static parse(text, base) {
    if (typeof text !== 'string') throw new TypeError('a text is wanted');
    if (base === undefined || text[0] === 'Q') return new CID(text);
    const cid = CID.decode(base.decode(text));
    if (cid.version === 0) throw refusal(-34);
    return cid;
  }

  static decode(bytes) {
    if (typeof bytes === 'string') throw new TypeError('a Uint8Array is wanted');
    return new CID(bytes);
  }

  static inspectBytes(bytes) {
    return inspected(whole(bytes));
  }

  static decodeFirst(bytes) {
    const [all, length] = [whole(bytes), lengthOf.call(bytes)];
    const { size } = inspected(all);
    if (size > length) throw refusal(-26);
    return [new CID(view(all, 0, size)), view(bytes, size, length)];
  }

  static create(version, code, { bytes }) {
    if (!isBytes(bytes)) throw new TypeError('a multihash has bytes, which are a Uint8Array');
    const front = version === 0 && code === DAG_PB ? [] : [...numberOf(version), ...numberOf(code)];
    return new CID(Uint8Array.of(...front, ...bytes));
  }

  static createV0(multihash) {
    return CID.create(0, DAG_PB, multihash);
  }

  static createV1(code, multihash) {
    return CID.create(1, code, multihash);
  }

  static equals(one, other) {
    return CID.asCID(one)?.equals(other) ?? false;
  }

  static asCID(value) {
    if (binaryOf(value) !== undefined) return value;
    const binary = toldBy(value);
    return binary !== undefined && isCid(binary) ? new CID(binary, MADE) : null;
  }

  get bytes() {
    return binaryOf(this) && (this.#bytes ??= fromLatin1(this.#binary));
  }

  get '/'() {
    return this.bytes;
  }

  get version() {
    return toldOf(this).version;
  }

  get code() {
    return toldOf(this).code;
  }

  get multihash() {
    return toldOf(this).multihash;
  }

  get byteOffset() {
    return this.bytes.byteOffset;
  }

  get byteLength() {
    return this.#binary.length;
  }

  get asCID() {
    return this;
  }

  link() {
    return this;
  }

  toV0() {
    const { version, code, multihash } = toldOf(this);
    return version === 0 ? this : CID.create(0, code, multihash);
  }

  toV1() {
    const { version, code, multihash } = toldOf(this);
    return version === 1 ? this : CID.create(1, code, multihash);
  }

  equals(other) {
    return (binaryOf(other) ?? toldBy(other)) === this.#binary;
  }

  toString(base) {
    if (base === undefined) return native.cidText(this.#binary);
    const text = base.encode(fromLatin1(this.#binary));
    if (this.version !== 0) return text;
    if (base.prefix !== 'z') throw new TypeError('a CID of version 0 is written in base58btc');
    return text.slice(1);
  }

  toJSON() {
    return { '/': this.toString() };
  }

  get [Symbol.toStringTag]() {
    return 'CID';
  }

  [Symbol.for('nodejs.util.inspect.custom')]() {
    return `CID(${this})`;
  }
}

const cidOf = (binary) => new CID(binary, MADE);

// The CID of this package that a value is, or whose binary form it has in `bytes`.
const wantedCid = (value) => {
  const cid = CID.asCID(value);
  if (cid !== null) return cid;
  const bytes = value?.bytes;
  if (!isBytes(bytes)) throw new TypeError('a CID is wanted');
  return new CID(bytes);
};

// The CIDs of packed names: a byte of its length before each.
const unpack = (packed) => {
  const found = [];
  for (let at = 0; at < packed.length; at += 1 + packed[at]) {
    found.push(cidOf(latin1(packed, at + 1, at + 1 + packed[at])));
  }
  return found;
};

module.exports = {
  CID, MARK, binaryOf, bytesOf, cidOf, clonedOf, foreignOf, toldOf, unpack, varint,
  wantedCid,
};
