// What `multiformats` does with a codec and with CIDs, written from knowledge of that package,
// which is not here: `CID` and `Digest` as far as they are used, and `Block.encode`, `decode` and
// `links`.
'use strict';
const { createHash } = require('node:crypto');

const varint = (n) => (n < 128 ? [n] : [(n % 128) + 128, ...varint(Math.floor(n / 128))]);

const digestOf = (code, digest) => {
  const bytes = Uint8Array.of(...varint(code), digest.length, ...digest);
  return { code, size: digest.length, digest, bytes };
};

const sha256 = {
  name: 'sha2-256',
  code: 0x12,
  digest: async (bytes) =>
    digestOf(0x12, Uint8Array.from(createHash('sha256').update(bytes).digest())),
};

class CID {
  constructor(version, code, multihash, bytes) {
    this.code = code;
    this.version = version;
    this.multihash = multihash;
    this.bytes = bytes;
    this['/'] = bytes;
  }

  get asCID() {
    return this;
  }

  equals(other) {
    return (
      other && this.code === other.code && this.version === other.version &&
      this.multihash.code === other.multihash.code &&
      Buffer.compare(this.multihash.bytes, other.multihash.bytes) === 0
    );
  }

  get [Symbol.toStringTag]() {
    return 'CID';
  }

  static asCID(value) {
    if (value == null) return null;
    if (value instanceof CID) return value;
    if ((value['/'] != null && value['/'] === value.bytes) || value.asCID === value) {
      const { version, code, multihash, bytes } = value;
      return new CID(version, code, multihash, bytes);
    }
    return null;
  }

  static create(version, code, digest) {
    return new CID(version, code, digest, Uint8Array.of(version, ...varint(code), ...digest.bytes));
  }
}

const links = function* (source, base) {
  if (source == null || source instanceof Uint8Array) return;
  const cid = CID.asCID(source);
  if (cid != null) yield [base.join('/'), cid];
  for (const [key, value] of Object.entries(source)) yield* within([...base, key], value);
};

const within = function* (path, value) {
  if (Array.isArray(value)) {
    for (const [index, element] of value.entries()) {
      const at = [...path, index];
      const cid = CID.asCID(element);
      if (cid != null) yield [at.join('/'), cid];
      else if (typeof element === 'object') yield* links(element, at);
    }
    return;
  }
  const cid = CID.asCID(value);
  if (cid != null) yield [path.join('/'), cid];
  else if (typeof value === 'object') yield* links(value, path);
};

const blockOf = async (bytes, value, codec, hasher) => {
  const cid = CID.create(1, codec.code, await hasher.digest(bytes));
  return { bytes, value, cid, links: () => links(value, []) };
};

const Block = {
  encode: ({ value, codec, hasher }) => blockOf(codec.encode(value), value, codec, hasher),
  decode: ({ bytes, codec, hasher }) => blockOf(bytes, codec.decode(bytes), codec, hasher),
};

module.exports = { Block, CID, digestOf, sha256 };
