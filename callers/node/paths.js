// Paths in blocks, and over links from block to block: index.d.ts says what each call does.
'use strict';
const { native } = require('./library.js');
const { isAlone, lengthOf, view } = require('./bytes.js');
const { binaryOf, bytesOf, toldOf, wantedCid } = require('./cid.js');
const { decode } = require('./decode.js');
const { DagCborError, answered, refusal } = require('./errors.js');

const [LINK, IDENTITY, NOT_READ, OTHER_BYTES] = [7, 0, 9, -22];
const [NO_SUCH_PATH, NO_TEXT] = [-36, -37];

const utf8Of = (text) => {
  if (typeof text !== 'string') throw new TypeError('a path is a text, or an array of texts');
  if (isAlone(text)) throw refusal(NO_TEXT);
  return new TextEncoder().encode(text);
};

// The bytes of a text, or an array of those of each segment.
const pathOf = (path) => (Array.isArray(path) ? Array.from(path, utf8Of) : utf8Of(path));

// The last item of the block to which a front of the path leads, if it is a link, and what is left
// of the path, or null if nothing is.
const followText = (block, path) => {
  const found = answered(native.follow(block, path), () => native.place(block));
  const [kind, begin, end, passed] = found;
  const left = passed < lengthOf.call(path) ? path.subarray(passed) : null;
  return { item: view(block, begin, end), isLink: kind === LINK, left };
};

// As followText, but each segment is taken whole.
const followSegments = (block, segments) => {
  let kind = answered(native.check(block), () => native.place(block));
  let item = block;
  for (let at = 0; at < segments.length; at++) {
    const found = native.part(item, segments[at]);
    if (found === NO_SUCH_PATH) return { item, isLink: kind === LINK, left: segments.slice(at) };
    kind = found[0];
    item = view(item, found[1], found[2]);
  }
  return { item, isLink: kind === LINK, left: null };
};

const follow = (block, path) => (Array.isArray(path) ? followSegments : followText)(block, path);

const find = (block, path) => {
  const { item, left } = follow(block, pathOf(path));
  return left === null ? decode(item) : undefined;
};

// What is held under the name. A name by the identity hash holds its block itself.
const heldUnder = async (get, cid) => {
  const { code, digest } = toldOf(cid).multihash;
  if (code === IDENTITY) return digest;
  const held = await (typeof get === 'function' ? get(cid) : get.get(cid));
  if (held === undefined || held === null) {
    throw new DagCborError('MissingBlock', `no block is held under ${cid}`);
  }
  return held.bytes ?? held;
};

// Refuses bytes that are not the block of the name.
const verified = (cid, block) => {
  if (native.name(block) === binaryOf(cid)) return block;
  const code = native.verify(bytesOf(cid), block);
  if (code === NOT_READ || code <= OTHER_BYTES) throw refusal(code);
  return block;
};

const resolve = async (get, cid, path) => {
  let [left, name] = [pathOf(path), wantedCid(cid)];
  for (;;) {
    const found = follow(verified(name, await heldUnder(get, name)), left);
    if (found.left === null) return decode(found.item);
    if (!found.isLink) return undefined;
    name = decode(found.item);
    left = found.left;
  }
};

module.exports = { find, resolve };
