// Reads a CAR file by a window over the file: never more of it is in memory than its longest
// section needs.

import {
  MORE_BYTES, NOT_VERIFIED, OTHER_BYTES, OTHER_CODEC, THE_END, THE_HEADER, TOO_LONG,
} from './kinds.js';
import { unpacked } from './dagcbor.js';
import { cidKey, cidOfKey } from './cid.js';

const WINDOW = 2 << 20;
const FIRST_HEADER = 64 << 10;
const MOST_HEADER = 16 << 20;
const MOST = 1 << 30;

const read = async (file, from, length) =>
  new Uint8Array(await file.slice(from, from + length).arrayBuffer());

// Nobody may wait for what is read ahead, and then nobody is told that it failed.
const ahead = (file, from, length) => {
  const coming = read(file, from, length);
  coming.catch(() => {});
  return coming;
};

// The front of a CAR file: its roots, its version, and the walk that goes on after the header; or
// null, if it does not begin with one.
export const frontOf = async (library, file) => {
  const steps = library.carWalk();
  for (let length = FIRST_HEADER; ; length *= 4) {
    const from = Number(steps[0]);
    const bytes = await read(file, from, length);
    const { cause, links, version } = library.carNext(steps, bytes, from + length >= file.size);
    if (cause === THE_HEADER) return { roots: unpacked(links), version, steps };
    if (cause !== MORE_BYTES || length >= MOST_HEADER) return null;
  }
};

// Hands out sections in batches, and returns what is missing, and why it stopped before the end.
// While a window is judged the bytes after it are read.
export const walk = async (library, file, { roots, steps }, { told, isStopped }) => {
  const names = new Names(roots);
  const ended = (fault) => {
    const missing = fault ? [] : names.missing(library);
    return { fault, missing, links: names.links };
  };
  let [at, next, bytes] = [Number(steps[0]), Number(steps[0]), new Uint8Array()];
  const coming = (length) => {
    const more = ahead(file, next, length);
    next += length;
    return more;
  };
  let more = coming(WINDOW);
  while (!isStopped()) {
    const cut = bytes.length; // of a section that is longer
    bytes = joined(bytes, await more);
    const isLast = next >= file.size;
    if (!isLast) more = coming(Math.max(WINDOW, 2 * cut));
    const found = library.carNext(steps, bytes, isLast);
    const batch = batchOf(bytes, at, found);
    names.take(batch, found.links);
    bytes = bytes.subarray(Number(steps[0]) - at);
    at = Number(steps[0]);
    told(batch, at);
    if (found.cause === THE_END) break;
    if (found.cause !== MORE_BYTES) return ended({ code: found.cause, at });
    if (bytes.length > MOST) return ended({ code: TOO_LONG, at });
  }
  return ended(null);
};

const joined = (front, rest) => {
  const all = new Uint8Array(front.length + rest.length);
  all.set(front);
  all.set(rest, front.length);
  return all;
};

// What is told of the sections of a window that begins at `from`: for each where it begins, where
// its block does and where it ends; its verdict; its CID.
const batchOf = (bytes, from, { codes, places }) => {
  const count = codes.length;
  const told = {
    places: new Float64Array(3 * count), codes: Int8Array.from(codes),
    lengths: new Uint16Array(count), cids: new Uint8Array(bytes.length),
  };
  let [start, at] = [0, 0];
  for (let i = 0; i < count; i += 1) {
    const [cid, block, end] = [places[3 * i], places[3 * i + 1], places[3 * i + 2]];
    told.places[3 * i] = from + start;
    told.places[3 * i + 1] = from + block;
    told.places[3 * i + 2] = from + end;
    told.lengths[i] = block - cid;
    told.cids.set(bytes.subarray(cid, block), at);
    at += block - cid;
    start = end;
  }
  told.cids = told.cids.slice(0, at);
  return told;
};

// The names of verified blocks, and the roots and links that lead to none so far.
class Names {
  constructor(roots) {
    this.held = new Set();
    this.wanted = new Set(roots.map(cidKey));
    this.links = 0;
  }

  // The links of all the sections, with a byte of length before each.
  take({ codes, lengths, cids }, links) {
    const keys = cidKey(cids);
    let at = 0;
    for (let i = 0; i < codes.length; i += 1) {
      const key = keys.slice(at, at + lengths[i]);
      at += lengths[i];
      if (codes[i] === OTHER_BYTES || codes[i] === NOT_VERIFIED) continue;
      this.held.add(key);
      this.wanted.delete(key);
    }
    const linked = cidKey(links);
    for (let to = 0; to < links.length; to += 1 + links[to]) {
      const key = linked.slice(to + 1, to + 1 + links[to]);
      this.links += 1;
      if (!this.held.has(key)) this.wanted.add(key);
    }
  }

  // A CID by the identity hash holds its block: the links of that one are followed. What is added
  // to a set meanwhile comes later.
  missing(library) {
    const lost = [];
    for (const key of this.wanted) {
      const cid = cidOfKey(key);
      const held = library.heldIn(cid);
      if (held === null) lost.push(cid);
      else if (held.code >= 0 && held.code !== OTHER_CODEC) this.follow(library.links(held.block));
    }
    return lost;
  }

  follow(links) {
    for (const it of links.map(cidKey)) if (!this.held.has(it)) this.wanted.add(it);
  }
}
