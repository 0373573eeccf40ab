// CAR files by the WebAssembly module, as car.c of callers/node goes through them: what stands whole
// in the bytes at hand is told. The library says what comes next in a file.
'use strict';
const { fromLatin1, joined } = require('../bytes.js');
const { latin1 } = require('../platform.js');
const { unpacked } = require('./dagcbor.js');

const [MORE, HEADER, OTHER_BYTES, LEAST, NOT_READ] = [10, 11, -22, -23, 9];
const LARGE = 1 << 16; // bytes of what is cut, from which on it is not looked at for each piece

// Names with a byte of length before each.
const packed = (names) => joined(names.flatMap((it) => [[it.length], it]));

class Walk {
  constructor(calls, isCheck) {
    Object.assign(this, { calls, isCheck, walk: calls.carWalk(), roots: [] });
    this.wanted = 0; // so many bytes are waited for
    this.names = new Map(); // whether a block of the name is held
    this.counts = new Float64Array(1 + NOT_READ - LEAST);
  }

  note(name, isHeld) {
    if (isHeld || !this.names.has(name)) this.names.set(name, isHeld);
  }

  want(cids) {
    for (const it of cids) this.note(latin1(it), false);
  }

  // Notes the names of sections, and where their links lead.
  take(bytes, { codes, places, links }) {
    codes.forEach((code, i) => {
      this.counts[code - LEAST] += 1;
      if (code > OTHER_BYTES) this.note(latin1(bytes, places[3 * i], places[3 * i + 1]), true);
    });
    this.want(unpacked(links));
  }

  // Why it stopped, where, the version, and four numbers of each section.
  go(bytes, isWhole) {
    const before = this.walk[0];
    if (!isWhole && bytes.length < this.wanted) return [MORE, Number(before), undefined, []];
    const found = this.calls.carNext(this.walk, bytes, isWhole);
    const { cause, codes, places, version } = found;
    if (cause === HEADER) this.want(this.roots = unpacked(found.links));
    else if (this.isCheck) this.take(bytes, found);
    const left = bytes.length - Number(this.walk[0] - before);
    this.wanted = cause === MORE && left >= LARGE ? 2 * left : 0;
    const numbersOf = (code, i) => [code, ...places.slice(3 * i, 3 * i + 3)];
    const numbers = Float64Array.from(this.isCheck ? [] : codes.flatMap(numbersOf));
    return [cause === HEADER ? 0 : cause, Number(this.walk[0]), version, numbers];
  }

  // A CID by the identity holds its block itself.
  follow(name) {
    const held = this.calls.heldIn(fromLatin1(name));
    if (held === null) return;
    this.names.set(name, true);
    if (held.code >= 0 && held.code !== NOT_READ) this.want(this.calls.links(held.block));
  }

  found() {
    if (this.isCheck) {
      for (const [name, isHeld] of this.names) if (!isHeld) this.follow(name);
    }
    const missing = [...this.names].filter(([, isHeld]) => this.isCheck && !isHeld);
    return [packed(this.roots), this.counts, packed(missing.map(([name]) => fromLatin1(name)))];
  }
}

const walking = (calls) => ({
  carOpen: (isCheck) => new Walk(calls, isCheck),
  carGo: (walk, bytes, isWhole) => walk.go(bytes, isWhole),
  carFound: (walk) => walk.found(),
});

module.exports = { packed, walking };
