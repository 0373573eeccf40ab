// The bytes of a source that are at hand: they come in pieces, and are let go when they are passed.
'use strict';
const { unfilled } = require('./platform.js');

const MOST = 2 ** 32 - 1; // bytes of room
const KEPT = 1 << 24; // of room that is kept where none are at hand

// The bytes from a place on, as far as they came, in room that grows.
class AtHand {
  #room = new Uint8Array();
  #from = 0;
  #to = 0;
  #first = 0; // where the first of them stands
  place = 0; // from which on they are wanted

  get bytes() {
    return this.#room.subarray(this.#from, this.#to);
  }

  put(piece) {
    const { length: size } = this.#room;
    if (this.#to + piece.length > size) {
      const left = this.bytes;
      const wanted = left.length + piece.length;
      if (wanted > size) this.#room = unfilled(Math.max(wanted, Math.min(2 * size, MOST)));
      this.#room.set(left);
      [this.#from, this.#to] = [0, left.length];
    }
    this.#room.set(piece, this.#to);
    this.#to += piece.length;
    this.pass(this.place);
  }

  // Lets go of the bytes before the place.
  pass(place) {
    const count = Math.min(place - this.#first, this.#to - this.#from);
    this.#from += count;
    this.#first += count;
    this.place = place;
    if (this.#from === this.#to && this.#to > KEPT) {
      [this.#room, this.#from, this.#to] = [new Uint8Array(), 0, 0];
    }
  }
}

module.exports = { AtHand };
