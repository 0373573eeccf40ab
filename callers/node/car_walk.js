// Reads a CAR file: its bytes are kept as they come, and the library says what stands in them.
'use strict';
const { native } = require('./library.js');
const { AtHand } = require('./at_hand.js');
const { piecesOf, whole } = require('./bytes.js');
const { unpack } = require('./cid.js');
const { DagCborError, REASONS } = require('./errors.js');

const [END, LEAST] = [12, -23]; // of a walk; of verdicts the least one
const CALL_LEAST = 1 << 13; // bytes of a block: of less the library is quicker than a call

class CarError extends DagCborError {}
CarError.prototype.name = 'CarError';

// A fault of the header may be the refusal of a block.
const faultOf = (code, place) => {
  const [kind, reason] = REASONS[code] ?? [undefined, code];
  if (code < LEAST) return new CarError(kind, reason, place);
  return new CarError('NoBlock', `the header is no block: ${reason}`, place);
};

const functionOf = ({ sha256 } = {}) => {
  if (sha256 === undefined || typeof sha256 === 'function') return sha256;
  throw new TypeError('sha256 is no function');
};

class Walk {
  #car;
  #sha256;
  #atHand = new AtHand();

  constructor(options, isCheck = false) {
    this.#sha256 = functionOf(options);
    this.#car = native.carOpen(isCheck);
  }

  #go(isWhole, sha256) {
    return native.carGo(this.#car, this.#atHand.bytes, isWhole, sha256, CALL_LEAST);
  }

  // What an answer has: first the front, its roots and version and where it ends, and then batches of
  // sections, four numbers of each, counted from the bytes, which begin at a place. Then the fault is
  // thrown, if there is one.
  *#told([code, end, version, numbers]) {
    const { bytes, place } = this.#atHand;
    this.#atHand.pass(end);
    if (code === 0 && !this.front) yield this.front = { roots: this.found()[0], version, end };
    else if (code === 0 || numbers.length) yield { place, bytes, numbers };
    if (code < 0) throw faultOf(code, end);
  }

  // What is found in the bytes at hand. Returns true at the end, and false if more bytes are
  // needed.
  async *#through(isWhole) {
    for (;;) {
      const answer = await this.#go(isWhole, this.#sha256);
      yield* this.#told(answer);
      if (answer[0] > 0) return answer[0] === END;
    }
  }

  async *#all(source) {
    for await (const piece of source) {
      this.#atHand.put(whole(piece));
      if (yield* this.#through(false)) return;
    }
    yield* this.#through(true);
  }

  // Goes beyond the front.
  async begin(source) {
    this.batches = this.#all(piecesOf(source));
    await this.batches.next();
    return this;
  }

  // The same for bytes in memory, by the calling thread.
  *through(bytes) {
    const pieces = [...piecesOf(whole(bytes)), new Uint8Array()];
    for (let i = 0; i < pieces.length; i++) {
      this.#atHand.put(pieces[i]);
      for (let code = 0; code === 0;) {
        const answer = this.#go(i === pieces.length - 1, this.#sha256 ?? null);
        yield* this.#told(answer);
        [code] = answer;
        if (code === END) return;
      }
    }
  }

  // The roots, the counts of verdicts, and what is missing.
  found() {
    const [roots, counts, missing] = native.carFound(this.#car);
    return [unpack(roots), counts, unpack(missing)];
  }
}

module.exports = { CarError, Walk };
