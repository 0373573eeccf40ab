// The WebAssembly module for JavaScript, in Node and in a browser:
// const { check, tape, compactTape, tokens, follow, part, spell, links, nodeLinks, fromNode,
// placeInNode, toNode, name, verify, heldIn, cidText, cidFromText, carWalk, carNext } = await load(module),
// which is the module's bytes, or a WebAssembly.Module; of that callsOf(module) has them at once.
// It imports nothing, and has a 64-bit memory: addresses and lengths are BigInts.
const PAGE = 65536;
const FRONT = 64;
const LEAST = -23; // of verdicts on sections
const HEADER = 11; // of a walk
const WALK = 24; // bytes of a walk, which stand at this place of the front
const ROOM_TOKENS = 1 << 20; // that are given room before they are counted
const KEPT = 1 << 26; // bytes of memory that are kept for the next call
const TOKENS = { size: 24 };
const NOT_READ = 9;
const OTHERS = -22; // bytes than those that are named
const CID_MOST = 86;
const CID_TEXT_MOST = 139;

// The module's memory after its own: 64 bytes for numbers or a name, then the bytes that a call is
// about, then room for what it returns.
class Room {
  constructor({ memory, __heap_base }) {
    this.memory = memory;
    this.base = Number(__heap_base.value);
    this.front = BigInt(this.base);
  }

  reserve(length) {
    const more = this.base + FRONT + length - this.memory.buffer.byteLength;
    if (more <= 0) return;
    const pages = Math.ceil(more / PAGE);
    try {
      this.memory.grow(BigInt(pages));
    } catch (e) {
      if (!(e instanceof TypeError)) throw e;
      this.memory.grow(pages); // as V8 of Node 20 wants it
    }
  }

  // The address that is this far after the front.
  address(at) {
    return BigInt(this.base + FRONT + at);
  }

  // The address and the length of the bytes, which are put there, with room for more after them.
  put(bytes, room = 1) {
    this.reserve(bytes.length + room);
    new Uint8Array(this.memory.buffer).set(bytes, this.base + FRONT);
    return [this.address(0), BigInt(bytes.length)];
  }

  // The number that a call put to the front, as the first or a later one.
  number(n = 0) {
    return Number(new DataView(this.memory.buffer, this.base).getBigUint64(8 * n, true));
  }

  copy(at, length) {
    return new Uint8Array(this.memory.buffer, this.base + FRONT + at, length).slice();
  }

  // The answer of a call that puts parts of a size after the bytes; where they stand, and their
  // length. It has room for this many at first, and is asked again if it tells of more, unless
  // these are too many.
  ask(call, bytes, { size = 1, few = 0, most = Infinity, out = behind(bytes.length) } = {}) {
    const given = this.put(bytes);
    for (let count = few; ; count = this.number()) {
      this.reserve(out + size * count);
      const code = call(...given, this.address(out), BigInt(count), this.front, this.front + 8n);
      const needed = this.number();
      if (needed <= count || needed > most) return [code, out, size * needed];
    }
  }

  // The number of a refusal, or a copy of what the call puts.
  take(...asked) {
    const [code, out, length] = this.ask(...asked);
    return code < 0 ? code : this.copy(out, length);
  }
}

// Where tokens stand after this many bytes: at a multiple of 8.
const behind = (length) => Math.ceil(length / 8) * 8;

// A number of the library, or what is made of its other answers.
const told = (answer, make) => (typeof answer === 'number' ? answer : make(answer));

// CIDs, each after a byte of length.
const unpacked = (packed) => {
  const found = [];
  for (let at = 0; at < packed.length; at += 1 + packed[at]) {
    found.push(packed.subarray(at + 1, at + 1 + packed[at]));
  }
  return found;
};

// The block that a CID by the identity hash holds itself, and the verdict on it, or null: what it
// ends with, after the byte that says how long, if the library says that this is the block of this
// name.
const heldBy = (verify) => (cid) => {
  for (let at = 4; at <= cid.length; at++) {
    const block = cid.subarray(at);
    const code = cid[at - 1] === block.length ? verify(cid, block) : OTHERS;
    if (code > OTHERS) return { block, code };
  }
  return null;
};

// The addresses and the lengths of both, the text after the block.
const putBoth = (room, block, text) => {
  const given = room.put(block, text.length + 1);
  new Uint8Array(room.memory.buffer).set(text, room.base + FRONT + block.length);
  return [...given, room.address(block.length), BigInt(text.length)];
};

const answering = (calls, room) => ({
  check: (block) => calls.dagcbor_check(...room.put(block)),
  name: (block) => {
    calls.dagcbor_name(...room.put(block), room.front);
    return room.copy(-FRONT, 36);
  },
  // The number of a refusal, or the tokens: three BigInts each.
  tape: (block) => told(room.take(calls.dagcbor_tape, block, TOKENS), ({ buffer }) =>
    new BigUint64Array(buffer)),
  // The number of a refusal, or the compact tokens: three words of 32 bits each, up to the next call.
  compactTape: (block) => {
    const given = { size: 12, few: Math.min(block.length, ROOM_TOKENS) };
    const [code, out, length] = room.ask(calls.dagcbor_compact_tape, block, given);
    return code < 0 ? code : new Uint32Array(room.memory.buffer, room.base + FRONT + out, length / 4);
  },
  // The number of the verdict on a block under the name that the bytes of a CID are.
  verify: (cid, block) => calls.dagcbor_verify(...putBoth(room, cid, block)),
  // For any bytes: the number of the kind or of the refusal; the place of the refusal, which is the
  // length if there is none; how many tokens stand before it, and the tokens, or null if there are
  // more than `most`.
  tokens: (bytes, most = Infinity) => {
    const [code, out, length] = room.ask(calls.dagcbor_tokens, bytes, { ...TOKENS, most });
    const [count, place] = [room.number(0), room.number(1)];
    const tape = count > most ? null : new BigUint64Array(room.copy(out, length).buffer);
    return { code, place, count, tape };
  },
  // The number of a refusal; or the kind of the last item to which a front of the path leads, given
  // as UTF-8, where the item begins and ends, and how many bytes of the path lead there.
  follow: (block, path) => {
    const kind = calls.dagcbor_follow(...putBoth(room, block, path), room.front);
    if (kind < 0) return kind;
    const [begin, end, passed] = [0, 1, 2].map((n) => room.number(n));
    return { kind, begin, end, passed };
  },
  // The number of a refusal, or -36 if the segment, given as UTF-8, leads nowhere; or the kind of
  // the part of the block's item to which it leads, taken whole, and where that begins and ends.
  part: (block, segment) => {
    const kind = calls.dagcbor_part(...putBoth(room, block, segment), room.front, room.front + 8n);
    return kind < 0 ? kind : { kind, begin: room.number(0), end: room.number(1) };
  },
  // The number of a refusal, or CIDs: packed they are shorter than the block.
  links: (block) => told(room.take(calls.dagcbor_links, block, { few: block.length }), unpacked),
  // The number of a refusal, or the block that a BigUint64Array of tokens tells, with payloads
  // out of the bytes.
  spell: (bytes, tape) => {
    const at = behind(bytes.length);
    const out = at + 8 * tape.length;
    room.reserve(out);
    new BigUint64Array(room.memory.buffer, room.base + FRONT + at, tape.length).set(tape);
    const tokens = [room.address(at), BigInt(Math.floor(tape.length / 3))];
    const call = (from, length, ...more) => calls.dagcbor_spell(from, length, ...tokens, ...more);
    return room.take(call, bytes, { out });
  },
  // The number of a refusal, or the links of a block of DAG-PB: packed they are shorter than it.
  nodeLinks: (node) => told(room.take(calls.dagcbor_node_links, node, { few: node.length }), unpacked),
  // The number of a refusal, or the data model of a block of DAG-PB, as a block of DAG-CBOR.
  fromNode: (node) => room.take(calls.dagcbor_from_node, node),
  // The place of the fault for which bytes are not a block of DAG-PB.
  placeInNode: (bytes) => {
    room.ask(calls.dagcbor_from_node, bytes);
    return room.number(1);
  },
  // The number of a refusal, or the block of DAG-PB whose data model a block of DAG-CBOR has.
  toNode: (block) => room.take(calls.dagcbor_to_node, block),
  // The number of a refusal, or the text of a CID.
  cidText: (bytes) => told(room.take(calls.dagcbor_cid_text, bytes, { few: CID_TEXT_MOST }), (text) =>
    String.fromCharCode(...text)),
  // The number of a refusal, or the CID of a text.
  cidFromText: (text) =>
    room.take(calls.dagcbor_cid_from_text, new TextEncoder().encode(text), { few: CID_MOST }),
});

const walking = (calls, room) => ({
  // A walk through a CAR file of which no byte was seen. Its first number is the place in the
  // file of the next byte that it wants.
  carWalk: () => new BigUint64Array(3),
  // What comes next in the file, of which the bytes are those from the walk's place on, and the last
  // ones if `isLast`: the header, or as many sections as are there. `codes` is what is said of each;
  // `places` where its CID and its block begin and where it ends; `links` those of the header's block
  // or of the blocks of DAG-CBOR, a byte of length before each. `cause` is the number of what comes
  // after them: 10 if that is not known before more bytes are, 11 the header, 12 the end, or a fault.
  // `version` is that of the file, if it is known.
  carNext: (walk, bytes, isLast) => {
    const { length } = bytes;
    room.put(bytes, length + 1); // packed links are shorter than the blocks
    const state = new BigUint64Array(room.memory.buffer, room.base + WALK, walk.length);
    state.set(walk);
    const isBegun = state[2] >> 32n !== 0n; // else a refusal is of the header's block
    const [codes, places] = [[], []];
    let packed = 0;
    for (;;) {
      const passed = state[0] - walk[0];
      const at = passed < length ? Number(passed) : length;
      const cause = calls.dagcbor_car_next(room.front + BigInt(WALK), room.address(at),
        BigInt(length - at), isLast ? 1 : 0, room.front);
      const [cid, block, end] = [0, 1, 2].map((n) => at + room.number(n));
      const isSection = isBegun && cause >= LEAST && cause <= NOT_READ;
      if (cause === HEADER || (isSection && cause >= 0 && cause < NOT_READ)) {
        const needed = room.front + BigInt(2 * WALK);
        calls.dagcbor_links(room.address(block), BigInt(end - block),
          room.address(length + packed), BigInt(length - packed), needed);
        packed += room.number(2 * WALK / 8);
      }
      if (!isSection) {
        walk.set(state);
        const version = Number(state[2] & 0xffffffffn);
        return { cause, codes, places, version, links: room.copy(length, packed) };
      }
      codes.push(cause);
      places.push(cid, block, end);
    }
  },
});

const instanceOf = (module) => {
  const { exports: calls } = new WebAssembly.Instance(module);
  const room = new Room(calls);
  const all = { ...answering(calls, room), ...walking(calls, room) };
  const isLarge = () => room.memory.buffer.byteLength > KEPT;
  return { calls: { ...all, heldIn: heldBy(all.verify) }, isLarge };
};

// A call that is broken off, as where the stack is at its end, leaves its own stack behind: so the
// next one gets another instance. So it does after a call that took much memory, which does not
// shrink. No call keeps anything for the next.
const callsOf = (module) => {
  let made = instanceOf(module);
  const guarded = (name) => (...given) => {
    const instance = made ?? instanceOf(module);
    made = undefined;
    const answer = instance.calls[name](...given);
    if (!instance.isLarge()) made = instance;
    return answer;
  };
  return Object.fromEntries(Object.keys(made.calls).map((name) => [name, guarded(name)]));
};

const load = async (module) =>
  callsOf(module instanceof WebAssembly.Module ? module : await WebAssembly.compile(module));

module.exports = { callsOf, load, unpacked };
