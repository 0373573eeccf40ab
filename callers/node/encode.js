// Blocks out of values: what is in them is told as tokens, which the library spells, and then it
// judges what it spelt.
'use strict';
const { native } = require('./library.js');
const { isAlone, isBytes, lengthOf, view } = require('./bytes.js');
const { MARK, binaryOf, clonedOf, foreignOf } = require('./cid.js');
const { DagCborError, REASONS, answered } = require('./errors.js');
const { hasInside, isMap, isProxy, latin1, newPool, unfilled, utf8 } = require('./platform.js');

const encoder = new TextEncoder();
const [NULL, BOOL, INTEGER, STRING, BYTES, LIST, MAP, LINK, NEGATIVE] = Array(9).keys();
const [UNSUPPORTED, MISMATCH, UTF8, OVERFLOW, DEPTH, TOO_LONG] = [-5, -4, -8, -10, -12, -21];
const MOST_LEVELS = 128; // of lists and maps in each other, in any block
const [WORDS, ABSENT] = [6, 2 ** 32 - 1]; // of a token; the place of a payload that is not put yet
const LARGE = 1 << 20; // words and bytes
const GATHERED = 1 << 13; // units of texts: the engine moves about what many are put together of
const APART = 1 << 16; // bytes of a byte string that may be put into the block alone
const WORTH = 256; // bytes of these for each token
const { shared: SHARED, spell, words: OWN_WORDS, payload: OWN_PAYLOAD } = native;

// Short blocks, of up to SHARED bytes, lie one after the other in a pool, up to `used`: memory of
// its own takes longer than all else for a short block.
const POOL = 8192;
let [pool, used] = [newPool(POOL), 0];

const longer = (array, length) => {
  const made = new array.constructor(Math.max(length, Math.min(2 * array.length, ABSENT)));
  made.set(array);
  return made;
};

// The tokens of a value: six words for each, in pairs, the low one first, of its kind, its number
// and the place of its payload. Texts and links, of a unit for each byte, are gathered in `texts`
// until their payloads are put.
let turns = 0;

class Tape {
  constructor(words = new Uint32Array(WORDS << 6), payload = new Uint8Array(1024)) {
    this.words = words;
    this.payload = payload;
    this.at = 0;
    this.used = 0; // of the payload
    this.settled = 0; // tokens whose payloads are put
    this.texts = '';
    this.apart = []; // long byte strings: their tokens, which say that they are empty, and themselves
    this.more = 0; // bytes of these
    this.levels = 0;
    this.turn = turns += 1;
  }

  put(kind, low, high, place) {
    const { at } = this;
    if (at === this.words.length) this.words = longer(this.words, 2 * at); // or throws
    const { words } = this;
    words[at] = kind;
    words[at + 2] = low;
    words[at + 3] = high;
    words[at + 4] = place;
    this.at = at + WORDS;
  }

  putUnits(kind, text) {
    if (this.texts.length + text.length > GATHERED && this.texts) this.settle();
    this.put(kind, text.length, 0, text ? ABSENT : 0);
    this.texts += text;
  }

  room(count) {
    const wanted = this.used + count;
    if (wanted + this.more > ABSENT) this.no(TOO_LONG, 'a block of 4 GiB or more is not written');
    if (wanted > this.payload.length) this.payload = longer(this.payload, wanted);
  }

  // Puts bytes, and returns where.
  place(bytes, length) {
    this.room(length);
    const { used } = this;
    if (length) this.payload.set(bytes, used); // those that are detached have none
    this.used += length;
    return used;
  }

  // Puts a byte string, or the token of one, which is empty until it is known what is done with it.
  putBytes(bytes, length) {
    if (length < APART) return this.put(BYTES, length, 0, this.place(bytes, length));
    this.apart.push({ token: this.at / WORDS, bytes, length });
    this.more += length;
    this.room(0);
    return this.put(BYTES, 0, 0, 0);
  }

  // The long byte strings, each of the length that it had.
  *longOnes() {
    for (const it of this.apart) {
      if (lengthOf.call(it.bytes) !== it.length) this.no(UNSUPPORTED, CHANGED, [], it.token * WORDS);
      yield it;
    }
  }

  // Puts them like all others, unless they are so long beside the tokens that it pays to judge
  // these once more.
  join() {
    if ((this.at / WORDS) * WORTH <= this.more) return;
    this.more = 0;
    for (const { token, bytes, length } of this.longOnes()) {
      this.words[token * WORDS + 4] = this.place(bytes, length);
      this.words[token * WORDS + 2] = length;
    }
    this.apart = [];
  }

  enter(kind, count) {
    if (this.levels === MOST_LEVELS - 1 && count > 0) this.no(DEPTH);
    this.put(kind, count, 0, 0);
    this.levels += 1;
  }

  // Puts the payloads of texts and links. With a pool it returns the block, which lies there if the
  // answer is its length.
  settle(into, from) {
    this.room(3 * this.texts.length + 1);
    const { words, payload, settled } = this;
    const count = this.at / WORDS;
    const texts = this.texts || undefined;
    const isKept = settled === 0 && words === OWN_WORDS && payload === OWN_PAYLOAD;
    const told = isKept
      ? spell(count, this.used, texts, into, from)
      : spell(count, this.used, texts, into, from, settled, words, payload);
    if (told === UTF8) this.noText();
    answered(told);
    if (!into) [this.settled, this.used, this.texts] = [count, told, ''];
    return told;
  }

  // The keys and indices that lead to the token there.
  way(end) {
    const { words, payload, texts } = this;
    const way = [];
    let [at, from] = [0, 0]; // a token, and a place in the texts
    const key = () => {
      const [length, place] = [words[at + 2], words[at + 4]];
      return place === ABSENT ? texts.slice(from, from + length) : utf8(payload, place, place + length);
    };
    const next = () => {
      if (words[at + 4] === ABSENT) from += words[at + 2];
      at += WORDS;
    };
    const pass = () => { // over an item, unless the token is there or in it
      if (at >= end) return false;
      const [kind, count] = [words[at], words[at + 2]];
      next();
      for (let i = 0; i < count && (kind === LIST || kind === MAP); i++) {
        way.push(kind === MAP ? key() : i);
        if (kind === MAP) next();
        if (!pass()) return false;
        way.pop();
      }
      return true;
    };
    pass();
    return way;
  }

  no(code, said, more = [], end = this.at) {
    const [kind, reason] = REASONS[code];
    throw new DagCborError(kind, said ?? reason, [...this.way(end), ...more]);
  }

  // The first whose payload was not put is not UTF-8.
  noText() {
    let at = this.settled * WORDS;
    while (this.words[at + 4] !== ABSENT) at += WORDS;
    this.no(UTF8, LONE, [], at);
  }
}

const LONE = 'a text with a surrogate alone';

const putNumber = (tape, number) => {
  if (!Number.isInteger(number)) tape.no(UNSUPPORTED, 'a float');
  if (!Number.isSafeInteger(number)) {
    tape.no(OVERFLOW, 'an integer beyond 2^53 is wanted as a BigInt');
  }
  const n = number < 0 ? -1 - number : number;
  tape.put(number < 0 ? NEGATIVE : INTEGER, n, n < 2 ** 32 ? 0 : n / 2 ** 32, 0);
};

const putBigInt = (tape, big) => {
  const n = big < 0n ? -1n - big : big;
  if (n >= 1n << 64n) tape.no(OVERFLOW, 'a BigInt that is not in -2^64 .. 2^64 - 1');
  tape.put(big < 0n ? NEGATIVE : INTEGER, Number(n & 0xffffffffn), Number(n >> 32n), 0);
};

const putList = (tape, list) => {
  const count = list.length >>> 0; // of a proxy it may be anything
  tape.enter(LIST, count);
  for (let i = 0; i < count; i++) putValue(tape, list[i]);
  tape.levels -= 1;
};

// The order of keys: the shorter first, then by their bytes, both in UTF-8.
const shorterFirst = (one, other) => one.length - other.length || (one < other ? -1 : 1);
const isPlain = (texts) => /^[\0-\x7f]*$/.test(texts.join(''));

// The places of the keys that come first, second and so on.
const sorted = (tape, keys) => {
  const inUtf8 = (key) => (isAlone(key) ? tape.no(UTF8, LONE, [key]) : latin1(encoder.encode(key)));
  const spelt = isPlain(keys) ? keys : keys.map(inUtf8);
  const places = keys.map((_, place) => place);
  return places.sort((one, other) => shorterFirst(spelt[one], spelt[other]));
};

// Many objects have the same few keys: their orders are kept, and from the second object on the
// keys' UTF-8, of which one tape has a copy.
const [SLOTS, MOST_KEYS, MOST_UNITS, ODD] = [1024, 128, 1024, 0x9e3779b1];
const newOrder = (keys, places) => {
  const inOrder = places.map((place) => keys[place]);
  const hasSlash = keys.includes('/');
  const isClone = keys.length === 1 && keys[0] === MARK;
  return { keys, places, inOrder, hasSlash, isClone, spelt: undefined, lengths: [], turn: 0, place: 0 };
};
let last = newOrder([], []);
const orders = new Array(SLOTS).fill(last);

const isSame = (keys, others) => {
  if (keys.length !== others.length) return false;
  for (let i = 0; i < keys.length; i++) if (keys[i] !== others[i]) return false;
  return true;
};

// By the first key, the last one, and one between.
const slotOf = (keys) => {
  const count = keys.length;
  let slot = count;
  for (let at = 0; at < count; at += (count >> 1) || 1) {
    const key = keys[at];
    for (let i = 0; i < key.length; i++) slot = Math.imul(slot ^ key.charCodeAt(i), ODD);
  }
  return slot >>> 22;
};

const spellKeys = (order) => {
  const all = order.inOrder.join('');
  order.spelt = encoder.encode(all);
  const isAscii = order.spelt.length === all.length;
  order.lengths = order.inOrder.map((key) => (isAscii ? key : encoder.encode(key)).length);
};

const orderOf = (tape, keys) => {
  if (isSame(last.keys, keys)) return last;
  if (keys.length > MOST_KEYS) return newOrder(keys, sorted(tape, keys));
  const slot = slotOf(keys);
  const known = orders[slot];
  if (isSame(known.keys, keys)) {
    if (known.spelt === undefined) spellKeys(known);
    last = known;
    return known;
  }
  const made = newOrder(keys, sorted(tape, keys));
  if (keys.join('').length <= MOST_UNITS) orders[slot] = made;
  return made;
};

// The values of some more keys of an object, each read by its key: in such a loop the engine knows
// where it is. What Object.values reads may be of other keys. A key that goes while a value is read
// ends the loop, and so does one that comes.
const [FEW, MANY] = [8, 128];

const valuesOf = (map, keys) => {
  const values = [];
  for (const key in map) {
    if (key !== keys[values.length]) break;
    values.push(map[key]);
  }
  while (values.length < keys.length) values.push(map[keys[values.length]]);
  return values;
};

// The entries, in the order of blocks.
const putEntries = (tape, map, values, order) => {
  const { places, inOrder, spelt, lengths } = order;
  tape.enter(MAP, inOrder.length);
  if (spelt !== undefined && order.turn !== tape.turn) {
    order.turn = tape.turn;
    order.place = tape.place(spelt, spelt.length);
  }
  let { place } = order;
  for (let i = 0; i < inOrder.length; i++) {
    if (spelt === undefined) tape.putUnits(STRING, inOrder[i]);
    else tape.put(STRING, lengths[i], 0, place);
    place += lengths[i];
    putValue(tape, values === undefined ? map[inOrder[i]] : values[places[i]]);
  }
  tape.levels -= 1;
};

// The own properties of an object that are enumerable and have texts as keys; unless it is a CID
// that lost its class, as `multiformats` tells one. Each value is read once.
const putMap = (tape, map) => {
  const keys = Object.keys(map);
  if (keys.length === 0 && hasInside(map)) tape.no(UNSUPPORTED, OTHER);
  const order = orderOf(tape, keys);
  const binary = order.hasSlash ? foreignOf(map) : order.isClone ? clonedOf(map) : undefined;
  if (binary !== undefined) return tape.putUnits(LINK, binary);
  const isLoop = keys.length > FEW && keys.length <= MANY;
  return putEntries(tape, map, isLoop ? valuesOf(map, keys) : undefined, order);
};

const putJsMap = (tape, map) => {
  const [keys, values] = [[], []];
  Map.prototype.forEach.call(map, (value, key) => {
    if (typeof key !== 'string') tape.no(MISMATCH, 'a key of a Map that is no text');
    keys.push(key);
    values.push(value);
  });
  putEntries(tape, map, values, orderOf(tape, keys));
};

const [CHANGED, OTHER, PROXY] = [
  'a Uint8Array whose length changed while it was written',
  'an object that is no Array, Uint8Array, CID, Map or map',
  'a Proxy of neither an Array nor a plain object',
];

// A value that is neither a list nor a plain object.
const putOther = (tape, value) => {
  if (isBytes(value)) return tape.putBytes(value, lengthOf.call(value));
  const binary = binaryOf(value) ?? foreignOf(value);
  if (binary !== undefined) return tape.putUnits(LINK, binary);
  if (isMap(value)) return putJsMap(tape, value);
  const isObject = Object.prototype.toString.call(value) === '[object Object]';
  if (isProxy(value)) tape.no(UNSUPPORTED, PROXY); // that of a Date looks like a map
  // A class may say that its objects are such ones.
  if (!isObject || (Symbol.toStringTag in value && hasInside(value))) tape.no(UNSUPPORTED, OTHER);
  return putMap(tape, value);
};

// True if its prototype is null, or that of objects in some realm, which has none itself.
const isPlainObject = (value) => {
  const above = Object.getPrototypeOf(value);
  return above === Object.prototype || above === null || Object.getPrototypeOf(above) === null;
};

const putObject = (tape, value) => {
  if (value === null) tape.put(NULL, 0, 0, 0);
  else if (Array.isArray(value)) putList(tape, value);
  else if (isPlainObject(value)) putMap(tape, value);
  else putOther(tape, value);
};

const putValue = (tape, value) => {
  switch (typeof value) {
    case 'string': return tape.putUnits(STRING, value);
    case 'number': return putNumber(tape, value);
    case 'object': return putObject(tape, value);
    case 'boolean': return tape.put(BOOL, value ? 1 : 0, 0, 0);
    case 'bigint': return putBigInt(tape, value);
    case 'undefined': return tape.no(UNSUPPORTED, 'undefined');
    default: return tape.no(UNSUPPORTED, 'a function or a symbol');
  }
};

// The block with the long byte strings in place of the empty ones; the library tells where these
// stand. It judges this block too.
const HEAD = 5; // bytes of a head of a length from 2^16 to 2^32

const filled = (tape, empty) => {
  const tokens = native.tape(empty);
  const block = unfilled(empty.length + tape.more + (HEAD - 1) * tape.apart.length);
  let [from, at] = [0, 0]; // in the one and in the other
  const put = (bytes) => {
    block.set(bytes, at);
    at += bytes.length;
  };
  for (const { token, bytes, length } of tape.longOnes()) {
    const end = Number(tokens[3 * token + 2]);
    put(view(empty, from, end - 1));
    put([0x5a, length >>> 24, length >>> 16, length >>> 8, length]);
    put(view(bytes, 0, length));
    from = end;
  }
  put(view(empty, from, empty.length));
  answered(native.check(block));
  return block;
};

// Its block: a part of the pool, or by itself.
const blockOf = (tape) => {
  if (tape.apart.length) tape.join();
  const told = tape.settle(pool, used);
  const isPooled = typeof told === 'number';
  const block = isPooled ? new Uint8Array(pool.buffer, used, told) : told;
  if (tape.apart.length) return filled(tape, block);
  if (isPooled) used += told;
  else if (block.length <= SHARED) [pool, used] = [newPool(POOL), 0];
  return block;
};

// The arrays of a tape are kept for the next one, unless they are large. A script that runs
// meanwhile, as that of a property, may write another block, on another tape.
let [kept, isBusy] = [{ words: OWN_WORDS, payload: OWN_PAYLOAD }, false];

const encode = (value) => {
  const isInner = isBusy;
  const tape = isInner ? new Tape() : new Tape(kept.words, kept.payload);
  isBusy = true;
  try {
    putValue(tape, value);
    return blockOf(tape);
  } finally {
    isBusy = isInner;
    const { words, payload } = tape;
    if (!isInner && words.length + payload.length <= LARGE) kept = { words, payload };
  }
};

module.exports = { encode };
