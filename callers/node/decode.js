// Makes values from the tokens of a block, which the library tells: nothing is parsed here.
//
// No foreign script runs from the first token to the last, so the block stays as it was judged:
// lists and maps get their values as properties of their own, and no setter is called.
'use strict';
const { native } = require('./library.js');
const { lengthOf, view } = require('./bytes.js');
const { cidOf } = require('./cid.js');
const { refusal } = require('./errors.js');
const { latin1, plain: plainly, unfilled } = require('./platform.js');

// The kinds of tokens; that of a text of ASCII, and of a part of a text of some width.
const [NULL, BOOL, INTEGER, STRING, BYTES, LIST, MAP, LINK, NEGATIVE, ASCII, LATIN1, WIDE] =
  Array(12).keys();
const TRAILING_DATA = -14;

// Three words for each token: its kind, its number, its place; for an integer the number's low word
// and its high one. They are in `kept`, or in an array of their own if there are many.
const { read, texts, kept } = native;
let [words, block, at, turn] = [kept, undefined, 0, 0];

// A text with a byte for each unit. A short one is cut out of a longer one, which then stays alive.
const [WINDOW, LONGEST] = [1024, 64];
let [cut, cutFrom, cutTo] = ['', 0, 0];

const plainText = (from, length) => {
  const to = from + length;
  if (to > cutTo) {
    if (length > LONGEST) return plainly(block, from, to);
    cutFrom = from;
    cutTo = Math.min(from + WINDOW, lengthOf.call(block));
    cut = plainly(block, cutFrom, cutTo);
  }
  return cut.slice(from - cutFrom, to - cutFrom);
};

// The binary form of a CID, which is cut in the same way.
let [links, linksFrom, linksTo] = ['', 0, 0];

const linkAt = (from, length) => {
  const to = from + length;
  if (to > linksTo) {
    linksFrom = from;
    linksTo = Math.min(from + Math.max(WINDOW, length), lengthOf.call(block));
    links = latin1(block, linksFrom, linksTo);
  }
  return cidOf(links.slice(from - linksFrom, to - linksFrom));
};

// Texts beyond ASCII. Some that come have parts: a text with one byte for each unit, and another.
let [narrow, wide] = ['', ''];

const textAt = (i) => {
  if (words[i] === STRING) {
    const made = texts(i / 3, words, block);
    if (words[i] === LATIN1) narrow = made;
    else wide = made;
  }
  const number = words[i + 1];
  const from = words[i + 2];
  if (words[i] === ASCII) return plainText(from, number);
  return (words[i] === LATIN1 ? narrow : wide).slice(from, from + number);
};

// Keys in the order in which maps had them: each knows those that came after it, the last one as
// `next`. `units` are those of the key, and `turn` is the last one in which it was not a property
// of every object.
const [MOST_KEYS, MOST_OTHERS] = [4096, 64];
const newKey = (text) => {
  const units = Array.from(text, (it) => it.charCodeAt(0));
  return { text, units, next: undefined, others: undefined, turn: 0 };
};
let [root, keys] = [newKey(''), 0];

const otherKey = (before, i) => {
  const text = textAt(i);
  const { next, others } = before;
  if (next?.text === text) return next;
  let found = others?.get(text);
  if (found === undefined) {
    found = newKey(text);
    if (text.length > LONGEST) return found;
    keys += 1;
    if (next !== undefined) {
      if (others === undefined || others.size >= MOST_OTHERS) before.others = new Map();
      before.others.set(next.text, next).set(text, found);
    }
  }
  before.next = found;
  return found;
};

// The key of that token, after another one. One of ASCII is told by its bytes.
const keyBehind = (before, i) => {
  const { next } = before;
  if (next === undefined || words[i] !== ASCII) return otherKey(before, i);
  const { units } = next;
  const count = words[i + 1];
  const from = words[i + 2];
  const all = block;
  if (units.length !== count) return otherKey(before, i);
  for (let j = 0; j < count; j++) if (units[j] !== all[from + j]) return otherKey(before, i);
  return next;
};

const plain = {};
const [configurable, enumerable, writable] = [true, true, true];
const define = (map, key, value) =>
  Object.defineProperty(map, key, { __proto__: null, value, configurable, enumerable, writable });

// The engine makes a slow dictionary of an object that has many more properties than there is room
// for in itself: as many as those had that were first made by the same function.
const [FEW, MANY] = [12, 48];

function Wide(isFull) {
  if (!isFull) return;
  this.a = this.b = this.c = this.d = this.e = this.f = this.g = this.h = this.i = this.j = null;
  this.k = this.l = this.m = this.n = this.o = this.p = this.q = this.r = this.s = this.t = null;
  this.u = this.v = this.w = this.x = null;
}
Wide.prototype = Object.prototype;
for (let i = 0; i < 8; i++) new Wide(true);

const nextMap = (count) => {
  if (count > MANY) return wideMap(count);
  const map = count > FEW ? new Wide(false) : {};
  let key = root;
  for (let left = count; left > 0; left--) {
    key = keyBehind(key, at);
    at += 3;
    if (key.turn === turn) map[key.text] = nextValue();
    else if (key.text in plain) define(map, key.text, nextValue());
    else {
      key.turn = turn;
      map[key.text] = nextValue();
    }
  }
  return map;
};

// A dictionary anyway: nothing is above it until it is full.
const wideMap = (count) => {
  const map = Object.create(null);
  for (let left = count; left > 0; left--) {
    const key = textAt(at);
    at += 3;
    map[key] = nextValue();
  }
  return Object.setPrototypeOf(map, Object.prototype);
};

// A list is a copy of one of nulls, so it has its places from the beginning.
let nulls = [null];
const LONG = 1 << 16;

const listOf = (count) => {
  let longer = nulls;
  while (longer.length < count) longer = longer.concat(longer);
  if (longer.length <= LONG) nulls = longer;
  return longer.slice(0, count);
};

const nextList = (count) => {
  const list = listOf(count);
  for (let i = 0; i < count; i++) list[i] = nextValue();
  return list;
};

// A copy of bytes of the block.
const bytesAt = (from, length) => {
  const bytes = view(block, from, from + length);
  if (length < LONG) return bytes.slice();
  const made = unfilled(length);
  made.set(bytes);
  return made;
};

// A number if it is a safe one, and else a BigInt.
const integer = (low, high, isNegative) => {
  const n = high * 2 ** 32 + low;
  const number = isNegative ? -1 - n : n;
  if (Number.isSafeInteger(number)) return number;
  const big = (BigInt(high) << 32n) | BigInt(low);
  return isNegative ? -1n - big : big;
};

const nextValue = () => {
  const number = words[at + 1];
  const last = words[at + 2];
  at += 3;
  switch (words[at - 3]) {
    case ASCII: return plainText(last, number);
    case INTEGER: return last === 0 ? number : integer(number, last, false);
    case MAP: return nextMap(number);
    case LIST: return nextList(number);
    case STRING:
    case LATIN1:
    case WIDE: return textAt(at - 3);
    case LINK: return linkAt(last, number);
    case BYTES: return bytesAt(last, number);
    case NEGATIVE: return integer(number, last, true);
    case BOOL: return number === 1;
    case NULL: return null;
    default: throw new Error('a token of no kind');
  }
};

const decode = (bytes) => {
  const told = read(bytes);
  if (typeof told === 'number' && told < 0) throw refusal(told, native.place(bytes));
  words = typeof told === 'number' ? kept : told;
  block = bytes;
  at = 0;
  cutTo = linksTo = 0;
  turn += 1;
  if (keys > MOST_KEYS) [root, keys] = [newKey(''), 0];
  const value = nextValue();
  words = kept;
  block = undefined;
  cut = links = narrow = wide = '';
  return value;
};

// The value of the first item, and the bytes after it.
const decodeFirst = (bytes) => {
  const length = lengthOf.call(bytes);
  const end = native.check(bytes) === TRAILING_DATA ? native.place(bytes) : length;
  return [decode(view(bytes, 0, end)), view(bytes, end, length)];
};

module.exports = { decode, decodeFirst };
