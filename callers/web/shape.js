// A block's tokens, and what follows from their order: where each begins, which list or map holds
// it, and where its part of the tape ends. Nothing here reads a byte of the block.

import { TEXT, BYTES, LIST, MAP, LINK } from './kinds.js';

export const FAULT = 255; // stands where the reading of a refused block stopped

// What the lists and maps among the tokens announce may be more than is there.
export const shapeOf = (tape) => {
  const all = tape.length / 3;
  let next = 0;
  const whole = all + 1; // one more for a fault
  const shape = {
    kind: new Uint8Array(whole),
    number: new BigUint64Array(whole),
    start: new Float64Array(whole + 1),
    place: new Float64Array(whole),
    parent: new Int32Array(whole).fill(-1),
    order: new Int32Array(whole), // of an item in its list, of an entry in its map
    end: new Int32Array(whole),
    isKey: new Uint8Array(whole),
  };
  const open = []; // of each list and map that is open: its token, what is left, what was taken
  for (let i = 0; i < all; i += 1) {
    const kind = Number(tape[3 * i]);
    const number = tape[3 * i + 1];
    const place = Number(tape[3 * i + 2]);
    enter(shape, open, i);
    shape.kind[i] = kind;
    shape.number[i] = number;
    shape.start[i] = next;
    shape.place[i] = place;
    next = kind === TEXT || kind === BYTES || kind === LINK ? place + Number(number) : place;
    if (kind === LIST && number) open.push({ token: i, left: number, taken: 0 });
    else if (kind === MAP && number) open.push({ token: i, left: 2n * number, taken: 0 });
    else close(shape, open, i + 1);
    shape.end[i] = i + 1;
  }
  shape.start[all] = next;
  shape.count = all;
  shape.open = open;
  for (const it of open) shape.end[it.token] = all;
  return shape;
};

const enter = (shape, open, token) => {
  const holder = open[open.length - 1];
  if (!holder) return;
  const isMap = shape.kind[holder.token] === MAP;
  shape.parent[token] = holder.token;
  shape.order[token] = isMap ? holder.taken >> 1 : holder.taken;
  shape.isKey[token] = isMap && holder.taken % 2 === 0 ? 1 : 0;
  holder.taken += 1;
  holder.left -= 1n;
};

const close = (shape, open, end) => {
  while (open.length && !open[open.length - 1].left) shape.end[open.pop().token] = end;
};

// A last token where the reading stopped, at the byte `place`: it begins after the last one that
// stands whole.
export const addFault = (shape, place) => {
  const i = shape.count;
  if (shape.open.length) {
    enter(shape, shape.open, i);
    for (const it of shape.open) shape.end[it.token] = i + 1;
  }
  shape.isKey[i] = 0;
  shape.kind[i] = FAULT;
  shape.place[i] = place;
  shape.start[i + 1] = place + 1;
  shape.end[i] = i + 1;
  shape.count = i + 1;
};

// How many bytes are after a token's head.
export const payloadOf = (shape, i) => {
  const kind = shape.kind[i];
  return kind === TEXT || kind === BYTES || kind === LINK ? Number(shape.number[i]) : 0;
};

// The token that a byte belongs to, or -1.
export const tokenAt = (shape, place) => {
  if (!shape.count || place >= shape.start[shape.count]) return -1;
  let [low, high] = [0, shape.count - 1];
  while (low < high) {
    const middle = (low + high + 1) >> 1;
    if (shape.start[middle] <= place) low = middle;
    else high = middle - 1;
  }
  return low;
};
