// The items of a block in words and short text.

import { NULL, BOOL, INTEGER, TEXT, BYTES, LIST, MAP, LINK, NEGATIVE } from './kinds.js';
import { FAULT, payloadOf } from './shape.js';
import { cidText } from './cid.js';
import { counted, fromUtf8, quoted, toHex } from './text.js';

export const KIND_CLASS = {
  [NULL]: 'k-simple', [BOOL]: 'k-simple', [INTEGER]: 'k-number', [NEGATIVE]: 'k-number',
  [TEXT]: 'k-text', [BYTES]: 'k-bytes', [LIST]: 'k-holder', [MAP]: 'k-holder',
  [LINK]: 'k-link', [FAULT]: 'k-fault',
};

const KIND_NAME = {
  [NULL]: 'null', [BOOL]: 'boolean', [INTEGER]: 'integer', [NEGATIVE]: 'negative integer',
  [TEXT]: 'text', [BYTES]: 'byte string', [LIST]: 'list', [MAP]: 'map', [LINK]: 'link',
  [FAULT]: 'refused',
};

const MOST_TEXT = 300;
const MOST_KEY = 60; // in a path
const MOST_BYTES = 48;

// A block, and its items by their tokens.
export class Items {
  constructor(bytes, shape) {
    this.bytes = bytes;
    this.shape = shape;
  }

  kind(i) {
    return this.shape.kind[i];
  }

  kindName(i) {
    return this.shape.isKey[i] ? 'key' : KIND_NAME[this.kind(i)];
  }

  kindClass(i) {
    return this.shape.isKey[i] ? 'k-key' : KIND_CLASS[this.kind(i)];
  }

  isHolder(i) {
    return this.kind(i) === LIST || this.kind(i) === MAP;
  }

  payload(i) {
    const place = this.shape.place[i];
    return this.bytes.subarray(place, place + payloadOf(this.shape, i));
  }

  text(i) {
    return fromUtf8(this.payload(i));
  }

  // The token of the key before a value, or -1.
  keyOf(i) {
    const { isKey, parent } = this.shape;
    return i > 0 && !isKey[i] && isKey[i - 1] && parent[i] === parent[i - 1] ? i - 1 : -1;
  }

  // The value of a key.
  valueOf(i) {
    return this.shape.isKey[i] && i + 1 < this.shape.count ? i + 1 : i;
  }

  // How many items or entries of a list or map are there.
  taken(i) {
    const { end, order } = this.shape;
    if (end[i] === i + 1) return 0;
    let last = end[i] - 1;
    while (this.shape.parent[last] !== i) last = this.shape.parent[last];
    return order[last] + 1;
  }

  announced(i) {
    return counted(this.shape.number[i], this.kind(i) === MAP ? 'entry' : 'item',
      this.kind(i) === MAP ? 'entries' : 'items');
  }

  number(i) {
    const { number } = this.shape;
    return this.kind(i) === NEGATIVE ? -1n - number[i] : number[i];
  }

  // In one line.
  short(i) {
    switch (this.kind(i)) {
      case NULL: return 'null';
      case BOOL: return this.shape.number[i] ? 'true' : 'false';
      case INTEGER: case NEGATIVE: return String(this.number(i));
      case TEXT: return this.shortText(i);
      case BYTES: return this.shortBytes(i);
      case LIST: return `[ ${this.announced(i)} ]`;
      case MAP: return `{ ${this.announced(i)} }`;
      case LINK: return cidText(this.payload(i));
      default: return 'refused here';
    }
  }

  // In one line that is read out: its key or index, its kind, and what it is.
  told(i) {
    const key = this.keyOf(i);
    const isHeld = this.shape.parent[i] >= 0 && !this.shape.isKey[i];
    const label = key >= 0 ? `${this.shortText(key)}: ` : isHeld ? `${this.shape.order[i]}: ` : '';
    if (this.isHolder(i)) return `${label}${this.kindName(i)} of ${this.announced(i)}`;
    const isPlain = [NULL, BOOL, FAULT].includes(this.kind(i));
    return `${label}${isPlain ? '' : `${this.kindName(i)} `}${this.short(i)}`;
  }

  shortText(i, most = MOST_TEXT) {
    const all = this.payload(i);
    // Four bytes a character at most, and a cut one is not shown.
    return all.length <= most ? quoted(fromUtf8(all))
      : quoted(fromUtf8(all.subarray(0, 4 * most)), most);
  }

  shortBytes(i) {
    const all = this.payload(i);
    if (!all.length) return 'empty';
    return toHex(all.subarray(0, MOST_BYTES)) + (all.length > MOST_BYTES ? '…' : '');
  }

  // The way there from the front: a.b[3]
  path(i) {
    const parts = [];
    for (let at = i; this.shape.parent[at] >= 0; at = this.shape.parent[at]) {
      const key = this.shape.isKey[at] ? at : this.keyOf(at);
      if (key >= 0) parts.unshift(`[${this.shortText(key, MOST_KEY)}]`);
      else {
        const isInList = this.kind(this.shape.parent[at]) === LIST;
        parts.unshift(isInList ? `[${this.shape.order[at]}]` : '[key]');
      }
    }
    return parts.join('') || 'the whole block';
  }
}
