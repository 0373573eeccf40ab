// DAG-JSON as tokens, which the library spells and judges. Keys are put in the order of blocks.

import { NULL, BOOL, INTEGER, TEXT, BYTES, LIST, MAP, LINK, NEGATIVE } from './kinds.js';
import { cidFrom } from './cid.js';
import { fromBase64 } from './text.js';
import { textFaultOf } from './verdicts.js';

const encoder = new TextEncoder();
const SPACE = /[ \t\r\n]*/y;
const NUMBER = /-?(0|[1-9][0-9]*)(\.[0-9]+)?([eE][+-]?[0-9]+)?/y;
const STRING = /"(?:[^"\\\u0000-\u001f]|\\(?:["\\/bfnrt]|u[0-9a-fA-F]{4}))*"/y;
const DEPTH = 1000;
const SLASH = Uint8Array.of(0x2f);

// The payloads, one after the other, and the tokens over them.
export const tokensOf = (text) => {
  const value = new Reader(text).whole();
  const [parts, tokens] = [[], []];
  let at = 0;
  const put = (kind, number, place = 0) =>
    tokens.push(BigInt(kind), BigInt(number), BigInt(place));
  const payload = (kind, bytes) => {
    put(kind, bytes.length, at);
    parts.push(bytes);
    at += bytes.length;
  };
  const tell = (it) => {
    if (it.kind === LIST) {
      put(LIST, it.items.length);
      it.items.forEach(tell);
    } else if (it.kind === MAP) {
      put(MAP, it.entries.length);
      for (const { key, value: held } of it.entries) {
        payload(TEXT, key);
        tell(held);
      }
    } else if (it.bytes) payload(it.kind, it.bytes);
    else put(it.kind, it.number);
  };
  tell(value);
  const all = new Uint8Array(at);
  let to = 0;
  for (const it of parts) {
    all.set(it, to);
    to += it.length;
  }
  return { payload: all, tokens: BigUint64Array.from(tokens) };
};

// The shorter first, those of one length by their bytes.
const compared = (a, b) => {
  if (a.length !== b.length) return a.length - b.length;
  const i = a.findIndex((it, n) => it !== b[n]);
  return i < 0 ? 0 : a[i] - b[i];
};

class Reader {
  constructor(text) {
    this.text = text;
    this.at = 0;
  }

  fail(reason) {
    const line = this.text.slice(0, this.at).split('\n').length;
    throw new Error(`Line ${line}: ${reason}`);
  }

  match(pattern) {
    pattern.lastIndex = this.at;
    const found = pattern.exec(this.text);
    if (found) this.at = pattern.lastIndex;
    return found && found[0];
  }

  space() {
    this.match(SPACE);
  }

  take(sign) {
    this.space();
    const isThere = this.text[this.at] === sign;
    if (isThere) this.at += 1;
    return isThere;
  }

  whole() {
    const value = this.value(0);
    this.space();
    if (this.at < this.text.length) this.fail('something follows the value');
    return value;
  }

  value(depth) {
    if (depth > DEPTH) this.fail('lists and maps are nested too deep');
    this.space();
    for (const [word, kind, number] of [['null', NULL, 0], ['true', BOOL, 1], ['false', BOOL, 0]]) {
      if (this.text.startsWith(word, this.at)) {
        this.at += word.length;
        return { kind, number };
      }
    }
    if (this.take('[')) return this.list(depth + 1);
    if (this.take('{')) return this.map(depth + 1);
    if (this.text[this.at] === '"') return { kind: TEXT, bytes: this.string() };
    return this.number();
  }

  number() {
    const from = this.at;
    const digits = this.match(NUMBER);
    if (!digits) this.fail('a value is missing here');
    if (/[.eE]/.test(digits)) {
      this.at = from;
      this.fail('floats have no place in these blocks: write an integer');
    }
    const number = BigInt(digits);
    const most = 1n << 64n;
    if (number >= most || number < -most) this.fail('an integer goes from -2^64 to 2^64 - 1');
    return number < 0n ? { kind: NEGATIVE, number: -1n - number } : { kind: INTEGER, number };
  }

  string() {
    const quoted = this.match(STRING);
    if (!quoted) this.fail('a text in quotes is missing here');
    const text = JSON.parse(quoted);
    if (/\p{Surrogate}/u.test(text)) this.fail('half a surrogate pair is not text');
    return encoder.encode(text);
  }

  list(depth) {
    const items = [];
    if (this.take(']')) return { kind: LIST, items };
    do items.push(this.value(depth));
    while (this.take(','));
    if (!this.take(']')) this.fail('a list ends with ]');
    return { kind: LIST, items };
  }

  map(depth) {
    const entries = [];
    if (this.take('}')) return { kind: MAP, entries };
    do {
      this.space();
      const key = this.string();
      if (!this.take(':')) this.fail('a key is followed by :');
      entries.push({ key, value: this.value(depth) });
    } while (this.take(','));
    if (!this.take('}')) this.fail('a map ends with }');
    if (entries.some(({ key }) => compared(key, SLASH) === 0)) return this.reserved(entries);
    entries.sort((a, b) => compared(a.key, b.key));
    if (entries.some((it, n) => n && compared(entries[n - 1].key, it.key) === 0)) {
      this.fail('a key comes twice');
    }
    return { kind: MAP, entries };
  }

  // {"/": "CID"} and {"/": {"bytes": "base64"}}
  reserved([{ value }, other]) {
    const decoder = new TextDecoder();
    if (other) this.fail('the key "/" is kept for links and byte strings');
    if (value.kind === TEXT) {
      const bytes = cidFrom(decoder.decode(value.bytes));
      if (typeof bytes === 'number') this.fail(`not the text of a CID: ${textFaultOf(bytes)}`);
      return { kind: LINK, bytes };
    }
    const [held, more] = value.kind === MAP ? value.entries : [];
    const isBytes = held && !more && decoder.decode(held.key) === 'bytes';
    if (isBytes && held.value.kind === TEXT) {
      const text = decoder.decode(held.value.bytes);
      const bytes = /[-_=]/.test(text) ? null : fromBase64(text); // not as pasted ones may be
      if (!bytes) this.fail('no base64 without padding');
      return { kind: BYTES, bytes };
    }
    return this.fail('the key "/" alone is kept for links and byte strings');
  }
}
