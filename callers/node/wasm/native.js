// What the addon of callers/node answers, by the WebAssembly module.
'use strict';
const { fromLatin1, isAlone, view, whole } = require('../bytes.js');
const { latin1, utf8 } = require('../platform.js');
const { packed, walking } = require('./walk.js');

const [LINK, WIDE, UTF8, ABSENT] = [7, 11, -8, 2 ** 32 - 1];
const [CID_FRONT, TEXT_FRONT] = [100, 256]; // of what is too long the front is, likewise
const encoder = new TextEncoder();

const of = (call) => (...all) => call(...all.map(whole));

// A number of the library, or what is made of its other answers.
const told = (answer, make) => (typeof answer === 'number' ? answer : make(answer));

// The tokens of decode.js, where each text beyond ASCII is made by itself. Nothing is kept of them.
const reading = (calls) => ({
  kept: undefined,
  read: of(calls.compactTape),
  texts: (i, words, block) => {
    const from = words[3 * i + 2];
    const text = utf8(block, from, from + words[3 * i + 1]);
    words.set([WIDE, text.length, 0], 3 * i);
    return text;
  },
});

// Puts a text, or the bytes that the units of a link are, and answers how many bytes.
const putUnits = (kind, text, into) => {
  if (kind !== LINK) return isAlone(text) ? -1 : encoder.encodeInto(text, into).written;
  into.set(fromLatin1(text));
  return text.length;
};

// The tokens of encode.js. Each block has memory of its own.
const spelling = (calls) => ({
  shared: 0,
  words: undefined,
  payload: undefined,
  spell: (count, used, texts = '', into, from, first, words, payload) => {
    const front = encoder.encodeInto(texts, view(payload, used, payload.length));
    const isAscii = front.written === texts.length;
    for (let [i, at] = [6 * first, 0]; i < 6 * count; i += 6) {
      if (words[i + 4] !== ABSENT) continue;
      const text = isAscii ? '' : texts.slice(at, at + words[i + 2]);
      const length = isAscii ? words[i + 2] : putUnits(words[i], text, payload.subarray(used));
      if (length < 0) return UTF8;
      at += words[i + 2];
      [words[i + 2], words[i + 4]] = [length, used];
      used += length;
    }
    if (into === undefined) return used;
    return calls.spell(view(payload, 0, used), new BigUint64Array(words.buffer, 0, 3 * count));
  },
});

const nativeOf = (calls) => ({
  ...reading(calls),
  ...spelling(calls),
  check: of(calls.check),
  tape: of(calls.tape),
  verify: of(calls.verify),
  name: of((block) => latin1(calls.name(block))),
  place: of((bytes) => calls.tokens(bytes, 0).place),
  links: of((block) => told(calls.links(block), packed)),
  nodeLinks: of((node) => told(calls.nodeLinks(node), packed)),
  fromNode: of(calls.fromNode),
  placeInNode: of(calls.placeInNode),
  toNode: of(calls.toNode),
  follow: of((block, path) => told(calls.follow(block, path), Object.values)),
  part: of((block, segment) => told(calls.part(block, segment), Object.values)),
  cidText: (binary) => calls.cidText(fromLatin1(binary.slice(0, CID_FRONT))),
  cidFromText: (text) => told(calls.cidFromText(text.slice(0, TEXT_FRONT)), latin1),
  ...walking(calls),
});

module.exports = { nativeOf };
