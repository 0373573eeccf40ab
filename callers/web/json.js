// DAG-JSON of a block, from its tokens. Keys come in the block's order, integers whole.

import { NULL, BOOL, INTEGER, TEXT, BYTES, LIST, MAP, LINK, NEGATIVE } from './kinds.js';
import { cidText } from './cid.js';
import { fromUtf8, jsonText, toBase64 } from './text.js';

const valueText = (bytes, shape, i) => {
  const [number, place] = [shape.number[i], shape.place[i]];
  const payload = () => bytes.subarray(place, place + Number(number));
  switch (shape.kind[i]) {
    case NULL: return 'null';
    case BOOL: return number ? 'true' : 'false';
    case INTEGER: return String(number);
    case NEGATIVE: return String(-1n - number);
    case TEXT: return jsonText(fromUtf8(payload()));
    case BYTES: return `{"/":{"bytes":"${toBase64(payload()).replace(/=+$/, '')}"}}`;
    case LINK: return `{"/":"${cidText(payload())}"}`;
    default: return '';
  }
};

// The text, cut if it is longer than `most`. `isReserved` if a map has the key "/", which DAG-JSON
// keeps for links and byte strings.
export const writeJson = (bytes, shape, indent, most = Infinity) => {
  const parts = [];
  const open = []; // the lists and maps around
  let [length, isReserved] = [0, false];
  const put = (text) => {
    parts.push(text);
    length += text.length;
  };
  const line = () => indent && put(`\n${'  '.repeat(open.length)}`);
  const close = (i) => {
    while (open.length && shape.end[open[open.length - 1]] === i) {
      const holder = open.pop();
      line();
      put(shape.kind[holder] === MAP ? '}' : ']');
    }
  };
  for (let i = 0; i < shape.count && length < most; i += 1) {
    const kind = shape.kind[i];
    const isAfterKey = i > 0 && shape.isKey[i - 1] && shape.parent[i] === shape.parent[i - 1];
    if (isAfterKey) put(indent ? ': ' : ':');
    else if (open.length) {
      if (shape.order[i] > 0) put(',');
      line();
    }
    if (kind === LIST || kind === MAP) {
      put(kind === MAP ? '{' : '[');
      if (shape.end[i] === i + 1) put(kind === MAP ? '}' : ']');
      else open.push(i);
    } else {
      const text = valueText(bytes, shape, i);
      if (shape.isKey[i] && text === '"/"') isReserved = true;
      put(text);
    }
    close(i + 1);
  }
  const isWhole = length < most || !open.length;
  return { text: isWhole ? parts.join('') : parts.join('').slice(0, most), isWhole, isReserved };
};
