// What other engines have in place of what Node has of its own (callers/node/platform.js).
import { lengthOf, view } from './bytes.js';

const [fromUtf8, fromPlain] = ['utf-8', 'latin1'].map((it) =>
  new TextDecoder(it, { ignoreBOM: true }));

// Nothing holds others back from transferring memory: so no two blocks share any.
export const newPool = () => new Uint8Array();
export const unfilled = (size) => new Uint8Array(size);

// Files are Node's.
const noFiles = async () => { throw new Error('files are opened by the package for Node alone'); };
export const openFile = noFiles;
export const readAt = noFiles;
export const writeAt = noFiles;
export const readAll = async function* () { yield noFiles(); };

const sizeOf = (of) => Object.getOwnPropertyDescriptor(of.prototype, 'size').get;
const takes = (call) => (value) => {
  try {
    call.call(value);
    return true;
  } catch (error) {
    return false;
  }
};

export const isMap = takes(sizeOf(Map));

// True if an object has more inside than properties, whatever class it says that it has. A clone
// tells by its class, and, if it has no properties, sooner than calls that throw.
const values = [Date, Number, String, Boolean, BigInt, Symbol].map((it) => it.prototype.valueOf);
const INSIDES = [sizeOf(Map), sizeOf(Set), ...values].map(takes);
const tagOf = (value) => Object.prototype.toString.call(value);
export const hasInside = (value) => {
  if (Object.keys(value).length > 0) return INSIDES.some((it) => it(value));
  try {
    return tagOf(structuredClone(value)) !== '[object Object]';
  } catch (error) {
    return false; // as of a Proxy
  }
};

// No script can tell a Proxy here. What says that it is of no class, has no such object's inside, and
// yet inherits from one, is taken for one.
const CLASSES = [
  Boolean, Date, Error, Map, Number, RegExp, Set, String, Object.getPrototypeOf(Uint8Array),
];
export const isProxy = (value) =>
  tagOf(value) === '[object Object]' && CLASSES.some((it) => value instanceof it) && !isMap(value);

// A text with one unit for each byte.
const MOST = 4096; // arguments
export const latin1 = (bytes, from = 0, to = lengthOf.call(bytes)) => {
  let text = '';
  for (let at = from; at < to; at += MOST) {
    text += String.fromCharCode.apply(null, view(bytes, at, Math.min(at + MOST, to)));
  }
  return text;
};

// A text of ASCII; of other bytes each is some unit.
export const plain = (bytes, from, to) => fromPlain.decode(view(bytes, from, to));

// The text of UTF-8.
export const utf8 = (bytes, from, to) => fromUtf8.decode(view(bytes, from, to));
