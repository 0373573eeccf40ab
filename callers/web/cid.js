// CIDs: their text, by the library, and what they say about their block.

let reader; // the library, which is asked for texts alone

export const readBy = (it) => { reader = it; };

export const cidText = (bytes) => reader.cidText(bytes);

// The CID of a text, or the number of the refusal.
export const cidFrom = (text) => reader.cidFromText(text);

// How a CID begins, in hexadecimal: with 1, as the version, and one of these codecs; then comes one
// of these hash functions. Any other is shown as such: no number is read here.
const CODECS = [
  ['0155', 'raw bytes'], ['0170', 'DAG-PB'], ['0171', 'DAG-CBOR'], ['01a902', 'DAG-JSON'],
  ['0151', 'CBOR'], ['018004', 'JSON'], ['0172', 'libp2p key'], ['0178', 'Git'],
  ['018501', 'DAG-JOSE'],
];
const HASHES = [
  ['00', 'identity'], ['11', 'SHA-1'], ['12', 'SHA-256'], ['13', 'SHA-512'],
  ['16', 'SHA3-256'], ['1b', 'Keccak-256'], ['1e', 'BLAKE3'], ['a0e402', 'BLAKE2b-256'],
];

// A key for maps and sets: a character for each byte, and each byte has its own. If CIDs stand one
// after the other, their keys are the slices.
const keys = new TextDecoder('latin1');
const EACH = Uint8Array.from({ length: 256 }, (_, it) => it);
const BYTES_OF = new Map(Array.from(keys.decode(EACH), (it, byte) => [it, byte]));

export const cidKey = (bytes) => keys.decode(bytes);

export const cidOfKey = (key) => Uint8Array.from(key, (it) => BYTES_OF.get(it));

const hexOf = (bytes) => Array.from(bytes, (it) => it.toString(16).padStart(2, '0')).join('');

// The codec and the hash function in words.
export const cidParts = (bytes) => {
  const front = hexOf(bytes.subarray(0, 12));
  if (front.startsWith('1220')) return { version: 0, codec: 'DAG-PB', hash: 'SHA-256' };
  const begins = ([prefix]) => front.startsWith(prefix);
  const [prefix, codec] = CODECS.find(begins) ?? ['', 'another codec'];
  if (!prefix) return { version: 1, codec, hash: 'a hash function after it' };
  const rest = front.slice(prefix.length);
  const [, hash] = HASHES.find(([it]) => rest.startsWith(it)) ?? ['', 'another hash function'];
  return { version: 1, codec, hash };
};
