// What the library's numbers say, in words: docs/GRAMMAR.md has each cause.

import { TOO_LONG } from './kinds.js';

export const KINDS = ['null', 'boolean', 'integer', 'text', 'bytes', 'list', 'map', 'link'];

const REFUSALS = new Map([
  [-1, ['Msg', 'A link that holds no CID',
    'A link is a byte string of a zero and a binary CID, of at most 87 bytes: version 0 is 12 20 and 32 bytes; version 1 is 01, a codec, a hash code and a length in shortest form, and a digest of at most 64 bytes.']],
  [-3, ['Eof', 'The bytes end too early',
    'A block is one whole item: the argument of each head, each announced byte of a text or byte string, and each announced item of a list or entry of a map must be there.']],
  [-4, ['Mismatch', 'A key that is not a text, or a tag that is not a link',
    'The keys of a map are texts, and the only tag is 42, d8 2a, which begins a link.']],
  [-5, ['Unsupported', 'Something that no block here has',
    'The simple values are false (f4), true (f5) and null (f6). Floats are not read by this library, undefined and other simple values are in no block, a link’s tag is followed by a byte string, and additional information 28 to 30 is reserved.']],
  [-8, ['RequireUtf8', 'A text that is not UTF-8',
    'Each text, and each key, is valid UTF-8. The text whose last byte is marked is not.']],
  [-12, ['DepthOverflow', 'Lists and maps nested too deep',
    'Reading takes a step for each leaf and two for each list or map around it, of 256: 127 lists in each other around an empty one are read, and 128 are not.']],
  [-14, ['TrailingData', 'Bytes after the item',
    'A block is exactly one item, and ends where the item ends.']],
  [-15, ['IndefiniteSize', 'An indefinite length, or a break',
    'Each text, byte string, list and map says how long it is in its head. Additional information 31, the indefinite length, is not allowed, so there is nothing for a break to end.']],
  [-16, ['NonMinimal', 'A number in more bytes than it needs',
    'Each argument, of an integer or a length, is written in the shortest form: up to 23 in the first byte itself, up to 255 in one byte more, then in two, four and eight.']],
  [-17, ['UnorderedKey', 'A key out of order, or twice',
    'The keys of a map rise: the shorter first, keys of one length by their bytes; and no key comes twice.']],
]);

const SECTIONS = new Map([
  [9, ['other codec', 'The block is the one that is named. It is not DAG-CBOR, and was not judged.']],
  [-22, ['other bytes', 'The digest of the bytes is not the one that the CID names: this is not the block that it claims to be.']],
  [-23, ['not verified', 'The CID is by a hash function other than SHA-256 and identity, which is not known here. The block was not judged.']],
]);

const FAULTS = new Map([
  [-24, ['Truncated', 'The file ends inside the length of a section, or before as many bytes as the length says.']],
  [-25, ['InvalidLength', 'No length stands where a section should begin: a varint in shortest form, below 2⁶⁴.']],
  [-26, ['InvalidCid', 'No CID stands after the length of a section, or it goes on after the section.']],
  [TOO_LONG, ['too long', 'A section of more than 1 GiB is not read by this page.']],
]);

const TEXT_FAULTS = new Map([
  [-26, 'its bytes are not a CID'],
  [-28, 'it does not begin with b, B, z, f or Q'],
  [-29, 'it is longer than that of any CID'],
  [-30, 'a character is not in the alphabet of its base'],
  [-31, 'its last character begins a byte and does not end it'],
  [-32, 'bits that are not zero stand after its last byte'],
  [-33, 'it begins with a zero byte'],
  [-34, 'version 0 has no prefix, and version 1 has one'],
]);

// For a block: a name, a headline and what the standard asks.
export const refusalOf = (code) => {
  const [name, title, asks] = REFUSALS.get(code) ?? [`refused ${code}`, 'Refused', ''];
  return { name, title, asks };
};

// For a section: a word for the table, and a sentence.
export const sectionOf = (code) => {
  if (SECTIONS.has(code)) {
    const [word, asks] = SECTIONS.get(code);
    return { word, asks };
  }
  return code >= 0 ? { word: KINDS[code], asks: '' } : { word: refusalOf(code).name, asks: refusalOf(code).asks };
};

export const faultOf = (code) => {
  const [name, asks] = FAULTS.get(code) ?? [`fault ${code}`, ''];
  return { name, asks };
};

// For a text that is not one of a CID.
export const textFaultOf = (code) => TEXT_FAULTS.get(code) ?? `refused ${code}`;
