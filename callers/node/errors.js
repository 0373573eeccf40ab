// What is said about bytes, by the numbers of the library.
'use strict';

const KINDS = ['null', 'bool', 'integer', 'string', 'bytes', 'list', 'map', 'link'];

const REASONS = {
  9: ['NotRead', 'the block is of another codec than DAG-CBOR'],
  [-1]: ['Msg', 'no CID'],
  [-3]: ['Eof', 'the bytes end too early'],
  [-4]: ['Mismatch', 'a key that is not a text, or another tag than that of a link'],
  [-5]: [
    'Unsupported',
    'a float or another simple value, a link without a byte string, or a reserved width',
  ],
  [-8]: ['RequireUtf8', 'a text that is not UTF-8'],
  [-10]: ['CastOverflow', 'an integer that is not in -2^64 .. 2^64 - 1'],
  [-12]: ['DepthOverflow', 'lists and maps are nested too deep'],
  [-14]: ['TrailingData', 'bytes after the item'],
  [-15]: ['IndefiniteSize', 'an indefinite length or a break'],
  [-16]: ['NonMinimal', 'a number or a length in more bytes than it needs'],
  [-17]: ['UnorderedKey', 'a key that does not come after the one before it'],
  [-21]: ['TooLong', 'a block of 4 GiB or more is not decoded'],
  [-22]: ['OtherBytes', 'the bytes are not those that the CID names'],
  [-23]: ['NotVerified', 'the CID is by another hash function than SHA-256 and the identity'],
  [-24]: ['Truncated', 'the file is cut short'],
  [-25]: ['InvalidLength', 'a length is not in shortest form or too large'],
  [-26]: ['InvalidCid', 'the bytes are no CID'],
  [-27]: ['OtherHeader', 'the header is not that of version 1'],
  [-28]: ['UnknownBase', 'the first character of the text names no base that is read here'],
  [-29]: ['TooLong', 'the text is longer than that of any CID'],
  [-30]: ['InvalidCharacter', 'a character is not in the alphabet of the base'],
  [-31]: ['InvalidLength', 'the last character begins a byte and does not end it'],
  [-32]: ['TrailingBits', 'bits that are not zero stand after the last byte'],
  [-33]: ['LeadingZero', 'the text begins with a zero byte, as no CID does'],
  [-34]: ['InvalidVersion', 'version 0 has no prefix, and version 1 has one'],
  [-35]: ['InvalidOffset', 'the offsets of version 2 are invalid'],
  [-53]: ['Truncated', 'a field of the node is cut short'],
  [-54]: ['InvalidVarint', 'a number of the node is too large'],
  [-55]: ['UnexpectedField', 'a field of the node cannot be there'],
  [-56]: ['NoHash', 'a link of the node has no CID'],
  [-57]: ['InvalidCid', 'a link of the node has other bytes than a CID'],
  [-58]: ['NameNotText', 'the name of a link is not UTF-8'],
  [-59]: ['NotANode', 'the data is not that of a DAG-PB node'],
  [-60]: ['UnsortedLinks', 'the links are not sorted by their names'],
  [-37]: ['RequireUtf8', 'a path with a surrogate that has no other'],
};

class DagCborError extends Error {
  constructor(kind, message, place) {
    super(message);
    this.kind = kind;
    this.place = place;
  }
}
DagCborError.prototype.name = 'DagCborError';

const refusal = (code, place) => {
  const [kind, reason] = REASONS[code] ?? [undefined, `refused: ${code}`];
  return new DagCborError(kind, reason, place);
};

// An answer of the library, unless it is the number of a refusal.
const answered = (answer, placeOf) => {
  if (typeof answer === 'number' && answer < 0) throw refusal(answer, placeOf?.());
  return answer;
};

module.exports = { DagCborError, KINDS, REASONS, answered, refusal };
