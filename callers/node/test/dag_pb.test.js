// The package in place of `@ipld/dag-pb`.
'use strict';
const assert = require('node:assert');
const { test } = require('node:test');
const { CID, DagCborError } = require('dagcbor');
const dagPb = require('dagcbor/dag-pb');
const { CID: Foreign } = require('./multiformats.js');
const { vectorsOf } = require('./vectors.js');

const { createLink, createNode, decode, encode, links, prepare, validate } = dagPb;
const hex = (bytes) => Buffer.from(bytes).toString('hex');
const bytesOf = (text) => Uint8Array.from(Buffer.from(text, 'hex'));
const refuses = (call, kind, place) => {
  assert.throws(call, (error) => {
    assert.deepStrictEqual(error.place, place);
    return error instanceof DagCborError && error.kind === kind;
  });
};
const cid = CID.decode(bytesOf('0155000161'));

test('the vectors', () => {
  for (const it of vectorsOf('dag-pb')) {
    const block = new Uint8Array(it.bytes);
    if (it.verdict === 'ok') assert.deepStrictEqual(links(block).map(String), it.links);
    else refuses(() => links(block), it.variant, it.at);
    if (it.verdict !== 'ok') refuses(() => decode(block), it.variant, it.at);
    else if (it.open === 'names') refuses(() => decode(block), 'NameNotText', 0);
    else {
      const node = decode(block);
      assert.strictEqual(node.Data && hex(node.Data), it.data);
      const told = node.Links.map(({ Hash, Name, Tsize }) => [String(Hash), Name, Tsize && BigInt(Tsize)]);
      const wanted = it.node.map(({ hash, name, tsize }) =>
        [hash, name === undefined ? name : Buffer.from(name, 'hex').toString(), tsize && BigInt(tsize)]);
      if (it.node.every(({ tsize }) => tsize === undefined || Number.isSafeInteger(tsize))) {
        assert.deepStrictEqual(told, wanted);
      }
      const again = encode(prepare(node));
      // A block with its data first, as old encoders put it, is read, and written with it last.
      const isOld = block[0] === 0x0a && it.links.length > 0;
      if (it.open === undefined && !isOld) assert.strictEqual(hex(again), hex(block));
      assert.strictEqual(hex(encode(prepare(decode(again)))), hex(again));
    }
  }
});

test('the codec', () => {
  assert.deepStrictEqual([dagPb.name, dagPb.code], ['dag-pb', 0x70]);
  assert.strictEqual(hex(encode({ Links: [] })), '');
  assert.deepStrictEqual(decode(new Uint8Array()), { Links: [] });
  assert.deepStrictEqual(decode(new ArrayBuffer()), { Links: [] });
  assert.strictEqual(hex(encode(prepare('hi'))), '0a026869');
  assert.strictEqual(hex(encode(createNode(Uint8Array.of(1)))), '0a0101');
  assert.strictEqual(hex(encode({ Data: undefined, Links: [{ Hash: cid, Name: undefined }] })),
    '12070a050155000161');
});

test('what links are', () => {
  const link = createLink('a', 5, cid);
  assert.deepStrictEqual(Object.keys(link), ['Hash', 'Name', 'Tsize']);
  const node = createNode(undefined, [createLink('b', 1, cid), link, cid, { Hash: String(cid) }]);
  assert.deepStrictEqual(node.Links.map((it) => it.Name), [undefined, undefined, 'a', 'b']);
  assert.ok(decode(encode(node)).Links.every((it) => it.Hash.equals(cid)));
  const foreign = Foreign.decode ? Foreign.decode(cid.bytes) : cid;
  assert.strictEqual(hex(encode({ Links: [{ Hash: foreign }] })), '12070a050155000161');
  // U+FF61 has three bytes, and U+10000 four, of which the first is greater; as units it is less.
  const names = ['\u{10000}', '\uff61'].map((it) => createLink(it, 0, cid));
  assert.deepStrictEqual(prepare({ Links: names }).Links.map((it) => it.Name), ['\uff61', '\u{10000}']);
  assert.doesNotThrow(() => encode(prepare({ Links: names })));
});

test('what is refused', () => {
  refuses(() => encode({ Links: [createLink('b', 1, cid), createLink('a', 1, cid)] }), 'UnsortedLinks');
  for (const it of [{}, { Links: {} }, { Links: [], More: 1 }, { Links: [{}] }, { Links: [cid] }, []]) {
    refuses(() => encode(it), 'NotANode');
    refuses(() => validate(it), 'NotANode');
  }
  refuses(() => encode({ Links: [{ Hash: cid, Tsize: -1 }] }), 'NotANode');
  refuses(() => encode({ Links: [{ Hash: cid, Name: 1 }] }), 'NotANode');
  refuses(() => decode(bytesOf('0a')), 'Truncated', 1);
  refuses(() => decode(bytesOf('1a00')), 'UnexpectedField', 0);
  for (const it of [null, 1, [], { Links: 1 }, { Data: 1 }, { Links: [1] }, { Links: [{}] }]) {
    assert.throws(() => prepare(it), TypeError);
  }
});
