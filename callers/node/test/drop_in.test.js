// The package in place of `@ipld/dag-cbor` and beside `multiformats` (multiformats.js, a stand-in).
'use strict';
const assert = require('node:assert');
const { inspect } = require('node:util');
const { test } = require('node:test');
const vm = require('node:vm');
const dagcbor = require('dagcbor');
const codec = require('dagcbor/codec');
const { Block, CID: Foreign, digestOf, sha256 } = require('./multiformats.js');
const { vectorsOf } = require('./vectors.js');

const { CID, CarBufferWriter, CarCIDIterator, CarIndexer, CarWriter, DagCborError } = dagcbor;
const { name, verify } = dagcbor;
const hex = (text) => Uint8Array.from(Buffer.from(text, 'hex'));
const toHex = (bytes) => Buffer.from(bytes).toString('hex');
const refuses = (call, kind, place) => {
  assert.throws(call, (error) => {
    assert.deepStrictEqual(error.place, place);
    return error instanceof DagCborError && error.kind === kind;
  });
};

// Of nothing.
const DIGEST = hex('e3b0c44298fc1c149afbf4c8996fb92427ae41e4649b934ca495991b7852b855');
const ours = () => CID.createV1(0x71, digestOf(0x12, DIGEST));
const theirs = () => Foreign.create(1, 0x71, digestOf(0x12, DIGEST));
const LINK = `d82a58250001711220${toHex(DIGEST)}`;

test('the codec', async () => {
  assert.strictEqual(codec.name, 'dag-cbor');
  assert.strictEqual(codec.code, 0x71);
  const value = { of: theirs(), list: [1, theirs(), { deep: ours() }], text: 'hi' };
  const block = await Block.encode({ value, codec, hasher: sha256 });
  assert.strictEqual(toHex(block.bytes), toHex(dagcbor.encode(value)));
  assert.ok(name(block.bytes).equals(block.cid));
  const again = await Block.decode({ bytes: block.bytes, codec, hasher: sha256 });
  const paths = [...again.links()].map(([path]) => path);
  assert.deepStrictEqual(paths.sort(), ['list/1', 'list/2/deep', 'of']);
  for (const [, cid] of again.links()) assert.ok(cid instanceof Foreign && cid.equals(theirs()));
  assert.deepStrictEqual(codec.decode(block.bytes.slice().buffer), again.value);
  assert.throws(() => codec.decode('f6'), TypeError);
  assert.strictEqual(codec.encode({ b: 1, a: 2 }).constructor, Uint8Array);
});

test('CIDs of others', () => {
  assert.strictEqual(toHex(dagcbor.encode(theirs())), LINK);
  const cloned = { ...structuredClone({ ...theirs() }) }; // as a worker gets one
  assert.strictEqual(toHex(dagcbor.encode([cloned])), `81${LINK}`);
  const older = { code: 0x71, version: 1, bytes: theirs().bytes, multihash: theirs().multihash };
  Object.setPrototypeOf(older, { get asCID() { return this; } });
  for (const cid of [theirs(), cloned, older, ours()]) {
    const own = CID.asCID(cid);
    assert.ok(own instanceof CID && own.equals(cid) && own.equals(ours()) && ours().equals(own));
    assert.ok(dagcbor.decode(dagcbor.encode({ cid })).cid.equals(ours()));
  }
  const text = { '/': 'x', bytes: 'x' };
  assert.deepStrictEqual(dagcbor.decode(dagcbor.encode(text)), text);
  assert.deepStrictEqual(dagcbor.decode(dagcbor.encode({ '/': 1 })), { '/': 1 });
  const none = [undefined, null, 1, 'x', [], {}, text, { '/': 1, bytes: 1 }, new Uint8Array(36)];
  for (const it of none) {
    assert.strictEqual(CID.asCID(it), null);
    assert.ok(!ours().equals(it));
  }
  const bad = new Foreign(1, 0x71, digestOf(0x12, DIGEST), hex('01711220'));
  assert.strictEqual(CID.asCID(bad), null);
  for (const call of [dagcbor.encode, codec.encode]) assert.throws(() => call([bad]), DagCborError);
  const shared = new Foreign(1, 0x71, null, new Uint8Array(new SharedArrayBuffer(36)));
  refuses(() => dagcbor.encode({ a: shared }), 'Unsupported', ['a']);
});

test('a CID as multiformats has it', () => {
  const [cid, foreign] = [ours(), theirs()];
  for (const key of ['version', 'code', 'bytes', '/']) {
    assert.deepStrictEqual(cid[key], foreign[key]);
  }
  assert.deepStrictEqual({ ...cid.multihash }, { ...foreign.multihash });
  assert.strictEqual(cid['/'], cid.bytes);
  assert.strictEqual(cid.asCID, cid);
  assert.strictEqual(cid.link(), cid);
  assert.strictEqual(cid.byteLength, 36);
  assert.ok(Foreign.asCID(cid).equals(foreign) && foreign.equals(cid) && cid.equals(foreign));
  assert.strictEqual(Object.prototype.toString.call(cid), '[object CID]');
  assert.strictEqual(inspect(cid), `CID(${cid})`);
  assert.throws(() => assert.deepStrictEqual(cid, name(Buffer.of(1))));
  assert.deepStrictEqual(cid, CID.parse(String(cid)));
  assert.deepStrictEqual(CID.decode(cid.bytes), cid);
  cid.multihash.digest.fill(0);
  cid.bytes.fill(0);
  assert.ok(cid.equals(ours()) && toHex(dagcbor.encode(cid)) === LINK);
  for (const call of [CID.parse, CID.decode]) assert.throws(() => call(1), TypeError);
  assert.throws(() => CID.parse(cid.bytes), TypeError);
  assert.throws(() => CID.decode(String(cid)), TypeError);
});

test('versions and bases', () => {
  const text = 'QmdfTbBqBPQ7VNxZEYEj14VmRuZBkqFbiwReogJgS1zR1n'; // of nothing, as sha2-256
  const cid = CID.parse(text);
  assert.deepStrictEqual([cid.version, cid.code, cid.multihash.size], [0, 0x70, 32]);
  assert.deepStrictEqual(cid, CID.createV0(digestOf(0x12, DIGEST)));
  assert.deepStrictEqual(cid.toV1(), CID.create(1, 0x70, digestOf(0x12, DIGEST)));
  assert.deepStrictEqual(cid.toV1().toV0(), cid);
  assert.strictEqual(String(cid), text);
  assert.strictEqual(ours().multihash.size, 32);
  assert.throws(() => CID.create(0, 0x55, digestOf(0x12, DIGEST)), { kind: 'InvalidCid' });
  const base16 = { name: 'base16', prefix: 'f', encode: (bytes) => `f${toHex(bytes)}` };
  assert.strictEqual(ours().toString(base16), `f01711220${toHex(DIGEST)}`);
  assert.throws(() => cid.toString(base16), TypeError);
  const base58btc = { name: 'base58btc', prefix: 'z', encode: () => `z${text}` };
  assert.strictEqual(cid.toString(base58btc), text);
  const wide = CID.createV1(0x0129, digestOf(0xb220, DIGEST)); // dag-json, blake2b-256
  const { code, multihash } = wide;
  assert.deepStrictEqual([code, multihash.code, multihash.size], [0x0129, 0xb220, 32]);
  assert.strictEqual(toHex(wide.bytes), `01a902a0e40220${toHex(DIGEST)}`);
});

test('CIDs at the front of bytes', () => {
  const cases = [
    ['1220', { version: 0, codec: 0x70, multihashCode: 0x12, digestSize: 32, multihashSize: 34, size: 34 }],
    ['01711220', { version: 1, codec: 0x71, multihashCode: 0x12, digestSize: 32, multihashSize: 34, size: 36 }],
    ['01a902a0e40220', { version: 1, codec: 0x129, multihashCode: 0xb220, digestSize: 32, multihashSize: 36, size: 39 }],
    ['01550000', { version: 1, codec: 0x55, multihashCode: 0, digestSize: 0, multihashSize: 2, size: 4 }],
  ];
  for (const [front, wanted] of cases) {
    const digest = DIGEST.subarray(0, wanted.digestSize);
    const whole = hex(`${front}${toHex(digest)}`);
    for (const it of [hex(front), whole, hex(`${toHex(whole)}ff`)]) assert.deepStrictEqual(CID.inspectBytes(it), wanted);
    const behind = Buffer.concat([whole, hex('d82a')]);
    const [cid, rest] = CID.decodeFirst(behind.subarray(0));
    assert.ok(cid.equals(CID.decode(whole)) && rest.buffer === behind.buffer);
    assert.strictEqual(toHex(rest), 'd82a');
    assert.strictEqual(CID.decodeFirst(whole)[1].length, 0);
    const { version, code, multihash } = cid;
    assert.deepStrictEqual([version, code, multihash.code, multihash.size], [...Object.values(wanted).slice(0, 4)]);
    assert.deepStrictEqual(CID.create(version, code, multihash), cid);
    if (digest.length) refuses(() => CID.decodeFirst(whole.subarray(0, -1)), 'InvalidCid', undefined);
  }
  const none = ['', '01', '0171', '017112', '12', '1221', '0271122000', '01711241', '01f1001220', 'ff'.repeat(99)];
  for (const it of [...none, '0171ffffffffffffffffff7f1220', '80'.repeat(1000)]) {
    refuses(() => CID.inspectBytes(hex(it)), 'InvalidCid', undefined);
    refuses(() => CID.decodeFirst(hex(it)), 'InvalidCid', undefined);
  }
  for (const it of [undefined, 'f01711220', [1, 0x71]]) {
    for (const call of [CID.inspectBytes, CID.decodeFirst]) assert.throws(() => call(it), TypeError);
  }
});

test('CIDs are made of what they have, and compared', () => {
  for (const it of [undefined, {}, { bytes: 'x' }, { bytes: [0x12] }]) {
    assert.throws(() => CID.createV1(0x71, it), TypeError);
  }
  for (const it of ['113', undefined, NaN, -1, 1.5, 2 ** 53]) {
    assert.throws(() => CID.createV1(it, digestOf(0x12, DIGEST)), TypeError);
  }
  for (const [version, code] of [[0, 0x71], [2, 0x71]]) {
    refuses(() => CID.create(version, code, digestOf(0x12, DIGEST)), 'InvalidCid', undefined);
  }
  refuses(() => CID.createV0(digestOf(0x13, DIGEST)), 'InvalidCid', undefined);
  assert.ok(CID.equals(ours(), theirs()) && CID.equals(theirs(), ours()) && !CID.equals(ours(), name(Buffer.of(1))));
  for (const it of [undefined, null, 1, {}]) assert.ok(!CID.equals(it, ours()) && !CID.equals(ours(), it));
  const decoder = { decode: (text) => hex(text.slice(1)) }; // of base16, say
  assert.deepStrictEqual(CID.parse(`x01711220${toHex(DIGEST)}`, decoder), ours());
  refuses(() => CID.parse(`x1220${toHex(DIGEST)}`, decoder), 'InvalidVersion', undefined);
  refuses(() => CID.parse('x0171', decoder), 'InvalidCid', undefined);
  const first = 'QmdfTbBqBPQ7VNxZEYEj14VmRuZBkqFbiwReogJgS1zR1n';
  assert.deepStrictEqual(CID.parse(first, decoder), CID.parse(first));
});

test('Maps, and objects of other classes', () => {
  class Note {
    #secret = 1;
    text = 'hi';
    get length() { return this.#secret; }
  }
  assert.strictEqual(toHex(dagcbor.encode(new Note())), 'a16474657874626869');
  const map = new Map([['b', 1], ['a', new Map()], ['__proto__', 2]]);
  const proto = toHex(Buffer.from('__proto__'));
  assert.strictEqual(toHex(dagcbor.encode(map)), `a36161a061620169${proto}02`);
  refuses(() => dagcbor.encode({ a: new Map([[1, 2]]) }), 'Mismatch', ['a']);
  const ofRealm = vm.runInNewContext('new Map([["a", new Uint8Array(1)]])');
  assert.strictEqual(toHex(dagcbor.encode(ofRealm)), 'a161614100');
  refuses(() => dagcbor.encode(Object.create(CID.prototype)), 'Unsupported', []);
  refuses(() => dagcbor.encode(Object.create(Map.prototype)), 'Unsupported', []);
});

test('one item and what is behind it', () => {
  const bytes = hex('83010203' + '6161' + 'a0');
  const [list, rest] = dagcbor.decodeFirst(bytes);
  assert.deepStrictEqual(list, [1, 2, 3]);
  const [text, last] = codec.decodeFirst(rest);
  assert.deepStrictEqual([text, toHex(last)], ['a', 'a0']);
  assert.deepStrictEqual(dagcbor.decodeFirst(last), [{}, new Uint8Array()]);
  refuses(() => dagcbor.decodeFirst(hex('8301')), 'Eof', 2);
  refuses(() => dagcbor.decodeFirst(hex('1817f6')), 'NonMinimal', 1);
  refuses(() => dagcbor.decodeFirst(new Uint8Array()), 'Eof', 0);
  assert.throws(() => dagcbor.decodeFirst([1]), TypeError);
});

test('verdicts', () => {
  const block = dagcbor.encode([1]);
  const raw = CID.createV1(0x55, name(block).multihash);
  assert.strictEqual(verify(name(block), block), 'ok list');
  assert.strictEqual(verify(Foreign.create(1, 0x71, name(block).multihash), block), 'ok list');
  assert.strictEqual(verify(name(block), dagcbor.encode([2])), 'other bytes');
  assert.strictEqual(verify(raw, block), 'not read');
  assert.strictEqual(verify(name(hex('1817')), hex('1817')), 'refused NonMinimal');
  assert.strictEqual(verify(CID.createV1(0x71, digestOf(0xb220, DIGEST)), block), 'not verified');
  refuses(() => verify({ bytes: hex('01') }, block), 'InvalidCid', undefined);
  assert.throws(() => verify(name(block), 'x'), TypeError);
});

test('where the sections of files stand', async () => {
  let sections = 0;
  for (const { bytes, verdict, roots, sections: told } of vectorsOf('files')) {
    if (verdict === 'refused') continue;
    const wanted = told.map((it) => [it.cid, it.at, it.block, it.end]);
    const single = [...bytes].map((it) => Uint8Array.of(it));
    for (const opened of [CarIndexer.fromBytes(bytes), CarIndexer.fromIterable(single)]) {
      const indexer = await opened;
      assert.deepStrictEqual((await indexer.getRoots()).map(String), roots);
      const found = [];
      for await (const { cid, offset, length, blockOffset, blockLength } of indexer) {
        assert.strictEqual(blockOffset + blockLength, offset + length);
        const front = bytes.subarray(blockOffset - cid.byteLength, blockOffset);
        assert.strictEqual(toHex(front), toHex(cid.bytes));
        found.push([String(cid), offset, blockOffset, offset + length]);
        sections += 1;
      }
      assert.deepStrictEqual(found, wanted);
    }
    const cids = [];
    for await (const cid of await CarCIDIterator.fromBytes(bytes)) cids.push(String(cid));
    assert.deepStrictEqual(cids, wanted.map(([cid]) => cid));
  }
  assert.ok(sections > 10);
});

test('files with CIDs of others', async () => {
  const block = dagcbor.encode({ a: 1 });
  const cid = Foreign.create(1, 0x71, name(block).multihash);
  const { writer, out } = CarWriter.create([cid]);
  writer.put({ cid, bytes: block });
  writer.close();
  const { roots, isWell } = await dagcbor.checkCar(out);
  assert.ok(isWell && roots[0].equals(cid));
});

test('files in memory of a given size', async () => {
  const blocks = [1, 'x'.repeat(200), { a: [] }].map((it) => {
    const bytes = dagcbor.encode(it);
    return { cid: name(bytes), bytes };
  });
  const roots = blocks.slice(0, 2).map(({ cid }) => cid);
  const written = async (roots) => {
    const { writer, out } = CarWriter.create(roots);
    for (const block of blocks) writer.put(block);
    writer.close();
    const pieces = [];
    for await (const it of out) pieces.push(it);
    return toHex(Buffer.concat(pieces));
  };
  const { calculateHeaderLength, createWriter, blockLength, estimateHeaderLength, headerLength } = CarBufferWriter;
  for (const count of [0, 1, 23, 24, 300]) {
    const some = Array.from({ length: count }, (_, i) => name(Buffer.of(i)));
    assert.strictEqual(estimateHeaderLength(count), headerLength({ roots: some }));
  }
  const [long, short] = [CID.createV1(0x0129, digestOf(0xb220, DIGEST)), CID.createV1(0x55, digestOf(0, new Uint8Array()))];
  const lengths = [long, short].map((it) => it.byteLength);
  assert.strictEqual(calculateHeaderLength(lengths), headerLength({ roots: [long, short] }));
  assert.strictEqual(estimateHeaderLength(2, 4), headerLength({ roots: [short, short] }));
  const size = headerLength({ roots }) + blocks.map(blockLength).reduce((one, it) => one + it);
  const whole = createWriter(new ArrayBuffer(size), { roots });
  for (const block of blocks) whole.write(block);
  assert.throws(() => whole.write(blocks[0]), RangeError);
  assert.strictEqual(toHex(whole.close()), await written(roots));
  const late = createWriter(new ArrayBuffer(size + 3), { byteOffset: 3 });
  for (const block of blocks) late.write(block);
  for (const root of roots) {
    assert.throws(() => late.addRoot(root), RangeError);
    late.addRoot({ bytes: root.bytes }, { resize: true });
  }
  assert.throws(() => late.addRoot(roots[0], { resize: true }), RangeError);
  assert.strictEqual(toHex(late.close()), await written(roots));
  const wide = createWriter(new ArrayBuffer(size), { headerSize: headerLength({ roots }) });
  for (const block of blocks) wide.write(block);
  assert.throws(() => wide.close(), RangeError);
  assert.strictEqual(toHex(wide.close({ resize: true })), await written([]));
  const other = { cid: blocks[0].cid, bytes: blocks[1].bytes };
  refuses(() => createWriter(new ArrayBuffer(size)).write(other), 'OtherBytes', undefined);
  assert.throws(() => createWriter(new ArrayBuffer(3)), RangeError);
});
