// Where paths lead, over the table of a walk that was written apart, and over links from block to block.
'use strict';
const assert = require('node:assert');
const { createHash } = require('node:crypto');
const { readFileSync } = require('node:fs');
const { join } = require('node:path');
const { test } = require('node:test');
const { CID, CarReader, CarWriter, decode, encode, find, name, resolve } = require('..');

const table = readFileSync(join(__dirname, '../../tables/paths.txt'), 'ascii');
const bytesOf = (hex) => Buffer.from(hex === '-' ? '' : hex, 'hex');

test('the table', () => {
  const rows = table.trim().split('\n').map((it) => it.split(' '));
  for (const [hex, of, kind, begin, end, passed] of rows) {
    const [block, path] = [bytesOf(hex), bytesOf(of)];
    if (kind === '-37') continue; // no text
    const ask = () => find(block, path.toString());
    if (Number(kind) < 0) assert.throws(ask, { name: 'DagCborError' });
    else if (Number(passed) < path.length) assert.strictEqual(ask(), undefined);
    else assert.deepStrictEqual(Buffer.from(encode(ask())), block.subarray(begin, end));
  }
  assert.ok(rows.length > 1000);
});

test('the table of segments', () => {
  const text = readFileSync(join(__dirname, '../../tables/segments.txt'), 'ascii');
  const rows = text.trim().split('\n').map((it) => it.split(' '));
  for (const [hex, of, kind, begin, end] of rows) {
    const [block, path] = [bytesOf(hex), of.split('/').filter(Boolean).map((it) => bytesOf(it).toString())];
    if (kind === '-37') continue; // no text
    const ask = () => find(block, path);
    if (kind === '-36') assert.strictEqual(ask(), undefined);
    else if (Number(kind) < 0) assert.throws(ask, { name: 'DagCborError' });
    else assert.deepStrictEqual(Buffer.from(encode(ask())), block.subarray(begin, end));
  }
  assert.ok(rows.length > 1000);
});

const leaf = { b: 'hi', list: [1, [2, null]] };
const raw = Buffer.from('raw bytes');
const sha256 = (bytes) => Buffer.concat([Buffer.of(0x12, 32), createHash('sha256').update(bytes).digest()]);
const of = (data) => name(encode(data));
const middle = { leaf: of(leaf), none: of('none is held'), raw: CID.create(1, 0x55, { bytes: sha256(raw) }) };
const root = { links: [of(middle), of(leaf)], a: { b: true } };
const held = new Map([leaf, middle, root].map((it) => [of(it).toString(), encode(it)]));
held.set(middle.raw.toString(), raw);
const get = (cid) => held.get(cid.toString());

test('paths over links', async () => {
  const rows = [
    ['', root], ['a/b', true], ['/a//b/', true], ['a/b/c', undefined], ['links/0', of(middle)],
    ['links/0/', of(middle)], ['links/0/leaf/b', 'hi'], ['links/0/leaf/list/1/0', 2],
    ['links/0/leaf/list/1/1', null], ['links/0/leaf/list/01', undefined], ['links/1/b', 'hi'],
    ['links/2', undefined], ['links/1/lost', undefined], ['links/0/raw', middle.raw],
    ['x'.repeat(1e6), undefined], [`links/${'9'.repeat(5000)}`, undefined],
  ];
  for (const [path, wanted] of rows) {
    assert.deepStrictEqual(await resolve(get, of(root), path), wanted, path.slice(0, 40));
    assert.deepStrictEqual(await resolve({ get: async (it) => get(it) }, of(root), path), wanted);
  }
});

test('segments over links, of which each is taken whole', async () => {
  const inner = { '': { '/': 'found' }, 'c/d': [of(leaf)] };
  const outer = { 'a/b': [of(inner)], '': of(leaf) };
  const blocks = (cid) => [inner, outer, leaf].find((it) => of(it).equals(cid));
  const ask = (path) => resolve((cid) => encode(blocks(cid)), of(outer), path);
  const rows = [
    [[], outer], [['a/b'], [of(inner)]], [['a/b', '0'], of(inner)], [['a/b', '0', ''], { '/': 'found' }],
    [['a/b', '0', '', '/'], 'found'], [['a/b', '0', 'c/d', '0', 'list', '1', '0'], 2], [['', 'b'], 'hi'],
    [['a/b', '0', '/'], undefined], [['a', 'b'], undefined], [['', 'b', ''], undefined],
    [['a/b', '', '0'], undefined], [['a/b/0'], undefined], [Array(5000).fill(''), undefined],
  ];
  for (const [path, wanted] of rows) assert.deepStrictEqual(await ask(path), wanted, path.slice(0, 9).join());
  for (const path of [['links', '0', 'none', ''], ['links', '0', 'none', 'x']]) {
    await assert.rejects(resolve(get, of(root), path), { kind: 'MissingBlock' });
  }
  await assert.rejects(resolve(() => encode(1), of(root), ['a']), { kind: 'OtherBytes' });
  assert.throws(() => find(encode(1), ['\ud800']), { kind: 'RequireUtf8' });
  assert.throws(() => find(encode(1), [0]), TypeError);
  assert.throws(() => find(encode([1]), Array(1)), TypeError);
  assert.throws(() => find(Buffer.of(0x18, 0x17), []), { kind: 'NonMinimal', place: 1 });
  assert.throws(() => find(Buffer.of(0x18, 0x17), ['a']), { kind: 'NonMinimal', place: 1 });
});

test('what is not the block of its name', async () => {
  const refused = (blocks, cid, path, kind) => assert.rejects(resolve(blocks, cid, path), { kind });
  await refused(get, of(root), 'links/0/none/x', 'MissingBlock');
  await refused(() => null, of(root), '', 'MissingBlock');
  await refused(get, of(root), 'links/0/raw/x', 'NotRead');
  await refused(() => encode(1), of(root), 'a', 'OtherBytes');
  const other = CID.create(1, 0x71, { bytes: Buffer.concat([Buffer.of(0x1b, 32), Buffer.alloc(32)]) });
  await refused(() => encode(1), other, '', 'NotVerified');
  const long = Buffer.of(0x18, 0x17);
  const named = CID.create(1, 0x71, { bytes: sha256(long) });
  await assert.rejects(resolve(() => long, named, ''), { kind: 'NonMinimal', place: 1 });
  assert.throws(() => find(encode(1), '\ud800'), { kind: 'RequireUtf8' });
  assert.throws(() => find(encode(1), 0), TypeError);
  for (const it of ['a text', {}, { bytes: 'a text' }, null]) await assert.rejects(resolve(get, it, ''), TypeError);
  await assert.rejects(resolve(get, { bytes: Uint8Array.of(1) }, ''), { kind: 'InvalidCid' });
  // As the types have it: of a package whose CIDs say no more.
  assert.strictEqual(await resolve(get, { bytes: of(leaf).bytes }, 'b'), 'hi');
  await assert.rejects(resolve(undefined, of(root), ''), TypeError);
});

test('a block in its name, and a block that is a link', async () => {
  const block = encode({ kept: [1] });
  const cid = CID.create(1, 0x71, { bytes: Buffer.concat([Buffer.of(0, block.length), block]) });
  assert.strictEqual(await resolve(() => assert.fail(), cid, 'kept/0'), 1);
  const link = encode(of(leaf));
  assert.strictEqual(await resolve((it) => get(it) ?? link, name(link), 'b'), 'hi');
});

test('over a file', async () => {
  const { writer, out } = CarWriter.create([of(root)]);
  const parts = [];
  const all = (async () => { for await (const part of out) parts.push(part); })();
  for (const it of [root, middle, leaf]) await writer.put({ cid: of(it), bytes: encode(it) });
  await writer.close();
  await all;
  const file = await CarReader.fromBytes(Buffer.concat(parts));
  assert.strictEqual(await resolve(file, of(root), 'links/0/leaf/b'), 'hi');
  await assert.rejects(resolve(file, of(root), 'links/0/none/x'), { kind: 'MissingBlock' });
  assert.deepStrictEqual(decode(encode(root)), await resolve(file, (await file.getRoots())[0], ''));
});
