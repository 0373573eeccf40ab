// Stores, by the program `dagstore`: what is put is there, in this process and the next, and what is
// refused is told by its name. The names that are expected are made here, of Node's SHA-256 alone.
'use strict';
const assert = require('assert');
const { execFileSync, spawnSync } = require('child_process');
const { createHash } = require('crypto');
const fs = require('fs');
const { tmpdir } = require('os');
const { join } = require('path');
const { pathToFileURL } = require('url');
const { test } = require('node:test');
const { CID } = require('../cid.js');
const errors = require('../store.js');
const { refusalOf } = require('../store_program.js');

const { Store } = errors;
const BUILT = join(__dirname, '../../../crates/dagstore/out/dagstore');
const program = process.env.DAGSTORE || BUILT;
const skip = !fs.existsSync(program) && 'the program `dagstore` is not built: `rt run` in crates/dagstore, or name it by DAGSTORE';

const [RAW, DAG_CBOR, DAG_PB, DAG_JSON] = [0x55, 0x71, 0x70, 0x0129];
const text = (it) => Buffer.from(it);
const varint = (n) => (n < 128 ? [n] : [(n % 128) + 128, ...varint(Math.floor(n / 128))]);
const formOf = (block, code) =>
  Buffer.concat([Buffer.of(1, ...varint(code), 0x12, 32), createHash('sha256').update(block).digest()]);
const nameOf = (block, code = RAW) => new CID(formOf(block, code));

// A file of raw blocks, whose header has less than 24 roots.
const carOf = (blocks, roots = []) => {
  const links = roots.map((it) => Buffer.concat([Buffer.of(0xd8, 0x2a, 0x58, 0x25, 0), formOf(it, RAW)]));
  const front = [Buffer.of(0xa2, 0x65), text('roots'), Buffer.of(0x80 + roots.length), ...links];
  const header = Buffer.concat([...front, Buffer.of(0x67), text('version'), Buffer.of(1)]);
  const parts = [header, ...blocks.map((it) => Buffer.concat([formOf(it, RAW), it]))];
  return Buffer.concat(parts.flatMap((it) => [Buffer.from(varint(it.length)), it]));
};

// A test over a folder, with an open store in it.
const over = (name, run) => test(name, { skip }, async () => {
  const at = fs.mkdtempSync(join(tmpdir(), 'store-'));
  const path = join(at, 'blocks.db');
  const store = await Store.open(path, { program });
  try {
    await run({ at, path, store, again: () => Store.open(path, { program }) });
  } finally {
    await store.close();
    fs.rmSync(at, { recursive: true });
  }
});

const all = async (source) => {
  const found = [];
  for await (const it of source) found.push(it);
  return found;
};

const rejects = (made, name, message = /./) =>
  assert.rejects(made, (error) => {
    assert.deepStrictEqual([error.name, error.constructor], [name, errors[name]], error);
    assert.ok(error instanceof errors.StoreError && error instanceof Error);
    assert.match(error.message, message);
    return true;
  });

const same = (found, wanted) => assert.deepStrictEqual(found.map(String), wanted.map(String));

const TABLE = [
  [Buffer.of(0xf6), undefined, DAG_CBOR],
  [Buffer.of(0xa1, 0x61, 0x61, 1), 'dag-cbor', DAG_CBOR],
  [Buffer.of(0xf6), DAG_CBOR, DAG_CBOR],
  [Buffer.alloc(0), 'raw', RAW],
  [text('hello\n'), 'raw', RAW],
  [new Uint8Array(1 << 20).fill(7), BigInt(RAW), RAW],
  [Buffer.of(0x0a, 2, 8, 1), DAG_PB, DAG_PB],
  [text('{}'), DAG_JSON, DAG_JSON],
];

for (const [n, [block, codec, code]] of TABLE.entries()) {
  over(`put ${n}`, async ({ store, again }) => {
    const cid = nameOf(block, code);
    assert.strictEqual(await store.has(cid), false);
    same([await store.put(block, codec)], [cid]);
    same([await store.put(cid, block)], [cid]);
    const found = await store.get(cid);
    assert.ok(Buffer.from(found).equals(block) && found.constructor === Uint8Array);
    assert.deepStrictEqual([await store.has(cid), await store.count()], [true, 1]);
    same(await all(store), [cid]);
    await store.close();
    const other = await again();
    assert.ok(Buffer.from(await other.get(cid)).equals(block));
    await other.close();
  });
}

over('what is no block', async ({ store }) => {
  for (const [block, codec] of [['ff'], ['1817'], [''], ['f6f6', DAG_CBOR], ['ff', DAG_PB]]) {
    await rejects(store.put(Buffer.from(block, 'hex'), codec), 'InvalidBlock', /^the block is no DAG-/);
  }
  // A block under a name that is another's, of another version, or by another hash function.
  const node = Buffer.of(0x0a, 2, 8, 1);
  const others = [nameOf(text('b')), new CID(formOf(node, DAG_PB).subarray(2))];
  others.push(CID.createV1(RAW, { bytes: Buffer.of(0x13, 1, 0) }));
  for (const it of others) await rejects(store.put(it, node), 'InvalidBlock', /not that of/);
  assert.strictEqual(await store.count(), 0);
});

over('what is no argument', async ({ store }) => {
  const cid = nameOf(text('a'));
  const calls = [
    () => store.get('text'), () => store.has(undefined), () => store.put('text'), () => store.delete(1),
    () => store.put(text('a'), 'cbor'), () => store.put(text('a'), '5'), () => store.put(text('a'), -1), () => store.put(text('a'), 2n ** 64n),
    () => store.put(cid, 'text'), () => store.addRoots(cid, null), () => store.commit([{ remove: cid }]),
    () => store.put(new Uint8Array(new SharedArrayBuffer(1)), 'raw'), () => store.exportCar('a\nb'),
    () => store.importCar(''), () => Store.open(5), () => Store.open('a\ud800'), () => store.commit([{}]),
    () => store.commit({ put: text('a') }), () => all(store.putMany([{ block: text('a') }])),
    () => store.commit([{ put: text('a'), codec: 'raw', addRoot: cid }]), () => store.commit([{ addRoot: cid, dropRoot: cid }]),
  ];
  for (const it of calls) await assert.rejects(async () => it(), TypeError);
  assert.strictEqual(await store.count(), 0);
});

over('names in the order of their bytes', async ({ store }) => {
  const blocks = [...Array(1000).keys()].map((n) => text(String(n)));
  const cids = await store.commit(blocks.map((put) => ({ put, codec: 'raw' })));
  same(cids, blocks.map((it) => nameOf(it)));
  const sorted = blocks.map((it) => formOf(it, RAW)).sort(Buffer.compare).map((it) => new CID(it));
  same(await all(store), sorted);
  for (const { cid, block } of await all(store.getAll())) same([nameOf(block)], [cid]);
});

over('what is not there', async ({ store }) => {
  const cid = nameOf(text('other'));
  await rejects(store.get(cid), 'NotFoundError', /nothing is stored under/);
  await assert.rejects(store.get(cid), { code: 'ERR_NOT_FOUND' });
  await store.delete(cid);
  await store.dropRoots(cid);
});

over('roots', async ({ store, again }) => {
  const [a, b, c] = ['a', 'b', 'c'].map((it) => nameOf(text(it)));
  await store.addRoots(c, a, b);
  await store.addRoots(c);
  same(await store.roots(), [c, a, b]);
  await store.dropRoots(a, nameOf(text('z')));
  await store.close();
  const other = await again();
  same(await other.roots(), [c, b]);
  await other.close();
});

over('a commit of several changes', async ({ store }) => {
  const [a, b, c] = ['a', 'b', 'c'].map((it) => nameOf(text(it)));
  await store.put(c, text('c'));
  const changes = [{ put: text('a'), codec: 'raw' }, { delete: c }, { addRoot: a }, { put: text('b'), cid: b }];
  same(await store.commit(changes), [a, b]);
  same(await all(store), [a, b].sort((x, y) => Buffer.compare(x.bytes, y.bytes)));
  same(await store.roots(), [a]);
  same(await store.commit([]), []);
  // All of it, or none; and a call that comes meanwhile is not in it.
  for (const wrong of [{ put: Buffer.of(0xff) }, { put: text('x'), cid: a }]) {
    const made = store.commit([{ put: text('c'), codec: 'raw' }, { dropRoot: a }, wrong, { delete: b }]);
    const put = store.put(text(`beside ${Object.keys(wrong)}`), 'raw');
    await rejects(made, 'InvalidBlock');
    assert.ok(await store.has(await put));
    assert.deepStrictEqual([await store.has(c), await store.has(b)], [false, true]);
    same(await store.roots(), [a]);
  }
  assert.strictEqual(await store.count(), 4);
  // A block that is changed once the call has begun is kept as it was.
  const block = text('as it was');
  const put = store.put(block, 'raw');
  block.fill(0);
  same([await put], [nameOf(text('as it was'))]);
});

over('many, as blockstores have them', async ({ store }) => {
  const blocks = [...Array(600).keys()].map((n) => text(`${n} `.repeat(n % 7 === 0 ? 5000 : 1)));
  const pairs = blocks.map((block) => ({ cid: nameOf(block), block }));
  same(await all(store.putMany(pairs)), pairs.map(({ cid }) => cid));
  const later = async function* () {
    for (const { cid, block } of pairs) yield { cid, bytes: block };
  };
  same(await all(store.putMany(later())), pairs.map(({ cid }) => cid));
  assert.strictEqual(await store.count(), 600);
  const got = await all(store.getMany(pairs.map(({ cid }) => cid)));
  assert.ok(got.every(({ cid, block }, n) => cid === pairs[n].cid && Buffer.from(block).equals(pairs[n].block)));
  same(await all(store.deleteMany(pairs.slice(1).map(({ cid }) => cid))), pairs.slice(1).map(({ cid }) => cid));
  same(await all(store), [pairs[0].cid]);
  await rejects(all(store.putMany([pairs[1], { cid: pairs[2].cid, block: text('x') }])), 'InvalidBlock');
  assert.strictEqual(await store.count(), 1);
});

over('CAR files', async ({ at, store }) => {
  const [blocks, roots] = [[text('a'), text('b'.repeat(1000)), text('c')], [text('c'), text('elsewhere')]];
  const [made, out] = [join(at, 'made.car'), join(at, 'out.car')];
  fs.writeFileSync(made, carOf(blocks, roots));
  for (const path of [made, pathToFileURL(made)]) {
    const found = await store.importCar(path);
    same(found.roots, roots.map((it) => nameOf(it)));
    assert.strictEqual(found.sections, 3);
  }
  same(await store.roots(), roots.map((it) => nameOf(it)));
  await store.exportCar(out);
  const sorted = blocks.sort((a, b) => Buffer.compare(formOf(a, RAW), formOf(b, RAW)));
  assert.ok(fs.readFileSync(out).equals(carOf(sorted, roots)));
  await rejects(store.exportCar(out), 'StoreError', /the file is there, or cannot be made/);
  await assert.rejects(store.importCar(join(at, 'none.car')), { code: 'ENOENT' });
  const file = fs.readFileSync(made);
  for (const wrong of [text(''), text('no file'), file.subarray(0, -1), Buffer.concat([file.subarray(0, -1), text('d')])]) {
    fs.writeFileSync(made, wrong);
    await rejects(store.importCar(made), 'InvalidCar');
  }
  assert.strictEqual(await store.count(), 3);
});

over('another has it', async ({ store, path, again }) => {
  await store.put(text('a'), 'raw');
  await rejects(again(), 'StoreLocked', /^another process has the file open$/);
  const { stderr } = spawnSync(program, [path, 'count']);
  assert.strictEqual(String(stderr), 'dagstore: another process has the file open\n');
  await Promise.all([store.close(), store.close()]);
  await rejects(store.put(text('b'), 'raw'), 'StoreEnded', /^the store is closed$/);
  assert.strictEqual(String(execFileSync(program, [path, 'count'])), 'holds 1\n');
});

over('calls at once', async ({ store }) => {
  const blocks = [...Array(200).keys()].map((n) => text(`at once ${n}`));
  const cids = await Promise.all(blocks.map((it) => store.put(it, 'raw')));
  same(cids, blocks.map((it) => nameOf(it)));
  const got = await Promise.all(cids.map((it) => store.get(it)));
  assert.ok(got.every((it, n) => Buffer.from(it).equals(blocks[n])));
});

// The process that has the file open.
const holderOf = (path) => {
  for (const it of fs.readdirSync('/proc').filter((it) => /^\d+$/.test(it))) {
    try {
      if (fs.readFileSync(`/proc/${it}/cmdline`, 'latin1').split('\0')[1] === path) return Number(it);
    } catch {
      // It has ended.
    }
  }
  return undefined;
};

over('a program that died', async ({ store, path, again }) => {
  const a = await store.put(text('a'), 'raw');
  process.kill(holderOf(path), 'SIGKILL');
  for (const call of [() => store.get(a), () => store.get(a), () => store.put(text('b'), 'raw'), () => all(store)]) {
    await rejects(call(), 'StoreEnded', /the program ended/);
  }
  const other = await again();
  assert.deepStrictEqual(Buffer.from(await other.get(a)), text('a'));
  await other.close();
});

over('damage', async ({ store, path, again }) => {
  const block = text('to be damaged');
  const cid = await store.put(block, 'raw');
  await store.close();
  const file = fs.readFileSync(path);
  file.write('TO BE DAMAGED', file.indexOf(block));
  fs.writeFileSync(path, file);
  const other = await again();
  await rejects(other.get(cid), 'DamagedBlock');
  await assert.rejects(other.get(cid), (error) => error.cid.equals(cid));
  assert.ok(await other.has(cid));
  await other.put(cid, block);
  assert.deepStrictEqual(Buffer.from(await other.get(cid)), block);
  await other.close();
});

over('what cannot be opened', async ({ at }) => {
  fs.writeFileSync(join(at, 'text'), 'no store of blocks, but a text'.repeat(100));
  await rejects(Store.open(join(at, 'text'), { program }), 'StoreUnreadable');
  await rejects(Store.open(join(at, 'none', 'blocks.db'), { program }), 'StoreUnreadable');
  await assert.rejects(Store.open(join(at, 'a.db'), { program: join(at, 'none') }), /no program `dagstore`/);
  for (const other of ['/bin/echo', '/bin/false']) {
    await rejects(Store.open(join(at, 'a.db'), { program: other }), 'StoreEnded', /the program ended/);
  }
});

over('where the program is found', async ({ at, path, store }) => {
  await store.close();
  const addon = join(__dirname, '../out/dagcbor.node');
  if (!fs.existsSync(addon)) return; // the package for WebAssembly has no store
  const out = join(at, 'package', 'out');
  fs.mkdirSync(out, { recursive: true });
  const files = ['addons', 'at_hand', 'bytes', 'cid', 'errors', 'library', 'platform', 'store', 'store_errors', 'store_program'];
  for (const it of files) fs.copyFileSync(join(__dirname, `../${it}.js`), join(at, 'package', `${it}.js`));
  fs.copyFileSync(addon, join(out, 'dagcbor.node'));
  const code = `require(${JSON.stringify(join(at, 'package', 'store.js'))}).Store.open(${JSON.stringify(path)})
    .then((it) => it.close()).then(() => console.log('opened'), (it) => console.log(it.message))`;
  const opened = (env) => spawnSync(process.execPath, ['-e', code], { env: { ...process.env, DAGSTORE: '', ...env } }).stdout;
  assert.match(String(opened({ PATH: at })), /^there is no program `dagstore`: .* DAGSTORE/);
  assert.strictEqual(String(opened({ PATH: at, DAGSTORE: fs.realpathSync(program) })), 'opened\n');
  fs.copyFileSync(program, join(at, 'dagstore'));
  assert.strictEqual(String(opened({ PATH: at })), 'opened\n');
  fs.renameSync(join(at, 'dagstore'), join(out, 'dagstore'));
  assert.strictEqual(String(opened({ PATH: '/none' })), 'opened\n');
  const carried = join(at, 'package', 'prebuilds', `${process.platform}-${process.arch}`); // as in a release
  fs.mkdirSync(carried, { recursive: true });
  fs.renameSync(join(out, 'dagstore'), join(carried, 'dagstore'));
  assert.strictEqual(String(opened({ PATH: '/none' })), 'opened\n');
  fs.writeFileSync(join(carried, 'dagstore'), '#!/none/such\n', { mode: 0o755 });
  assert.match(String(opened({ PATH: '/none' })), /dagstore is for another platform than this: .* DAGSTORE/);
});

over('the end of a script that closes nothing', async ({ path, store, again }) => {
  await store.close();
  const code = `require(${JSON.stringify(join(__dirname, '../store.js'))}).Store.open(${JSON.stringify(path)}, { program: ${JSON.stringify(program)} })
    .then((it) => it.put(Buffer.from('a'), 'raw')).then(String).then(console.log)`;
  const { stdout, stderr } = spawnSync(process.execPath, ['-e', code], { timeout: 60000 });
  assert.strictEqual(String(stdout), `${nameOf(text('a'))}\n`, String(stderr));
  for (let n = 0; ; n++) {
    try {
      const other = await again();
      assert.strictEqual(await other.count(), 1);
      await other.close();
      return;
    } catch (error) {
      if (n > 100 || !(error instanceof errors.StoreLocked)) throw error;
    }
  }
});

test('what is said', () => {
  const a = nameOf(text('a'));
  for (const [said, name] of [
    ['dagstore: database or disk is full\n', 'StoreFull'],
    ['dagstore: disk I/O error\n', 'StoreDiskError'],
    ['dagstore: database disk image is malformed\n', 'StoreDiskError'],
    ['dagstore: out of memory\n', 'StoreMemoryError'],
    ['dagstore: the block is too long for a row\n', 'StoreError'],
    ['dagstore: no number is left for a row\n', 'StoreError'],
    ['dagstore: the index of names has a wrong entry at row 7\n', 'StoreUnreadable'],
    ['dagstore: the table of roots has a wrong row at row 9\n', 'StoreUnreadable'],
    [`dagstore: after 2 sections\ndagstore: of ${a}\ndagstore: the block has other bytes than its name says\n`, 'InvalidCar'],
    ['dagstore: after 2 sections\ndagstore: the input is not a CAR file: Truncated\n', 'InvalidCar'],
    ['dagstore: after 2 sections\ndagstore: the input failed\n', 'StoreError'],
    [`dagstore: ${a} other bytes\ndagstore: what is stored under the name has other bytes than it says\n`, 'DamagedBlock'],
  ]) {
    const error = refusalOf(said);
    assert.strictEqual(error.constructor, errors[name], said);
    assert.strictEqual(String(error.cid), name === 'DamagedBlock' ? String(a) : 'undefined');
  }
});
