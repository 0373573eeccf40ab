// CAR files: each source is answered as the vectors say.
'use strict';
const assert = require('assert');
const { execFileSync } = require('child_process');
const { createHash } = require('crypto');
const { closeSync, createReadStream, mkdtempSync, openSync, readFileSync, rmSync, writeFileSync } = require('fs');
const { open } = require('fs/promises');
const { tmpdir } = require('os');
const { join } = require('path');
const { Readable } = require('stream');
const { test } = require('node:test');
const {
  CID, CarBlockIterator, CarBufferReader, CarCIDIterator, CarError, CarIndexedReader, CarIndexer, CarReader, CarWriter,
  DagCborError, checkCar, encode, name,
} = require('..');
const { native } = require('../library.js');
const { COLLECTING, SILENT } = require('./collecting.js');
const { vectorsOf, verdictOf } = require('./vectors.js');

const HEADER = Buffer.from('\x11\xa2eroots\x80gversion\x01', 'latin1');
const hex = (bytes) => Buffer.from(bytes).toString('hex');
const PRAGMA = Buffer.from('\x0a\xa1gversion\x02', 'latin1'); // begins a file of version 2
const rows = vectorsOf('files').map(({ bytes, roots = [], sections = [], missing, variant, at }) => {
  const told = sections.map((it) => [it.cid, it.end - it.block, verdictOf(it)]);
  const version = bytes.subarray(0, PRAGMA.length).equals(PRAGMA) ? 2 : 1;
  return { bytes, roots, told, fault: variant ? [variant, at] : null, missing, version };
});

// Sources of the bytes: in pieces of each size, by generators and by a stream.
const cut = function* (bytes, size) {
  for (let at = 0; at < bytes.length; at += size) yield bytes.subarray(at, at + size);
};
const later = async function* (bytes, size) {
  for (const it of cut(bytes, size)) yield Uint8Array.from(it);
};
const sources = (bytes) => [
  [bytes], [bytes, new Uint8Array()], cut(bytes, 1), cut(bytes, 7), later(bytes, 50),
  Readable.from([...cut(bytes, 64)]),
];

const faultOf = (error) => {
  assert.ok(error instanceof CarError && error instanceof DagCborError, error);
  assert.strictEqual(error.name, 'CarError');
  return [error.kind, error.place];
};

const told = async (open) => {
  const found = { roots: [], told: [], fault: null };
  try {
    const all = await open();
    found.roots = (await all.getRoots()).map(String);
    for await (const { cid, bytes, verdict } of all) {
      found.told.push([String(cid), bytes.length, verdict]);
    }
  } catch (error) {
    found.fault = faultOf(error);
  }
  return found;
};

// By the library, by the host, and by what is never right.
const host = (bytes) => createHash('sha256').update(bytes).digest();
const ways = [undefined, { sha256: host }, { sha256: () => new Uint8Array(32) }];

test('the vectors hold', async () => {
  assert.ok(rows.length > 40);
  for (const options of ways) {
    for (const { bytes, missing, version, ...wanted } of rows) {
      const opened = sources(bytes).map((it) => () => CarBlockIterator.fromIterable(it, options));
      for (const open of [() => CarBlockIterator.fromBytes(bytes, options), ...opened]) {
        assert.deepStrictEqual(await told(open), wanted);
      }
      for (const source of [bytes, ...sources(bytes)]) {
        await checks(source, wanted, missing, options);
      }
      await reads(bytes, { ...wanted, version }, options);
    }
  }
  assert.ok(rows.some((it) => it.version === 2 && !it.fault));
});

const checks = async (source, wanted, missing, options) => {
  let [found, fault] = [undefined, null];
  try {
    found = await checkCar(source, options);
    assert.deepStrictEqual(found.missing.map(String), missing);
    const areWell = wanted.told.every((it) => it[2] === 'not read' || it[2].startsWith('ok '));
    assert.strictEqual(found.isWell, areWell && !missing.length);
  } catch (error) {
    [found, fault] = [error.checked, faultOf(error)];
  }
  assert.deepStrictEqual(fault, wanted.fault);
  if (!found) return assert.deepStrictEqual(wanted.told, []);
  const counts = {};
  for (const [, , verdict] of wanted.told) counts[verdict] = (counts[verdict] ?? 0) + 1;
  assert.deepStrictEqual(found.verdicts, counts);
  return assert.deepStrictEqual(found.roots.map(String), wanted.roots);
};

const inFolder = async (call) => {
  const folder = mkdtempSync(join(tmpdir(), 'cars-'));
  try {
    await call(folder);
  } finally {
    rmSync(folder, { recursive: true });
  }
};

// What reads a whole file, of the bytes: by promises, without, and from the disk.
const reads = async (bytes, wanted, options) => {
  const isSync = await readsBy(async () => CarBufferReader.fromBytes(bytes, options), wanted);
  assert.strictEqual(isSync, wanted.fault === null);
  await readsBy(() => CarReader.fromBytes(bytes, options), wanted);
  await inFolder(async (folder) => {
    writeFileSync(join(folder, 'it.car'), bytes);
    await readsBy(() => CarIndexedReader.fromFile(join(folder, 'it.car'), options), wanted);
  });
};

const readsBy = async (opened, wanted) => {
  let reader;
  try {
    reader = await opened();
  } catch (error) {
    assert.deepStrictEqual(faultOf(error), wanted.fault);
    return false;
  }
  assert.strictEqual(wanted.fault, null);
  assert.deepStrictEqual((await reader.getRoots()).map(String), wanted.roots);
  assert.strictEqual(reader.version, wanted.version);
  const blocks = [];
  for await (const it of reader.blocks()) blocks.push(it);
  const found = blocks.map((it) => [String(it.cid), it.bytes.length, it.verdict]);
  assert.deepStrictEqual(found, wanted.told);
  const verified = blocks.filter((it) => !['other bytes', 'not verified'].includes(it.verdict));
  for await (const cid of reader.cids()) {
    const isHere = verified.some((it) => it.cid.equals(cid));
    assert.strictEqual(await reader.has(cid), isHere);
    const got = await reader.get({ bytes: cid.bytes }); // of another package
    assert.deepStrictEqual(got, verified.find((it) => it.cid.equals(cid)));
  }
  assert.strictEqual(await reader.get(name(Buffer.of(9))), undefined);
  await reader.close?.();
  const long = reader.close && verified.find((it) => it.bytes.length); // of which something is to be read
  if (long) await assert.rejects(reader.get(long.cid), { code: 'EBADF' });
  return true;
};

test('each byte damaged', async () => {
  const { bytes } = rows[1];
  for (let at = 0; at < bytes.length; at++) {
    const file = Buffer.from(bytes);
    file[at] ^= 1;
    const whole = await told(() => CarBlockIterator.fromBytes(file));
    assert.deepStrictEqual(await told(() => CarBlockIterator.fromIterable(cut(file, 9))), whole);
    let fault = null;
    await checkCar(file).catch((error) => { fault = faultOf(error); });
    assert.deepStrictEqual(fault, whole.fault);
  }
});

const cidOf = (block) => {
  const digest = createHash('sha256').update(block).digest();
  return new CID(Buffer.concat([Buffer.of(1, 0x71, 0x12, 0x20), digest]));
};
const varint = (n) => (n < 128 ? [n] : [(n % 128) + 128, ...varint(Math.floor(n / 128))]);
const section = (block, cid = cidOf(block)) => {
  const length = cid.bytes.length + block.length;
  return Buffer.concat([Buffer.from(varint(length)), cid.bytes, block]);
};

test('each row by the host, whatever its length', async () => {
  const found = async (bytes, isCheck, sha256) => {
    const car = native.carOpen(isCheck);
    const steps = [];
    for (let [code, place] = [0, 0]; code === 0; [code, place] = steps.at(-1)) {
      steps.push(await native.carGo(car, bytes.subarray(place), true, sha256, 0));
    }
    return [steps, native.carFound(car)];
  };
  for (const { bytes } of rows) {
    for (const isCheck of [false, true]) {
      const wanted = await found(bytes, isCheck);
      for (const { sha256 } of ways.slice(1)) {
        assert.deepStrictEqual(await found(bytes, isCheck, sha256), wanted);
      }
    }
  }
});

test('digests of the host', async () => {
  const isLooked = native.shared > 0; // not by the WebAssembly module
  const named = (digest) => new CID(Uint8Array.of(1, 0x71, 0x12, 0x20, ...digest));
  const [right, other] = [1, 2].map((n) => encode([n, new Uint8Array(9000)]));
  const lie = named(new Uint8Array(32));
  const file = Buffer.concat([HEADER, section(right), section(other, lie), section(Buffer.of(5))]);
  const checked = async (sha256) => (await checkCar(file, { sha256 })).verdicts;
  const wanted = { 'ok integer': 1, 'ok list': 1, 'other bytes': 1 };
  for (const sha256 of [undefined, host]) assert.deepStrictEqual(await checked(sha256), wanted);
  for (const sha256 of [null, true, 'host', {}]) await assert.rejects(checked(sha256), TypeError);
  if (!isLooked) return;
  const trusted = await checked(() => new Uint8Array(32));
  assert.deepStrictEqual(trusted, { 'ok integer': 1, 'ok list': 2 });
  const answers = [undefined, 'x', new Uint8Array(31), [], Promise.resolve(new Uint8Array(32))];
  for (const it of answers) await assert.rejects(checked(() => it), TypeError);
  const failing = checked(() => { throw new RangeError('mine'); });
  await assert.rejects(failing, { name: 'RangeError', message: 'mine' });
  const given = [];
  const keeping = (bytes) => host(given[given.length] = bytes);
  const reader = await CarReader.fromBytes(file, { sha256: keeping });
  assert.strictEqual(given.length, 2);
  given.forEach((it) => it.fill(255)); // a copy each
  assert.deepStrictEqual((await reader.get(cidOf(right))).bytes, right);
});

test('sections of each size', async () => {
  const sizes = [0, 1, 91, 92, 60000, 65536, 262144, 300000, 5e6];
  const blocks = sizes.map((size) => Buffer.alloc(size, 0xf6));
  const file = Buffer.concat([HEADER, ...blocks.map((it) => section(it))]);
  const folder = mkdtempSync(join(tmpdir(), 'cars-'));
  try {
    writeFileSync(join(folder, 'it.car'), file);
    const stream = () => createReadStream(join(folder, 'it.car'));
    for (const source of [[file], cut(file, 1000), stream(), cut(file, 262144)]) {
      const found = [];
      for await (const it of await CarBlockIterator.fromIterable(source)) found.push(it.bytes);
      assert.deepStrictEqual(found.map((it) => hex(it)), blocks.map(hex));
    }
    const counts = { 'ok null': 1, 'refused Eof': 1, 'refused TrailingData': sizes.length - 2 };
    assert.deepStrictEqual((await checkCar(stream())).verdicts, counts);
  } finally {
    rmSync(folder, { recursive: true });
  }
});

test('a file that is read where it lies', () => inFolder(async (folder) => {
  const path = join(folder, 'it.car');
  const blocks = [[1], new Uint8Array(300000)].map((it) => Buffer.from(encode(it)));
  const [one, other] = blocks.map((it) => name(it));
  const file = Buffer.concat([HEADER, ...blocks.map((it) => section(it))]);
  writeFileSync(path, file);
  for (const it of [undefined, Buffer.from(path), 1, new URL(`file://${path}`)]) {
    await assert.rejects(CarIndexedReader.fromFile(it), TypeError);
  }
  await assert.rejects(CarIndexedReader.fromFile(join(folder, 'none')), { code: 'ENOENT' });
  const reader = await CarIndexedReader.fromFile(path);
  assert.deepStrictEqual((await reader.get(other)).bytes, Uint8Array.from(blocks[1]));
  const [place, length] = [file.length - blocks[1].length, blocks[1].length];
  const index = { cid: other, blockOffset: place, blockLength: length };
  const [number, handle] = [openSync(path), await open(path)];
  for (const it of [number, handle]) {
    const read = await CarReader.readRaw(it, index);
    assert.deepStrictEqual(read, { cid: other, bytes: Uint8Array.from(blocks[1]), verdict: 'ok bytes' });
    const far = { ...index, blockOffset: place + 1 };
    await assert.rejects(CarReader.readRaw(it, far), { kind: 'Truncated' });
    await assert.rejects(CarReader.readRaw(it, { ...index, cid: one }), { kind: 'OtherBytes' });
    const unknown = { ...index, cid: CID.createV1(0x55, { bytes: Uint8Array.of(0x11, 1, 0) }) };
    await assert.rejects(CarReader.readRaw(it, unknown), { kind: 'NotVerified' });
  }
  for (const it of [undefined, null, path, {}]) await assert.rejects(CarReader.readRaw(it, index), TypeError);
  file[place + 9] ^= 1; // changed since
  writeFileSync(path, file);
  assert.ok(await reader.has(other));
  await assert.rejects(reader.get(other), { kind: 'OtherBytes' });
  const verdicts = [];
  for await (const it of reader.blocks()) verdicts.push(it.verdict);
  assert.deepStrictEqual(verdicts, ['ok list', 'other bytes']);
  writeFileSync(path, file.subarray(0, place));
  await assert.rejects(reader.get(other), { kind: 'Truncated' });
  await reader.close();
  closeSync(number);
  await handle.close();
}));

test('many small sections at once', () => {
  const small = section(Buffer.of(5));
  const file = Buffer.concat([HEADER, ...Array(200000).fill(small)]);
  const reader = CarBufferReader.fromBytes(file);
  assert.strictEqual(reader.cids().length, 200000);
  assert.strictEqual(new Set(reader.cids().map(String)).size, 1);
  reader.blocks().length = reader.cids().length = reader.getRoots().length = 0; // copies
  assert.strictEqual(reader.blocks().length, 200000);
});

test('headers that are none', async () => {
  for (const [text, kind] of [['00', 'NoBlock'], ['021817', 'NoBlock'], ['0180', 'OtherHeader']]) {
    const file = Buffer.from(text, 'hex');
    for (const call of [checkCar, CarReader.fromBytes, CarBlockIterator.fromBytes]) {
      const isRight = (error) => faultOf(error)[0] === kind && error.checked === undefined;
      await assert.rejects(() => call(file), isRight);
    }
  }
});

test('what is no source', async () => {
  const shared = new Uint8Array(new SharedArrayBuffer(9));
  for (const given of [undefined, null, 1, {}, ['text'], [1], [shared], 'text']) {
    for (const call of [checkCar, CarReader.fromIterable, CarBlockIterator.fromIterable]) {
      await assert.rejects(async () => call(given), TypeError);
    }
  }
});

test('a source is let go', async () => {
  let left = 0;
  const source = async function* (...pieces) {
    try {
      yield* pieces;
      throw new RangeError('mine');
    } finally {
      left += 1;
    }
  };
  const block = Buffer.from(encode([1, 2]));
  const file = Buffer.concat([HEADER, section(block), section(block)]);
  for await (const it of await CarBlockIterator.fromIterable(source(file))) {
    assert.strictEqual(it.verdict, 'ok list');
    break;
  }
  assert.strictEqual(left, 1);
  const mine = (error) => error instanceof RangeError;
  await assert.rejects(() => checkCar(source(file)), mine);
  await assert.rejects(() => CarReader.fromIterable(source(Buffer.of(1, 0x80))), CarError);
  await assert.rejects(() => checkCar(source(file, Buffer.of(0))), CarError);
  assert.strictEqual(left, 4);
  for (const it of [CarBlockIterator, CarCIDIterator, CarIndexer]) {
    const all = await it.fromIterable(source(file));
    await all[Symbol.asyncIterator]().return(); // by one who wants the roots alone
  }
  assert.strictEqual(left, 7);
});

test('a section comes once its last byte is there', async () => {
  const blocks = [1, 300, 60000].map((size) => encode(new Uint8Array(size)));
  let taken = 0;
  const source = async function* () {
    yield HEADER;
    for (const [i, it] of blocks.entries()) {
      const bytes = section(Buffer.from(it));
      yield bytes.subarray(0, -1);
      yield bytes.subarray(-1);
      assert.strictEqual(taken, i + 1);
    }
  };
  for await (const { bytes } of await CarBlockIterator.fromIterable(source())) {
    assert.deepStrictEqual(bytes, blocks[taken++]);
  }
});

test('bytes that change meanwhile', async () => {
  const block = Buffer.alloc(100000, 0xf6);
  const file = Buffer.concat([HEADER, section(block)]);
  const piece = Buffer.from(file);
  const source = (function* () {
    yield piece;
    piece.fill(0);
  })();
  const found = await checkCar(source);
  assert.deepStrictEqual(found.verdicts, { 'refused TrailingData': 1 });
});

test('bytes that are taken away meanwhile', async () => {
  const front = HEADER.length + 39; // and the head of the section
  const first = Buffer.alloc((1 << 18) - front, 0xf6); // it ends where a piece does
  const file = Buffer.concat([HEADER, section(first), section(Buffer.from(encode(1)))]);
  assert.strictEqual(HEADER.length + section(first).length, 1 << 18);
  const taking = [
    (bytes) => structuredClone(bytes.buffer, { transfer: [bytes.buffer] }),
    (bytes) => new ReadableStream({ type: 'bytes', start: (it) => it.enqueue(bytes) }),
  ];
  for (const take of taking) {
    const bytes = Uint8Array.from(file);
    const found = [];
    await assert.rejects(async () => {
      for await (const it of await CarBlockIterator.fromBytes(bytes)) {
        found.push(it.bytes.length);
        take(bytes);
      }
    }, TypeError);
    assert.deepStrictEqual(found, [first.length]);
    const early = Uint8Array.from(file);
    const checked = checkCar(early);
    take(early);
    await assert.rejects(checked, TypeError);
  }
});

const collected = async (out) => {
  const pieces = [];
  for await (const it of out) pieces.push(it);
  return Buffer.concat(pieces);
};

test('files are written', async () => {
  const [one, other] = [{ a: 1 }, [name(Buffer.of(0xf6))]].map((it) => Buffer.from(encode(it)));
  for (const roots of [undefined, name(one), [name(one), { bytes: name(other).bytes }]]) {
    const { writer, out } = CarWriter.create(roots);
    const file = collected(out);
    await writer.put({ cid: name(one), bytes: one });
    const isRefused = { kind: 'OtherBytes' };
    await assert.rejects(() => writer.put({ cid: name(one), bytes: other }), isRefused);
    writer.put({ cid: { bytes: name(other).bytes }, bytes: other });
    await writer.close();
    await assert.rejects(() => writer.put({ cid: name(one), bytes: one }), /closed/);
    const whole = await file;
    assert.ok(whole.subarray(-section(other).length).equals(section(other)));
    const reader = await CarReader.fromBytes(whole);
    const listed = roots === undefined ? [] : [roots].flat();
    const all = (await reader.getRoots()).map((it) => hex(it.bytes));
    assert.deepStrictEqual(all, listed.map((it) => hex(it.bytes)));
    assert.deepStrictEqual(hex((await reader.get(name(one))).bytes), hex(one));
  }
  assert.ok((await (async () => {
    const { writer, out } = CarWriter.create();
    writer.close();
    return collected(out);
  })()).equals(HEADER));
  assert.throws(() => CarWriter.create([{ bytes: Buffer.of(1) }]), { kind: 'InvalidCid' });
});

test('sections for a file that is there', async () => {
  const blocks = [[1], [2]].map((it) => Buffer.from(encode(it)));
  const { writer, out } = CarWriter.createAppender();
  const file = collected(out);
  await assert.rejects(() => writer.put({ cid: name(blocks[0]), bytes: blocks[1] }), { kind: 'OtherBytes' });
  for (const bytes of blocks) writer.put({ cid: name(bytes), bytes });
  writer.close();
  const whole = Buffer.concat([HEADER, await file]);
  assert.ok(whole.equals(Buffer.concat([HEADER, ...blocks.map((it) => section(it))])));
  for (const it of [{}, { cid: name(blocks[0]) }, { bytes: blocks[0] }, { cid: 1, bytes: blocks[0] }]) {
    await assert.rejects(() => CarWriter.createAppender().writer.put(it), TypeError);
  }
  for (const it of [1, 'bafy', {}, [{}], null, [undefined]]) assert.throws(() => CarWriter.create(it), TypeError);
});

test('other roots in the place of those there', () => inFolder(async (folder) => {
  const path = join(folder, 'it.car');
  const blocks = [[1], [2], [3]].map((it) => Buffer.from(encode(it)));
  const cids = blocks.map((it) => name(it));
  const fileOf = async (roots) => {
    const { writer, out } = CarWriter.create(roots);
    for (const bytes of blocks) writer.put({ cid: name(bytes), bytes });
    writer.close();
    return collected(out);
  };
  const wanted = await fileOf(cids.slice(1));
  const file = await fileOf(cids.slice(0, 2));
  const kept = Buffer.from(file);
  assert.strictEqual(await CarWriter.updateRootsInBytes(file, cids.slice(1)), file);
  assert.ok(file.equals(wanted));
  const second = Buffer.concat([PRAGMA, Buffer.alloc(40), kept]);
  second.writeBigUInt64LE(51n, 27);
  second.writeBigUInt64LE(BigInt(kept.length), 35);
  const refusals = [
    [kept, cids, 'LengthMismatch'], [kept, cids[0], 'LengthMismatch'], [second, cids.slice(1), 'OtherHeader'],
    [kept.subarray(0, 20), cids, 'Truncated'], [Buffer.from('0180', 'hex'), cids, 'OtherHeader'],
  ];
  for (const [bytes, roots, kind] of refusals) {
    const before = Buffer.from(bytes);
    await assert.rejects(CarWriter.updateRootsInBytes(bytes, roots), { kind });
    writeFileSync(path, bytes);
    const handle = await open(path, 'r+');
    await assert.rejects(CarWriter.updateRootsInFile(handle, roots), { kind });
    await handle.close();
    assert.ok(bytes.equals(before) && readFileSync(path).equals(before));
  }
  for (const opened of [() => openSync(path, 'r+'), () => open(path, 'r+')]) {
    writeFileSync(path, kept);
    const it = await opened();
    assert.strictEqual(await CarWriter.updateRootsInFile(it, cids.slice(1)), undefined);
    assert.ok(readFileSync(path).equals(wanted));
    if (typeof it === 'number') closeSync(it);
    else await it.close();
  }
  for (const it of [undefined, path, {}]) await assert.rejects(CarWriter.updateRootsInFile(it, cids), TypeError);
  await assert.rejects(CarWriter.updateRootsInBytes(path, cids), TypeError);
}));

test('who takes a file may leave', async () => {
  const { writer, out } = CarWriter.create();
  const block = Buffer.from(encode(1));
  const put = [1, 2].map(() => writer.put({ cid: name(block), bytes: block }));
  for await (const it of out) {
    assert.ok(Buffer.from(it).equals(HEADER));
    break;
  }
  await Promise.all(put);
  await assert.rejects(() => writer.put({ cid: name(block), bytes: block }), /closed/);
});

test('who takes a file may leave before it began', async () => {
  const block = Buffer.from(encode(1));
  for (const how of ['return', 'throw']) {
    for (const isEarly of [true, false]) {
      const { writer, out } = CarWriter.create();
      const put = () => writer.put({ cid: name(block), bytes: block });
      const early = isEarly ? put() : undefined;
      await out[how](new Error('enough')).catch(() => {});
      await early;
      await assert.rejects(put, /closed/);
      await assert.rejects(() => writer.close(), /closed/);
    }
  }
});

// A thread of the pool opens a pipe until somebody writes into it: as long as all do, no other work of the pool begins.
test('the loop goes on while a big block is hashed', () => inFolder(async (folder) => {
  const pipe = join(folder, 'pipe');
  execFileSync('mkfifo', [pipe]);
  const threads = Number(process.env.UV_THREADPOOL_SIZE ?? 4);
  const opened = Array.from({ length: threads }, () => open(pipe));
  const file = Buffer.concat([HEADER, section(Buffer.concat([Buffer.from('5a00100000', 'hex'), Buffer.alloc(1 << 20)]))]);
  let isDone = false;
  const checked = checkCar([file]).finally(() => { isDone = true; });
  for (let turns = 0; turns < 100; turns++) await new Promise(setImmediate);
  const wasDone = isDone;
  const writer = openSync(pipe, 'r+');
  for (const it of opened) await (await it).close();
  closeSync(writer);
  assert.strictEqual(wasDone, native.shared === 0); // by the WebAssembly module the thread that asks does it
  assert.deepStrictEqual((await checked).verdicts, { 'ok bytes': 1 });
}));

test('memory', () => {
  const script = `
    const { CarBlockIterator, checkCar, name } = require(process.argv[1]);
    const header = Buffer.from(process.argv[2], 'hex');
    const bytes = Buffer.concat([Buffer.from('59ffff', 'hex'), Buffer.alloc(0xffff)]);
    const block = Buffer.concat([Buffer.of(0x90), ...Array(16).fill(bytes)]);
    const length = (n) => n < 128 ? [n] : [(n % 128) + 128, ...length(Math.floor(n / 128))];
    const front = Buffer.from(length(36 + block.length));
    const section = Buffer.concat([front, name(block).bytes, block]);
    const file = function* (count) {
      yield header;
      for (let i = 0; i < count; i++) yield section;
    };
    const round = async (count) => {
      for await (const it of await CarBlockIterator.fromIterable(file(count))) it.bytes[0];
      if ((await checkCar(file(count))).verdicts['ok list'] !== count) throw 1;
      for (const n of [2 ** 40, 2 ** 52]) {
        const short = [header, Uint8Array.from(length(n)), Buffer.alloc(99999)];
        await checkCar(short).then(() => { throw 1; }, (error) => {
          if (error.kind !== 'Truncated') throw error;
        });
      }
      // What was let go is freed: the memory of arrays by the collection after it, that of an addon by the loop.
      for (let turns = 0; turns < 3; turns++) await new Promise((done) => setImmediate(() => done(gc())));
      return process.memoryUsage.rss();
    };
    (async () => {
      await round(10);
      const before = await round(10);
      const more = (await round(100)) - before;
      if (more > 40e6) throw new Error('more by ' + more);
    })();`;
  execFileSync(process.execPath, [...COLLECTING, '-e', script, join(__dirname, '..'), hex(HEADER)], SILENT);
});
