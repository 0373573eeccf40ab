'use strict';
const assert = require('node:assert');
const { execFileSync } = require('node:child_process');
const { join } = require('node:path');
const { test } = require('node:test');
const vm = require('node:vm');
const { Worker } = require('node:worker_threads');
const { CID, DagCborError, check, decode, encode, links, name, tape } = require('..');
const { COLLECTING, SILENT } = require('./collecting.js');
const { fuzz } = require('./fuzz.js');
const { spelling } = require('./plain.js');
const { blocks, vectorsOf } = require('./vectors.js');

const hex = (text) => Uint8Array.from(Buffer.from(text, 'hex'));
const toHex = (bytes) => Buffer.from(bytes).toString('hex');
const refuses = (call, kind, place) => {
  assert.throws(call, (error) => {
    if (place !== undefined) assert.deepStrictEqual(error.place, place);
    return error instanceof DagCborError && error.kind === kind;
  });
};
const spells = (value, text) => assert.strictEqual(toHex(encode(value)), text);

test('the vectors hold', () => {
  const all = blocks();
  assert.ok(all.length > 1000);
  for (const it of all) {
    for (const block of [it.bytes, Uint8Array.from(it.bytes)]) {
      if (it.verdict === 'ok') {
        assert.strictEqual(String(name(block)), it.cid);
        assert.strictEqual(check(block), it.kind);
        if (it.tokens) assert.strictEqual(String(tape(block)), it.tokens.replaceAll(':', ','));
        assert.strictEqual(toHex(encode(decode(block))), toHex(block));
        assert.strictEqual(toHex(spelling(decode(block))), toHex(block));
        assert.deepStrictEqual(links(block).map(String), it.links);
      } else {
        for (const call of [check, tape, decode]) refuses(() => call(block), it.variant, it.at);
        // What comes after the first item is not looked at for its links.
        if (it.variant === 'TrailingData') {
          assert.deepStrictEqual(links(block), links(block.subarray(0, it.at)));
        } else refuses(() => links(block), it.variant);
      }
    }
  }
});

test('random data goes both ways', async () => {
  const seed = Date.now();
  await fuzz((rounds) => rounds === 100, seed).catch((error) => { throw new Error(`seed ${seed}`, { cause: error }); });
});

test('integers', () => {
  const rows = [
    ['00', 0], ['1b001fffffffffffff', 2 ** 53 - 1], ['1b0020000000000000', 2n ** 53n],
    ['1bffffffffffffffff', 2n ** 64n - 1n],
    ['20', -1], ['3b001ffffffffffffe', 1 - 2 ** 53], ['3b001fffffffffffff', -(2n ** 53n)],
    ['3b7fffffffffffffff', -(2n ** 63n)],
    ['3b8000000000000000', -(2n ** 63n) - 1n], ['3bffffffffffffffff', -(2n ** 64n)],
    ['3bfffffffffffffffe', 1n - 2n ** 64n],
  ];
  for (const [text, value] of rows) {
    assert.strictEqual(decode(hex(text)), value);
    assert.strictEqual(toHex(encode(value)), text);
    assert.strictEqual(toHex(encode(BigInt(value))), text);
  }
  assert.strictEqual(toHex(encode([-0, 0n, -1n, Object(1n) === 1n])), '84000020f4');
  const beyond = [2n ** 64n, -(2n ** 64n) - 1n, 2n ** 200n, -(2n ** 128n)];
  for (const value of [...beyond, 2 ** 53, -(2 ** 53), 1e300]) {
    refuses(() => encode(value), 'CastOverflow');
  }
  for (const value of [0.5, NaN, Infinity, -Infinity]) {
    refuses(() => encode([value]), 'Unsupported');
  }
});

test('keys are their own', () => {
  const block = hex('a3616101695f5f70726f746f5f5fa161780a6b636f6e7374727563746f7202');
  const value = decode(block);
  assert.deepStrictEqual(Object.keys(value), ['a', '__proto__', 'constructor']);
  assert.strictEqual(Object.getPrototypeOf(value), Object.prototype);
  assert.strictEqual(value.x, undefined);
  assert.strictEqual(toHex(encode(value)), toHex(block));
  const bare = Object.assign(Object.create(null), { b: 1, a: 2, aa: 3, '': 4 });
  spells(bare, 'a4600461610261620162616103');
  spells(vm.runInNewContext('({ 10: 1, 9: [2] })'), 'a26139810262313001');
});

test('nothing is called on the way in', () => {
  const set = () => assert.fail();
  Object.defineProperty(Object.prototype, 'hidden', { set, configurable: true });
  try {
    assert.ok(Object.hasOwn(decode(encode(JSON.parse('{"hidden":[1]}'))), 'hidden'));
  } finally {
    delete Object.prototype.hidden;
  }
});

test('values that have no block', () => {
  const others = [undefined, () => 0, Symbol('a'), new Date(), new WeakMap(), new Set(), /a/];
  const more = [new Uint16Array(1), new ArrayBuffer(1), Object(1), Object('a'), new URL('a:b')];
  for (const value of [...others, ...more, new Error()]) {
    refuses(() => encode(value), 'Unsupported', []);
    refuses(() => encode({ a: [value] }), 'Unsupported', ['a', 0]);
    refuses(() => encode({ b: 1, a: [0, new Map([['x', value]])] }), 'Unsupported', ['a', 1, 'x']);
  }
  refuses(() => encode([1, , 2]), 'Unsupported');
  refuses(() => encode(Object.create(CID.prototype)), 'Unsupported');
  const long = `${'x'.repeat(70)}\ud800`;
  for (const text of ['\ud800', 'a\udc00', '\udc00\ud800', '\ud800\ud800', long]) {
    refuses(() => encode(text), 'RequireUtf8');
    for (let i = 0; i < 3; i++) {
      refuses(() => encode({ a: { x: 1, [text]: 1 } }), 'RequireUtf8', ['a', text]);
    }
  }
  const loop = [];
  loop.push({ loop });
  refuses(() => encode(loop), 'DepthOverflow');
  const nested = (levels) => (levels ? [nested(levels - 1)] : []);
  assert.deepStrictEqual(decode(encode(nested(127))), nested(127));
  refuses(() => encode(nested(128)), 'DepthOverflow');
});

test('values that change', () => {
  const list = [{ get a() { list.length = 0; return 1; } }, 2];
  refuses(() => encode(list), 'Unsupported');
  const map = { get a() { delete map.b; return 1; }, b: 2 };
  refuses(() => encode(map), 'Unsupported');
  assert.throws(() => encode({ get a() { throw new RangeError('mine'); } }), RangeError);
  const own = { value: 1, enumerable: true, configurable: true };
  const proxy = new Proxy({}, {
    ownKeys: () => ['a', 'b'],
    getOwnPropertyDescriptor: () => own,
    get: (_, key) => key,
  });
  spells(proxy, 'a26161616161626162');
  const bytes = new Uint8Array(100);
  const detaching = {
    get a() {
      structuredClone(bytes.buffer, { transfer: [bytes.buffer] });
      return bytes;
    },
  };
  assert.strictEqual(encode([bytes, detaching]).length, 1 + 102 + 4);
});

test('a Proxy is what it shows, or is refused', () => {
  const cid = name(hex('05'));
  spells(new Proxy([1, new Proxy({ a: [] }, {})], {}), '8201a1616180');
  spells(new Proxy(Object.assign(Object.create(null), { a: 1 }), {}), 'a1616101');
  class Own { a = 1; }
  spells(new Own(), 'a1616101');
  const others = [
    new Date(), new Map([['a', 1]]), new Set(), new Uint8Array([9, 8]), cid, new Own(), () => 1,
  ];
  for (const it of others) refuses(() => encode([new Proxy(it, {})]), 'Unsupported', [0]);
});

test('a CID is of the memory of its bytes, whatever they say', () => {
  class Odd extends Uint8Array {
    *[Symbol.iterator]() { yield* [1, 2]; }
  }
  const { bytes } = name(hex('05'));
  const cid = new CID(new Odd(bytes));
  assert.strictEqual(toHex(cid.bytes), toHex(bytes));
  assert.strictEqual(String(cid), String(new CID(bytes)));
  assert.strictEqual(toHex(encode(cid)), toHex(encode(new CID(bytes))));
});

test('scripts that would run while a block is read do not', () => {
  const texts = Array.from({ length: 100 }, (_, i) => String(i).repeat(50));
  const block = encode({ texts, hidden: 1, x: { toJSON: 1 }, of: name(hex('05')) });
  const before = decode(block); // so the keys are known
  const set = () => assert.fail();
  const odd = ['hidden', 'x', 'binary', '/', 'get', 'value'].map((key) => [Object.prototype, key]);
  const places = [[Array.prototype, '33'], ...odd];
  for (const [of, key] of places) Object.defineProperty(of, key, { set, configurable: true });
  try {
    const value = decode(block);
    for (const key of ['hidden', 'x', 'texts']) assert.ok(Object.hasOwn(value, key));
    assert.ok(Object.hasOwn(value.texts, 33));
    assert.deepStrictEqual(value, before);
  } finally {
    for (const [of, key] of places) delete of[key];
  }
  assert.deepStrictEqual(decode(block), before);
});

test('keys that take the place of each other', () => {
  const key = (i, count) => `${i}-`.padEnd(count, 'k');
  const maps = Array.from({ length: 3000 }, (_, i) =>
    Object.fromEntries([1, 8, 31, 32, 33, 40].map((count) => [key(i % 1500, count), i])));
  const odd = Array.from({ length: 50 }, () => ({ '': 1, é: 2, __proto__x: 3, '0': 4 }));
  for (const value of [maps, odd, [...maps, ...odd]]) {
    const block = encode(value);
    assert.strictEqual(toHex(block), toHex(spelling(value)));
    for (let i = 0; i < 3; i++) assert.deepStrictEqual(decode(block), value);
  }
});

test('maps with many keys', () => {
  for (const count of [12, 13, 16, 17, 40, 128, 129, 300]) {
    const keys = Array.from({ length: count }, (_, i) => `k${(i * 7) % count}`);
    const map = (n) => Object.fromEntries(keys.map((key) => [key, n]));
    const maps = [0, 1, 2, 3, 4].map(map);
    const odd = { ...maps[0], [`${'long'.repeat(3000)}`]: 1, 7: 2, é: [maps[1]] };
    Object.defineProperty(odd, '__proto__', { value: 3, enumerable: true });
    for (const value of [maps, odd, [odd, maps, odd]]) {
      const block = encode(value);
      assert.strictEqual(toHex(block), toHex(spelling(value)));
      const read = decode(block);
      assert.strictEqual(toHex(spelling(read)), toHex(block));
      for (let i = 0; i < 2; i++) assert.deepStrictEqual(decode(block), read);
    }
  }
});

test('a read that is broken off', () => {
  const nested = (levels) => (levels ? { [`key${levels}`]: nested(levels - 1) } : 'the end');
  const blocks = [100, 50].map((levels) => encode(nested(levels)));
  let [broken, done] = [0, 0];
  const dive = () => {
    try {
      dive();
    } catch (error) {
      if (!(error instanceof RangeError)) throw error;
    }
    try {
      assert.strictEqual(Object.keys(decode(blocks[done % 2]))[0], `key${done % 2 ? 50 : 100}`);
      done += 1;
    } catch (error) {
      if (!(error instanceof RangeError)) throw error;
      broken += 1;
    }
  };
  dive();
  assert.ok(broken > 0 && done > 0);
  assert.deepStrictEqual(blocks.map(decode), [100, 50].map(nested));
});

test('blocks that are written in each other', () => {
  const inner = { get a() { return encode({ b: [1, 'x'.repeat(5000)] }); }, b: 1 };
  const failed = { get c() { try { return encode([[[NaN]]]); } catch (error) { return 2; } } };
  const block = encode([1, inner, failed, 3]);
  const [one, { a }, { c }, three] = decode(block);
  assert.deepStrictEqual([one, decode(a), c, three], [1, { b: [1, 'x'.repeat(5000)] }, 2, 3]);
  const failing = { a: 1, get b() { encode([{ z: [0, 0, 0] }]); return undefined; } };
  refuses(() => encode([0, { x: failing }]), 'Unsupported', [1, 'x', 'b']);
  const deep = (levels) => (levels ? [deep(levels - 1)] : { get a() { return encode(deep(0)); } });
  assert.throws(() => encode(deep(100)), RangeError); // without end
});

test('blocks stay as they went out', () => {
  const values = Array.from({ length: 2000 }, (_, i) => [i, 'é'.repeat(i % 700)]);
  const blocks = values.map((it) => [encode(it), toHex(spelling(it))]);
  for (const [block, text] of blocks) assert.strictEqual(toHex(block), text);
  const isPlain = ([block]) => Object.getPrototypeOf(block) === Uint8Array.prototype;
  assert.ok(blocks.every(isPlain));
  blocks[0][0].fill(255);
  for (const [block, text] of blocks.slice(1)) assert.strictEqual(toHex(block), text);
  const [small] = blocks[1];
  try {
    structuredClone(0, { transfer: [small.buffer] }); // what is shared is not transferred
  } catch (error) {
    assert.strictEqual(error.name, 'DataCloneError');
  }
  assert.strictEqual(toHex(encode([1])), '8101');
});

test('what is no Uint8Array of its own', () => {
  const shared = new Uint8Array(new SharedArrayBuffer(1));
  const buffer = new ArrayBuffer(1);
  const others = [buffer, new Int8Array(1), new DataView(buffer), undefined, null, 1, 'f6', [], {}];
  for (const given of [shared, ...others]) {
    for (const call of [check, decode, links, name, tape]) {
      assert.throws(() => call(given), TypeError);
    }
  }
  refuses(() => encode(shared), 'Unsupported');
  for (const call of [check, decode, links, tape]) refuses(() => call(new Uint8Array()), 'Eof');
  const gone = new Uint8Array(8);
  structuredClone(gone.buffer, { transfer: [gone.buffer] });
  refuses(() => decode(gone), 'Eof');
  assert.strictEqual(decode(new Uint8Array([1, 0x83, 1, 2, 3, 9]).subarray(1, 5)).length, 3);
});

test('CIDs', () => {
  for (const { bytes, verdict, variant, cid: binary, written: text } of vectorsOf('cid-texts')) {
    const given = bytes.toString();
    if (verdict === 'refused') {
      refuses(() => new CID(given), variant);
      continue;
    }
    const cid = new CID(given);
    assert.strictEqual(toHex(cid.bytes), binary);
    assert.strictEqual(String(new CID(cid.bytes)), text);
    assert.strictEqual(JSON.stringify({ cid }), `{"cid":{"/":"${text}"}}`);
    assert.ok(cid.equals(new CID(text)) && !cid.equals(text) && !cid.equals(name(Buffer.of())));
    assert.ok(decode(encode({ a: cid })).a.equals(cid));
    cid.bytes.fill(0);
    assert.strictEqual(String(cid), text);
  }
  for (const text of ['z'.repeat(5000), `b${'é'.repeat(200)}`]) {
    refuses(() => new CID(text), 'TooLong');
  }
  for (const text of ['é'.repeat(20), '\ud800']) refuses(() => new CID(text), 'UnknownBase');
  refuses(() => new CID('bafy\0'), 'InvalidCharacter');
  for (const bytes of ['', '01', '00'.repeat(36), '01711220', '01'.repeat(300)]) {
    refuses(() => new CID(hex(bytes)), 'InvalidCid');
  }
  for (const value of [undefined, null, 1, {}, []]) assert.throws(() => new CID(value), TypeError);
});

test('room of each size', () => {
  for (let count = 0; count < 140; count++) {
    for (const letter of ['a', 'é', '水', '𐅑']) {
      const text = letter.repeat(count);
      const value = { [text]: [text, text] };
      assert.deepStrictEqual(decode(encode(value)), value);
      assert.deepStrictEqual(decode(spelling(value)), value);
    }
    const list = Array(count).fill(count);
    const map = Object.fromEntries(list.map((_, i) => [`k${i}`, [i]]));
    assert.deepStrictEqual(decode(encode([list, map])), [list, map]);
  }
});

test('each thread has its own', async () => {
  const script = `
    const { parentPort } = require('worker_threads');
    const { CID, decode, encode, name } = require(${JSON.stringify(join(__dirname, '..'))});
    for (let i = 0; i < 1000; i++) {
      const [cid] = decode(encode([name(Buffer.of(i))]));
      if (!(cid instanceof CID)) throw new Error('another class');
    }
    parentPort.postMessage('done');`;
  const workers = [1, 2, 3].map(() => new Worker(script, { eval: true }));
  const answer = (it) => new Promise((done, fail) => it.once('message', done).once('error', fail));
  const said = await Promise.all(workers.map(answer));
  assert.deepStrictEqual(said, ['done', 'done', 'done']);
});

test('much and long', () => {
  const lists = [Array(300000).fill(0), Array(50000).fill('é'.repeat(100))];
  for (const value of [...lists, new Uint8Array(3e6).fill(1), '水'.repeat(1e6)]) {
    assert.deepStrictEqual(decode(encode(value)), value);
  }
  const map = Object.fromEntries(Array.from({ length: 100000 }, (_, i) => [`k${i}`, i]));
  assert.deepStrictEqual(decode(encode(map)), map);
});

test('long byte strings, which are put into the block alone', () => {
  const long = (size, byte = size & 255) => new Uint8Array(size).fill(byte);
  for (const size of [65534, 65535, 65536, 65537, 1 << 20]) {
    const one = long(size);
    const cid = name(one);
    const values = [
      one, [one], [one, one], [cid, one, 'é'.repeat(size % 97)], { a: one, '': [one, long(3), 1], é: cid },
      [[], one, {}, long(65536, 1), [long(65537, 2)], new Map([['x', long(65538, 3)]])],
      [Array(5000).fill('x'), one, Array(300).fill({ é: long(70000, 9) })[7], Buffer.from(one)],
    ];
    for (const value of values) {
      const plain = value.at?.(-1) instanceof Map ? [...value.slice(0, -1), Object.fromEntries(value.at(-1))] : value;
      const block = encode(value);
      assert.ok(Buffer.from(block).equals(spelling(plain)));
      assert.ok(Buffer.from(encode(decode(block))).equals(block));
      assert.strictEqual(block.buffer.byteLength, block.length); // of its own
      structuredClone(0, { transfer: [block.buffer] });
    }
  }
  const before = encode('short');
  encode([long(70000)]);
  assert.strictEqual(toHex(encode('other') && before), toHex(spelling('short')));
});

test('long byte strings that change', () => {
  const long = () => new Uint8Array(70000).fill(7);
  const changing = (change) => {
    const bytes = long();
    return { a: [bytes, { get b() { change(bytes); return 1; } }] };
  };
  const filled = decode(encode(changing((it) => it.fill(9)))).a[0]; // as it is when the block is made
  assert.ok(filled.length === 70000 && filled.every((it) => it === 9));
  const gone = (it) => structuredClone(it.buffer, { transfer: [it.buffer] });
  refuses(() => encode(changing(gone)), 'Unsupported', ['a', 0]);
  if (ArrayBuffer.prototype.resize) {
    const buffer = new ArrayBuffer(70000, { maxByteLength: 80000 });
    const shown = new Uint8Array(buffer);
    for (const size of [80000, 0, 69999]) {
      buffer.resize(70000);
      refuses(() => encode([1, shown, { get b() { buffer.resize(size); return 1; } }]), 'Unsupported', [1]);
    }
  }
  const inner = { get a() { return encode([long()]); }, b: long() };
  assert.strictEqual(decode(decode(encode(inner)).a)[0].length, 70000);
  refuses(() => encode([long(), 0.5]), 'Unsupported', [1]);
  refuses(() => encode([long(), { a: '\ud800' }]), 'RequireUtf8', [1, 'a']);
  const nested = (levels) => (levels ? [nested(levels - 1)] : [long()]);
  assert.strictEqual(encode(nested(126)).length, 127 + 70005);
  refuses(() => encode(nested(127)), 'DepthOverflow');
});

test('a value keeps no block alive', () => {
  const script = `
    const { decode, encode, name } = require(process.argv[1]);
    const texts = Array.from({ length: 1000 }, (_, i) => 'a text of some units ' + i);
    const block = encode({ texts, of: name(Buffer.of(1)), long: 'é'.repeat(50000), z: [1] });
    const before = (gc(), gc(), process.memoryUsage());
    const kept = [];
    for (let i = 0; i < 1000; i++) {
      const { texts, of, z } = decode(block);
      kept.push(texts[i], of, z);
    }
    gc(), gc();
    const now = process.memoryUsage();
    const more = now.heapUsed + now.arrayBuffers - before.heapUsed - before.arrayBuffers;
    if (more > 5e6) throw new Error('more by ' + more);
    if (kept[0] !== texts[0]) throw new Error(kept[0]);`;
  execFileSync(process.execPath, [...COLLECTING, '-e', script, join(__dirname, '..')], SILENT);
});

test('nothing is kept', () => {
  const script = `
    const { CID, decode, encode, links, name, check } = require(process.argv[1]);
    const leaves = [name(Buffer.of()), 2n ** 64n - 1n, 'é'.repeat(3000), Buffer.alloc(3000)];
    const many = Object.fromEntries(Array.from({ length: 100 }, (_, i) => ['k' + i, i]));
    const value = { a: leaves, b: { c: [] }, many };
    const round = () => {
      const block = encode(value);
      decode(block), links(block), check(block);
      const cut = block.slice(1);
      for (const call of [() => decode(cut), () => encode([value, 0.5]), () => new CID('z')]) {
        try { call(); throw 1; } catch (error) { if (error === 1) throw error; }
      }
    };
    const settle = () => {
      for (let i = 0; i < 2000; i++) round();
      gc(), gc();
      return process.memoryUsage.rss();
    };
    settle();
    const before = settle();
    for (let i = 0; i < 3; i++) settle();
    const more = settle() - before;
    if (more > 20e6) throw new Error('more by ' + more);`;
  execFileSync(process.execPath, [...COLLECTING, '-e', script, join(__dirname, '..')], SILENT);
});
