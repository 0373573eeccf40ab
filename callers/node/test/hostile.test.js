// Values that do what they can: each is refused by an error with a name, or written as what was read
// of it once.
'use strict';
const assert = require('node:assert');
const { execFileSync } = require('node:child_process');
const { join } = require('node:path');
const { test } = require('node:test');
const vm = require('node:vm');
const { CID, CarReader, CarWriter, DagCborError, decode, encode, name, resolve, verify } = require('..');
const { spelling } = require('./plain.js');

const hex = (bytes) => Buffer.from(bytes).toString('hex');
const cid = name(Buffer.of(5));
const written = (value, as) => assert.strictEqual(hex(encode(value)), hex(spelling(as)));
const refused = (value, kind = 'Unsupported', place = []) => assert.throws(() => encode(value), (error) => {
  assert.ok(error instanceof DagCborError, error);
  assert.deepStrictEqual([error.kind, error.place], [kind, place]);
  return true;
});

// Proxies that show `of` and hide nothing; that only look like something; that were revoked.
const shown = (of) => new Proxy(of, {});
const revoked = (of) => {
  const { proxy, revoke } = Proxy.revocable(of, {});
  revoke();
  return proxy;
};

test('proxies', () => {
  class Own { a = 1; }
  class Deep extends Map {}
  written(shown([1, shown({ a: shown([]) })]), [1, { a: [] }]);
  written(shown(Object.assign(Object.create(null), { b: 1, a: shown([2]) })), { a: [2], b: 1 });
  written(shown(vm.runInNewContext('({ a: [1] })')), { a: [1] });
  written(shown(vm.runInNewContext('[1, { b: 2 }]')), [1, { b: 2 }]);
  const none = [
    new Date(), new Map([['a', 1]]), new Deep(), new Set([1]), new WeakMap(), new Uint8Array([9]),
    Buffer.of(1), cid, new Own(), /a/, new Error('a'), Promise.resolve(), new ArrayBuffer(1),
    Object('a'), Object(1), Object(1n), new URL('a:b'), vm.runInNewContext('new Date()'),
    vm.runInNewContext('new Map([["a", 1]])'), vm.runInNewContext('new Uint8Array(1)'), () => 1,
    Object.create({ a: 1 }), Object.create(Date.prototype),
  ];
  for (const it of none) {
    refused([shown(it)], 'Unsupported', [0]);
    refused({ a: shown(shown(it)) }, 'Unsupported', ['a']);
  }
  for (const it of [[], {}, new Map(), new Date()]) assert.throws(() => encode([revoked(it)]), TypeError);
});

test('proxies that answer otherwise', () => {
  const own = { enumerable: true, configurable: true };
  const reads = [];
  const counting = new Proxy({}, {
    ownKeys: () => ['b', 'a'],
    getOwnPropertyDescriptor: (_, key) => ({ ...own, value: key }),
    get: (_, key) => reads.push(key),
  });
  written(counting, { b: 1, a: 2, ...{ a: 1, b: 2 } });
  assert.deepStrictEqual(reads, ['a', 'b']); // each once, in the order in which they are written
  // Other keys each time, as many that an engine would read the values by itself.
  let turn = 0;
  const turning = new Proxy({}, {
    ownKeys: () => Array.from({ length: 20 }, (_, i) => `${turn++ ? 'x' : 'k'}${String(i).padStart(2, 0)}`),
    getOwnPropertyDescriptor: () => ({ ...own, value: 0 }),
    get: (_, key) => key,
  });
  const keys = Array.from({ length: 20 }, (_, i) => `${i ? 'x' : 'k'}${String(i).padStart(2, 0)}`);
  written(turning, Object.fromEntries(keys.map((key) => [key, key])));
  // Lengths that are none, or that grow.
  const list = (length) => new Proxy([], { get: (_, key) => (key === 'length' ? length() : 7) });
  for (const it of [() => 3, () => 3.9, () => '3', () => 2 ** 32 + 3]) written(list(it), [7, 7, 7]);
  written(list(() => NaN), []);
  let length = 0;
  written(list(() => (length += 2)), [7, 7]);
  // Keys that are no texts.
  const symbols = { [Symbol('a')]: 1, b: 2 };
  written(symbols, { b: 2 });
  written(shown(symbols), { b: 2 });
  // What a trap throws comes through, and the next block is as it should be.
  for (const trap of ['ownKeys', 'getPrototypeOf', 'get']) {
    const failing = new Proxy({ a: 1 }, { [trap]() { throw new RangeError('mine'); } });
    assert.throws(() => encode([1, failing]), { name: 'RangeError', message: 'mine' });
    written([1, { a: 1 }], [1, { a: 1 }]);
  }
  // One that says that it is a CID, or bytes.
  const { bytes } = cid;
  const posing = new Proxy({}, { get: (_, key, self) => (key === 'asCID' ? self : bytes) });
  written(posing, {});
  const slashed = new Proxy({ '/': 1 }, { get: () => bytes });
  written(slashed, cid); // as `multiformats` tells one that lost its class
});

test('getters that change what they answer', () => {
  let n = 0;
  const counting = { get a() { return (n += 1); }, b: { get c() { return (n += 1); } } };
  written(counting, { a: 1, b: { c: 2 } });
  const turning = { get a() { return n++ % 2 ? [1] : { b: 'x' }; } };
  n = 0;
  written([turning, turning], [{ a: { b: 'x' } }, { a: [1] }]);
  const own = (count, extra) => {
    const made = {};
    for (let i = 0; i < count; i++) made[`k${String(i).padStart(3, '0')}`] = i;
    return Object.defineProperties(made, Object.getOwnPropertyDescriptors(extra(made)));
  };
  // One that goes, and one that comes in its place, by which others would get their neighbour's value.
  const shifting = own(9, (made) => ({
    get k000() { delete made.k001; Object.defineProperty(made, 'z', { enumerable: true }); return 0; },
  }));
  Object.defineProperty(shifting, 'z', { value: 'Z', configurable: true });
  assert.throws(() => encode(shifting), { name: 'DagCborError', kind: 'Unsupported' });
  // For few, some and many keys: one that goes is refused, one that comes is not written.
  for (const count of [2, 20, 200]) {
    const going = own(count, (made) => ({ get k000() { delete made.k001; return 1; } }));
    assert.throws(() => encode(going), { name: 'DagCborError', kind: 'Unsupported' });
    const hiding = own(count, (made) => ({
      get k000() { Object.defineProperty(made, 'k001', { enumerable: false }); return 0; },
    }));
    try {
      const block = encode(hiding);
      assert.strictEqual(Object.keys(decode(block)).length, count);
    } catch (error) {
      assert.strictEqual(error.kind, 'Unsupported');
    }
    const coming = own(count, (made) => ({ get k000() { made.z = 1; return 0; } }));
    written(coming, own(count, () => ({})));
  }
});

test('arrays that change', () => {
  const cut = [{ get a() { cut.length = 1; return 1; } }, 2, 3];
  refused(cut, 'Unsupported', [1]);
  const grown = [{ get a() { grown.push(1, 2, 3); return 1; } }, 2];
  written(grown, [{ a: 1 }, 2]);
  written(grown.slice(1), [2, 1, 2, 3]);
  refused([1, , 2], 'Unsupported', [1]);
  const holes = [];
  holes[3] = 1;
  refused(holes, 'Unsupported', [0]);
  const own = Object.assign([1, 2], { a: 3, toJSON: () => 'x', [Symbol.iterator]: () => [][Symbol.iterator]() });
  written(own, [1, 2]);
  class List extends Array {
    get [0]() { return 9; }
    *[Symbol.iterator]() { yield 8; }
    static get [Symbol.species]() { throw new Error('asked'); }
  }
  written(List.of(1, 2), [1, 2]);
  written(Object.setPrototypeOf([1], null), [1]);
  const getters = Object.defineProperty([0, 2], 0, { get: () => 'read' });
  written(getters, ['read', 2]);
  refused({ length: 1, 0: undefined }, 'Unsupported', ['0']);
  written({ length: 2, 0: 1 }, { length: 2, 0: 1 }); // no array
});

test('bytes that change', () => {
  const detach = (bytes) => structuredClone(bytes.buffer, { transfer: [bytes.buffer] });
  const detaching = (bytes) => ({ get a() { detach(bytes); return bytes; } });
  for (const count of [1, 100, 5000]) {
    const one = new Uint8Array(count).fill(7);
    written([one, detaching(one), one], [new Uint8Array(count).fill(7), { a: new Uint8Array() }, new Uint8Array()]);
  }
  if (ArrayBuffer.prototype.resize) {
    const buffer = new ArrayBuffer(8, { maxByteLength: 16 });
    const [all, front, behind] = [new Uint8Array(buffer), new Uint8Array(buffer, 0, 4), new Uint8Array(buffer, 4, 4)];
    const resize = (size) => ({ get a() { buffer.resize(size); return all; } });
    const zeros = (count) => new Uint8Array(count);
    written([all, resize(16), all, resize(2), front, behind], [
      zeros(8), { a: zeros(16) }, zeros(16), { a: zeros(2) }, zeros(0), zeros(0),
    ]);
    assert.deepStrictEqual(decode(new Uint8Array(new ArrayBuffer(1, { maxByteLength: 9 })).fill(0x60)), '');
  }
  class Odd extends Uint8Array {
    get length() { return 1e9; }
    get buffer() { throw new Error('asked'); }
    get byteLength() { return 1e9; }
    get byteOffset() { return -1; }
    *[Symbol.iterator]() { yield 1; }
    get [Symbol.toStringTag]() { return 'Array'; }
    slice() { throw new Error('asked'); }
    subarray() { throw new Error('asked'); }
    static get [Symbol.species]() { throw new Error('asked'); }
  }
  written(Odd.from([1, 2]), new Uint8Array([1, 2]));
  assert.deepStrictEqual(decode(Odd.from([0x82, 1, 0x41, 2])), [1, new Uint8Array([2])]);
  refused(new Uint8Array(new SharedArrayBuffer(1)));
});

test('the memory that blocks share is taken away', () => {
  for (let i = 0; i < 3; i++) {
    const block = encode({ a: i });
    assert.ok(new ReadableStream({ type: 'bytes', start: (it) => it.enqueue(block) }));
    assert.strictEqual(block.length, 0);
    written([i, 'x'.repeat(99)], [i, 'x'.repeat(99)]);
    assert.ok(new ReadableStream({ type: 'bytes', start: (it) => it.enqueue(encode(i)) }));
    written('x'.repeat(2000), 'x'.repeat(2000));
  }
});

test('classes, Maps and what they override', () => {
  class Own {
    static b = 1;
    #c = 2;
    a = 1;
    toJSON() { return this.#c; }
    [Symbol.toPrimitive]() { return 3; }
    get d() { return 4; }
    *[Symbol.iterator]() { yield 5; }
  }
  written(new Own(), { a: 1 });
  written({ toJSON: 1, valueOf: 2, then: 3 }, { toJSON: 1, valueOf: 2, then: 3 });
  refused({ toJSON() { return 1; } }, 'Unsupported', ['toJSON']);
  class Odd extends Map {
    entries() { throw new Error('asked'); }
    forEach() { throw new Error('asked'); }
    get size() { return 9; }
    get(key) { return key; }
    *[Symbol.iterator]() { yield ['x', 1]; }
    get [Symbol.toStringTag]() { return 'Object'; }
  }
  const map = new Odd();
  Map.prototype.set.call(map, 'b', 1).set('a', new Odd());
  written(map, { a: {}, b: 1 });
  written(Object.setPrototypeOf(new Map([['a', 1]]), Date.prototype), { a: 1 });
  const changing = new Map([['a', { get b() { changing.set('c', 1); changing.delete('d'); return 2; } }], ['d', 3]]);
  written(changing, { a: { b: 2 }, d: 3 }); // its entries were read before
  refused(new Map([[{ toString: () => 'a' }, 1]]), 'Mismatch');
  class Tagged { get [Symbol.toStringTag]() { return 'Tagged'; } }
  refused(new Tagged());
  const odd = { ['__proto__']: 1, constructor: 2, hasOwnProperty: 3 };
  written(odd, odd);
  written(Object.assign(Object.create(null), { ['__proto__']: 1 }), JSON.parse('{"__proto__":1}'));
  written(Object.freeze({ a: Object.freeze([1]) }), { a: [1] });
  written(Object.setPrototypeOf({ a: 1 }, { b: 2 }), { a: 1 });
});

test('objects that say that they are of no class', () => {
  refused([Object.setPrototypeOf(new Map([['a', 1]]), null)], 'Unsupported', [0]);
  for (const it of [new Date(), new Set([1]), Object(1), Object(1n), Object(true)]) {
    for (const above of [null, Object.prototype, { [Symbol.toStringTag]: 'Object' }]) {
      refused([Object.setPrototypeOf(it, above)], 'Unsupported', [0]);
    }
  }
});

test('the bytes of a CID that are written', async () => {
  const [good, evil] = [encode({ a: 'good' }), encode({ a: 'evil' })];
  const [named, other] = [name(good), name(evil)];
  const text = String(named);
  named.bytes.set(other.bytes);
  named.multihash.bytes.set(other.multihash.bytes);
  assert.strictEqual(verify(named, evil), 'other bytes');
  assert.strictEqual(verify(named, good), 'ok map');
  await assert.rejects(resolve(() => evil, named, 'a'), { kind: 'OtherBytes' });
  assert.strictEqual(await resolve(() => good, named, 'a'), 'good');
  const { writer } = CarWriter.create(named);
  await assert.rejects(writer.put({ cid: named, bytes: evil }), { kind: 'OtherBytes' });
  for (const it of [named.toV1(), named.toV1(), CID.createV1(0x71, named.multihash)]) {
    assert.strictEqual(String(it), text);
  }
  const plain = CID.createV1(0x70, named.multihash);
  plain.bytes.fill(0);
  assert.strictEqual(String(plain.toV0().toV1()), String(CID.createV1(0x70, named.multihash)));
});

test('numbers of CIDs', () => {
  const { multihash } = cid;
  for (const it of [undefined, NaN, Infinity, 113.5, '113', -1, 2 ** 53, null, 1n]) {
    assert.throws(() => CID.create(1, it, multihash), TypeError);
    assert.throws(() => CID.create(it, 113, multihash), TypeError);
  }
  assert.strictEqual(CID.create(1, 2 ** 53 - 1, multihash).code, 2 ** 53 - 1);
  const big = CID.decode(Uint8Array.of(1, 0x81, 0x80, 0x80, 0x80, 0x80, 0x80, 0x80, 0x90, 0x01, 0, 0));
  assert.ok(big.toV1().equals(big));
});

test('CIDs of others that change', () => {
  const [one, other] = [cid.bytes, name(Buffer.of(6)).bytes];
  let n = 0;
  const foreign = { get asCID() { return this; } };
  const turning = { __proto__: foreign, get bytes() { return n++ ? other : one; } };
  const block = hex(encode([turning]));
  assert.ok([cid, new CID(other)].some((it) => block === hex(spelling([it]))));
  for (const bytes of [undefined, 'x', [], new Uint8Array(), new Uint8Array(36), new Uint8Array(1e5)]) {
    try {
      const read = decode(encode([{ __proto__: foreign, bytes }]));
      assert.deepStrictEqual(read, [{ bytes }]); // what is no CID to `multiformats` either
      assert.ok(!(bytes instanceof Uint8Array));
    } catch (error) {
      assert.ok(error instanceof DagCborError, error);
    }
  }
  const five = Buffer.of(5);
  const own = name(five);
  own.bytes.fill(0);
  // Copies by their properties, as `postMessage` makes them, are the CID.
  for (const it of [{ ...own }, structuredClone(own), structuredClone(structuredClone(own))]) {
    written([it, { a: it }], [cid, { a: cid }]);
    assert.ok(cid.equals(it) && CID.asCID(it).equals(cid));
    assert.strictEqual(verify(it, five), 'ok integer');
    refused([{ ...it, more: 1 }], 'Unsupported', [0, 'binary']);
  }
  // Nothing else that has the name of that property is one, and no data is.
  for (const text of ['', 'a', String(cid)]) {
    written({ binary: text }, { binary: text });
    assert.strictEqual(CID.asCID({ binary: text }), null);
  }
  for (const odd of [Object('\u0100'), new Proxy(Object('a'), {}), { [Symbol.toStringTag]: 'String', valueOf: () => 'a' }, Object(1)]) {
    assert.strictEqual(CID.asCID({ binary: odd }), null);
    if (odd[Symbol.toStringTag] === undefined) refused({ binary: odd }, 'Unsupported', ['binary']);
  }
  assert.throws(() => encode({ binary: Object('a') }), { name: 'DagCborError', kind: 'Msg' });
});

test('what a file is written of', async () => {
  class Odd extends Uint8Array {
    get length() { return 3; }
    get byteLength() { return 3; }
  }
  const block = encode([1, 'x'.repeat(50)]);
  const [own, other] = [name(block).bytes, cid.bytes];
  let n = 0;
  const turning = { get bytes() { return n++ ? other : own; } };
  for (const of of [turning, { bytes: Odd.from(own) }]) {
    const { writer, out } = CarWriter.create();
    writer.put({ cid: of, bytes: Odd.from(block) });
    writer.close();
    const file = await CarReader.fromIterable(out);
    assert.deepStrictEqual((await file.get(name(block))).bytes, block);
  }
  const { writer } = CarWriter.create();
  for (const bytes of ['x', [1], new Uint16Array(1), new Uint8Array(new SharedArrayBuffer(1))]) {
    await assert.rejects(writer.put({ cid, bytes }), TypeError);
    await assert.rejects(writer.put({ cid: { bytes }, bytes: block }), TypeError);
  }
});

test('much, deep and without end', () => {
  const many = Object.fromEntries(Array.from({ length: 1e5 }, (_, i) => [`k${i}`, i]));
  const block = encode(many);
  assert.strictEqual(Object.keys(decode(block)).length, 1e5);
  assert.strictEqual(hex(encode(new Map(Object.entries(many)))), hex(block));
  const loop = { a: [] };
  loop.a.push(loop);
  refused(loop, 'DepthOverflow', Array.from({ length: 127 }, (_, i) => (i % 2 ? 0 : 'a')));
  const map = new Map();
  map.set('m', map);
  refused(map, 'DepthOverflow', Array(127).fill('m'));
  let deep = null;
  for (let i = 0; i < 128; i++) deep = [deep];
  refused(deep, 'DepthOverflow', Array(127).fill(0));
  written(deep[0], deep[0]);
  for (let i = 0; i < 1e5; i++) deep = [deep];
  refused(deep, 'DepthOverflow', Array(127).fill(0));
  const growing = { get a() { return { __proto__: growing, b: Object.getOwnPropertyDescriptor(growing, 'a').get() }; } };
  assert.throws(() => encode(growing), RangeError);
  const endless = new Proxy([], { get: (_, key) => (key === 'length' ? 1 : endless) });
  refused(endless, 'DepthOverflow', Array(127).fill(0));
  written([1], [1]);
});

test('what others did to the language', () => {
  const script = `
    'use strict';
    const { encode, decode, name } = require(process.argv[1]);
    const cid = name(Buffer.of(5));
    const value = { b: [1, 'é', 'x'.repeat(99)], a: new Map([['k', cid]]), c: Buffer.of(1), ['k'.repeat(9)]: 1 };
    for (let i = 0; i < 20; i++) value['key' + i] = i;
    const wanted = Buffer.from(encode(value)).toString('hex');
    const fail = () => { process.exitCode = 1; throw new Error('asked'); };
    for (const of of [Map.prototype, Uint8Array.prototype, Object.getPrototypeOf(Uint8Array.prototype)]) {
      for (const key of Reflect.ownKeys(of)) {
        const { configurable, value } = Object.getOwnPropertyDescriptor(of, key);
        if (configurable && typeof value === 'function' && !['constructor', 'set', 'slice', 'subarray', 'copyWithin', 'forEach', 'get', 'fill'].includes(key)) {
          Object.defineProperty(of, key, { value: fail });
        }
      }
    }
    Object.defineProperty(Object.prototype, 'key7', { set: fail, configurable: true });
    Object.prototype.enumerable = 1; Object.prototype.get = fail; Object.prototype.value = 2;
    const block = encode(value);
    let found = '';
    for (let i = 0; i < block.length; i++) found += block[i].toString(16).padStart(2, '0');
    if (found !== wanted) throw new Error('another block');
    if (decode(block).key7 !== 7) throw new Error('another value');`;
  execFileSync(process.execPath, ['-e', script, join(__dirname, '..')], { stdio: ['ignore', 'ignore', 'inherit'] });
});
