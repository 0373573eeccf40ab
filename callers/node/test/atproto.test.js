// Repositories and events of the AT Protocol. What is expected of them is told by
// atproto_cases.py, and of streams by conformance/events.py.
'use strict';
const assert = require('node:assert');
const { execFileSync } = require('node:child_process');
const { generateKeyPairSync, sign, verify } = require('node:crypto');
const fs = require('node:fs');
const { tmpdir } = require('node:os');
const { join } = require('node:path');
const { Readable } = require('node:stream');
const { test } = require('node:test');
const { Worker } = require('node:worker_threads');
const { CID, CarReader, DagCborError, encode, name } = require('..');

const { addon, printed, python, skip } = require('./atproto_cases.js');

const package_ = join(__dirname, '..');
const judge = join(__dirname, '../../../conformance/events.py');
const atproto = skip ? {} : require('../atproto.js');
const { EventError, readEvent, readEvents, verifyEvent } = atproto;
const { readCommit, readRepo, recordProof } = atproto;

const [ROWS, FILES] = ['frames', 'repositories'].map(printed);
const GOOD = ROWS.filter(({ verified }) => verified);

const hex = (bytes) => Buffer.from(bytes).toString('hex');
const bytesOf = (text) => Uint8Array.from(Buffer.from(text, 'hex'));
const joined = (...parts) => Uint8Array.from(Buffer.concat(parts.map((it) => Buffer.from(it))));
const all = async (source) => {
  const found = [];
  for await (const it of source) found.push(it);
  return found;
};

// What is told, as the judge prints it.
const told = (value) => {
  if (value instanceof CID) return { cid: hex(value.bytes) };
  if (value instanceof Uint8Array) return hex(value);
  if (value instanceof Map) return Array.from(value, ([key, it]) => [hex(keyOf(key)), told(it)]);
  if (Array.isArray(value)) return value.map(told);
  if (typeof value !== 'object' || value === null) return value;
  return Object.fromEntries(Object.entries(value).map(([key, it]) => [key, told(it)]));
};

// The bytes of a key, of which some are no UTF-8.
const keyOf = (key) => Buffer.concat(Array.from(key, (it) => {
  const byte = it.charCodeAt(0) - 0xdc00;
  return it.length === 1 && byte >= 0x80 && byte <= 0xff ? Buffer.of(byte) : Buffer.from(it);
}));

const shared = (size) => new Uint8Array(new SharedArrayBuffer(size));
const knownOf = ({ root, rev }) => ({ root: new CID(bytesOf(root)), rev });
const refused = (call, kinds, node) => assert.throws(call, (error) => {
  assert.ok(error instanceof EventError && error instanceof DagCborError, error);
  assert.ok([kinds].flat().includes(error.kind), `${error.kind}, and not ${kinds}`);
  assert.deepStrictEqual([error.name, error.place], ['EventError', undefined]);
  assert.strictEqual(error.node && hex(error.node.bytes), node);
  assert.doesNotMatch(error.message, /^refused: /);
  return true;
});

// The words of the judge.
const KINDS = {
  big: 'TooBig', rebase: 'Rebase', after: 'NotAfter', known: 'OtherRoot', form: 'OtherForm',
  car: 'NoCar', root: 'OtherCommit', commit: 'NoCommit', repository: 'OtherRepository',
  revision: 'OtherRevision', before: 'LeadsElsewhere', missing: 'MissingNode', bytes: 'OtherBytes',
  state: 'OtherState', shape: ['OtherTree', 'NoNode', 'KeyLength'],
};

test('frames are judged', { skip }, () => {
  assert.ok(GOOD.length >= 30 && ROWS.length - GOOD.length >= 200);
  for (const row of ROWS) {
    const [frame, known] = [bytesOf(row.frame), knownOf(row)];
    const [word, node] = row.verdict.split(' ');
    if (word !== 'ok') refused(() => verifyEvent(frame, known), KINDS[word], node);
    else assert.deepStrictEqual(told(verifyEvent(frame, known)), row.verified, row.what);
  }
});

test('what is known', { skip }, () => {
  for (const row of GOOD) {
    const [frame, known] = [bytesOf(row.frame), knownOf(row)];
    const [event, rest] = readEvent(frame);
    assert.ok(event instanceof atproto.CommitEvent && event instanceof atproto.Frame);
    assert.deepStrictEqual([hex(event.frame), rest.length], [row.frame, 0]);
    const verified = verifyEvent(event, known);
    assert.deepStrictEqual(told(verified), row.verified);
    for (const none of [undefined, null]) {
      if (event.prevData) assert.deepStrictEqual(verifyEvent(event, none), verified);
      else refused(() => verifyEvent(event, none), 'NoRoot');
    }
    const { root } = verified.known;
    if (event.prevData) refused(() => verifyEvent(event, { root, rev: '3k' }), 'OtherRoot');
    refused(() => verifyEvent(event, { ...known, rev: event.rev }), 'NotAfter');
    refused(() => verifyEvent(event, verified.known), 'NotAfter');
  }
});

test('what is known and is none', { skip }, () => {
  const [row] = GOOD;
  const [frame, { root, rev }] = [bytesOf(row.frame), knownOf(row)];
  const foreign = { bytes: root.bytes, asCID: null };
  for (const it of [structuredClone(root), foreign, root.bytes, bytesOf(row.root)]) {
    assert.deepStrictEqual(told(verifyEvent(frame, { root: it, rev })), row.verified);
  }
  for (const it of [[], [1, 0x71], joined(root.bytes, [0]), new Uint8Array(1 << 20)]) {
    refused(() => verifyEvent(frame, { root: { bytes: Uint8Array.from(it) }, rev }), 'NoKnown');
  }
  for (const it of ['\ud800', 'a\udc80', '3k\udfff'.repeat(1 << 16)]) {
    refused(() => verifyEvent(frame, { root, rev: it }), 'NoKnown');
  }
  refused(() => verifyEvent(frame, { root, rev: 'z'.repeat(1 << 20) }), 'NotAfter');
  for (const it of [undefined, null, 5, String(root), { bytes: [1] }, shared(36)]) {
    assert.throws(() => verifyEvent(frame, { root: it, rev }), TypeError);
  }
  for (const it of [{}, { root }, { root, rev: 1 }, 5, 'text']) {
    assert.throws(() => verifyEvent(frame, it), TypeError);
  }
});

test('a commit as it is told', { skip }, async () => {
  for (const row of ROWS) {
    const frame = bytesOf(row.frame);
    const [event, rest] = readEvent(joined(frame, [0xf6]));
    assert.deepStrictEqual(told(event), { ...row.event, frame: row.frame }, row.what);
    assert.deepStrictEqual(rest, Uint8Array.of(0xf6));
  }
  const [event] = readEvent(bytesOf(GOOD[3].frame));
  const [root] = await (await CarReader.fromBytes(event.blocks)).getRoots();
  assert.ok(root.equals(event.commit) && Object.isFrozen(event));
  const clone = structuredClone({ frame: event.frame });
  assert.deepStrictEqual(told(verifyEvent(clone, knownOf(GOOD[3]))), GOOD[3].verified);
});

const frameOf = (kind, body) => joined(encode({ op: 1, t: kind }), encode(body));
const [did, time] = ['did:plc:abc', '2026-01-01T00:00:00Z'];
const large = { seq: 2n ** 63n - 1n, did, time };
const sync = { seq: 1, did, rev: '3k', blocks: Uint8Array.of(1, 2), time };
const gone = { seq: 4, did, active: false, status: 'takendown', time };
const named = { seq: 3, did, handle: 'a.example', time };
const ended = { error: 'FutureCursor', message: 'no' };
const OTHERS = skip ? [] : [
  [atproto.SyncEvent, frameOf('#sync', sync), { ...sync, blocks: '0102' }],
  [atproto.IdentityEvent, frameOf('#identity', { seq: 2, did, time }),
    { seq: 2, did, handle: null, time }],
  [atproto.IdentityEvent, frameOf('#identity', named), named],
  [atproto.AccountEvent, frameOf('#account', gone), gone],
  [atproto.InfoEvent, frameOf('#info', { name: 'a' }), { name: 'a', message: null }],
  [atproto.StreamError, joined(encode({ op: -1 }), encode(ended)), ended],
  [atproto.OtherEvent, frameOf('#new', { it: [1] }), { name: '#new', body: { it: [1] } }],
];

test('other kinds', { skip }, () => {
  for (const [Event, frame, fields] of OTHERS) {
    const [event, rest] = readEvent(joined(frame, [0]));
    assert.strictEqual(event.constructor, Event);
    assert.deepStrictEqual(told(event), { ...fields, frame: hex(frame) });
    assert.deepStrictEqual(rest, Uint8Array.of(0));
    for (const it of [frame, event]) refused(() => verifyEvent(it), 'NoCommitFrame');
  }
  assert.strictEqual(readEvent(frameOf('#identity', large))[0].seq, 2n ** 63n - 1n);
});

test('what is no frame', { skip }, async () => {
  const none = [
    ['NoEnd', []], ['NoEnd', [0xa0]], ['NoEnd', bytesOf(GOOD[0].frame).subarray(0, -1)],
    ['NoHeader', [0xf6, 0xf6]], ['NoHeader', joined(encode({ t: '#info' }), [0xf6])],
    ['OtherOperation', joined(encode({ op: 2 }), [0xf6])],
    ['NoKind', joined(encode({ op: 1 }), [0xf6])], ['NoBody', frameOf('#info', null)],
    ['NoBody', frameOf('#commit', { seq: 1 })],
    ['NoBody', joined(encode({ op: 1, t: '#new' }), [0xa1, 1, 1])],
  ];
  for (const [kind, given] of none) {
    const frame = Uint8Array.from(given);
    for (const call of [readEvent, verifyEvent]) refused(() => call(frame), kind);
    const read = all(readEvents([bytesOf(GOOD[0].frame), frame]));
    if (frame.length) await assert.rejects(read, { name: 'EventError', kind });
    else assert.strictEqual((await read).length, 1);
  }
});

// Pieces that grow by a byte, in one memory that is written again.
const growing = async function* (bytes) {
  const memory = new Uint8Array(bytes.length);
  for (let [at, size] = [0, 0]; at < bytes.length; at += size++) {
    const piece = bytes.subarray(at, at + size);
    memory.fill(0xff).set(piece);
    yield memory.subarray(0, piece.length);
  }
};

test('streams', { skip }, async () => {
  const long = [1 << 20, 9 << 20].map((size) => frameOf('#new', { long: new Uint8Array(size) }));
  const others = OTHERS.map(([, frame]) => frame);
  const frames = [...ROWS.map((it) => bytesOf(it.frame)), ...others, ...long];
  const stream = joined(...frames);
  const folder = fs.mkdtempSync(join(tmpdir(), 'frames-'));
  const path = join(folder, 'frames');
  fs.writeFileSync(path, stream);
  const sources = [stream, Buffer.from(stream), frames, [stream], Readable.from(frames)];
  try {
    for (const source of [...sources, fs.createReadStream(path)]) {
      const found = await all(readEvents(source));
      assert.deepStrictEqual(found.map((it) => hex(it.frame)), frames.map(hex));
    }
    const begun = fs.createReadStream(path);
    for await (const event of readEvents(begun)) if (event.frame.length > 1000) break;
    assert.ok(begun.destroyed);
  } finally {
    fs.rmSync(folder, { recursive: true });
  }
  const found = [];
  await assert.rejects(async () => {
    const read = readEvents(growing(stream.subarray(0, 300000)));
    for await (const it of read) found.push(hex(it.frame));
  }, { kind: 'NoEnd' });
  assert.deepStrictEqual(found, frames.map(hex).slice(0, found.length));
  assert.ok(found.length > 50);
  for (const none of [[], new Uint8Array(), [new Uint8Array()]]) {
    assert.deepStrictEqual(await all(readEvents(none)), []);
  }
});

test('a stream that goes on tells each frame when it is there', { skip }, async () => {
  const [first, second] = [GOOD[0], GOOD[1]].map((it) => bytesOf(it.frame));
  let given = 0;
  const source = async function* () {
    for (const it of [first.subarray(0, 9), first.subarray(9), second]) {
      given += 1;
      yield it;
    }
  };
  const read = readEvents(source());
  assert.strictEqual(hex((await read.next()).value.frame), hex(first));
  assert.strictEqual(given, 2);
  await read.return();
  const lost = async function* () { throw new Error('lost'); };
  await assert.rejects(all(readEvents(Readable.from(lost()))), /^Error: lost$/);
});

// As `dagcar event` has it in its lines.
const word = (text) => Buffer.from(text).toString('latin1').replace(/[^!-$&-~]/g, (it) =>
  `%${hex(Buffer.from(it, 'latin1')).toUpperCase()}`);
const done = ({ key, old, new: now }) => {
  const said = !old ? 'created' : now ? 'updated' : 'deleted';
  return [said, word(key), ...[old, now].filter(Boolean).map(String)].join(' ');
};

// The lines of an event, or what is told of it.
const linesOf = (event, known) => {
  const { did: of, rev, active, status } = event;
  switch (event.constructor) {
    case atproto.CommitEvent: {
      const verified = verifyEvent(event, known.get(event.repo));
      known.set(event.repo, verified.known);
      return [`commit ${word(verified.did)} ${word(verified.rev)}`, ...verified.changes.map(done)];
    }
    case atproto.SyncEvent: return known.delete(of), [`sync ${word(of)} ${word(rev)}`];
    case atproto.IdentityEvent: return [`identity ${word(of)}`];
    case atproto.AccountEvent: {
      const more = status === null ? '' : ` ${word(status)}`;
      return [`account ${word(of)} ${active ? 'active' : `inactive${more}`}`];
    }
    case atproto.InfoEvent: return [`info ${word(event.name)}`];
    case atproto.StreamError: throw new Error(`the host ends the stream: ${event.error}`);
    default: throw new Error(`a kind that is not known: ${event.name}`);
  }
};

const saidOf = async (stream) => {
  const known = new Map();
  let [said, lines, count, place] = ['', '', 0, 0];
  const fault = ({ message }) => { lines += `frame ${count} at byte ${place}: ${message}\n`; };
  try {
    for await (const event of readEvents(stream)) {
      count += 1;
      try {
        said += linesOf(event, known).map((it) => `${it}\n`).join('');
      } catch (error) {
        fault(error);
      }
      place += event.frame.length;
    }
  } catch (error) {
    count += 1;
    if (error.kind !== 'NoEnd') return { said, lines, isPart: true };
    fault(error);
  }
  return { said, lines, isPart: false };
};

test('streams as the judge tells them', { skip }, async () => {
  const folder = fs.mkdtempSync(join(tmpdir(), 'streams-'));
  const textOf = (path) => fs.readFileSync(join(folder, path), 'utf8');
  try {
    execFileSync(python, [judge, 'write', folder]);
    const paths = fs.readdirSync(folder).filter((it) => it.endsWith('.frames'));
    assert.ok(paths.length >= 13);
    for (const path of paths) {
      const found = await saidOf(fs.createReadStream(join(folder, path)));
      const [said, lines] = ['said', 'told'].map((it) => textOf(path.replace('frames', it)));
      // The program goes on after bytes that are not a frame.
      assert.ok(said.startsWith(found.said) && lines.startsWith(found.lines), path);
      if (!found.isPart) assert.deepStrictEqual(found, { said, lines, isPart: false }, path);
    }
  } finally {
    fs.rmSync(folder, { recursive: true });
  }
});

test('repositories', { skip }, async () => {
  const sound = FILES.filter(({ commit }) => commit);
  assert.ok(sound.length >= 45);
  for (const { what, file, commit, records, key, proof } of sound) {
    const [bytes, { cid, ...fields }] = [bytesOf(file), commit];
    const repo = await readRepo(bytes);
    assert.deepStrictEqual(told(repo), { ...fields, records }, what);
    assert.deepStrictEqual(told(await readCommit(growing(bytes))), { cid, ...fields }, what);
    assert.strictEqual(hex(await recordProof(bytes, bytesOf(key))), proof, what);
    assert.deepStrictEqual(await readCommit(bytesOf(proof)), await readCommit(bytes));
    assert.ok(Object.isFrozen(repo) && repo.records instanceof Map);
  }
});

const isLine = (said) => (error) => {
  assert.ok(error instanceof DagCborError && !(error instanceof EventError), error);
  assert.deepStrictEqual([error.kind, error.place], [undefined, undefined]);
  const is = error.message.includes(said) && !error.message.includes('\n');
  assert.ok(is, `${error.message}, and not ${said}`);
  return true;
};

test('what is no repository', { skip }, async () => {
  const none = FILES.filter(({ said }) => said);
  assert.ok(none.length >= 20);
  for (const { file, key, said } of none) {
    const call = key ? recordProof(bytesOf(file), bytesOf(key)) : readRepo(bytesOf(file));
    await assert.rejects(call, isLine(said));
  }
  const whole = bytesOf(FILES[3].file);
  for (const call of [readRepo, readCommit, (it) => recordProof(it, 'a')]) {
    for (const it of [[], new Uint8Array(), whole.subarray(0, -1)]) {
      await assert.rejects(call(it), isLine('refused Truncated'));
    }
    const others = [5, null, undefined, {}, 'text', [1], [null], new Uint16Array(1)];
    for (const it of [...others, new ArrayBuffer(9), shared(9), shared(0), [shared(1)]]) {
      await assert.rejects(call(it), TypeError);
    }
    const lost = (async function* () { yield whole; throw new Error('lost'); })();
    await assert.rejects(call(lost), /^Error: lost$/);
  }
  for (let at = 0; at < whole.length; at += 97) {
    const damaged = whole.slice();
    damaged[at] ^= 1;
    await assert.rejects(readRepo(damaged), DagCborError);
  }
});

test('keys', { skip }, async () => {
  const { file, records } = FILES.find(({ what }) => what === 'keys that are no text');
  const bytes = bytesOf(file);
  const repo = await readRepo(bytes);
  assert.deepStrictEqual([...repo.records.keys()], ['\0', '\udc80', 'é/ü', '😀', '\udcff/a']);
  assert.deepStrictEqual(told(repo.records), records);
  for (const [key, cid] of repo.records) { // whose record is not there, and the key is found
    for (const it of [key, keyOf(key)]) {
      await assert.rejects(recordProof(bytes, it), isLine(`missing ${cid} dag-cbor`));
    }
  }
  for (const key of ['', 'none', 'a'.repeat(1025), 'a'.repeat(1 << 20), new Uint8Array(1 << 20)]) {
    const proof = await recordProof(bytes, key);
    assert.deepStrictEqual(await readCommit(proof), await readCommit(bytes));
  }
  for (const key of ['\ud800', 'a\udc00', '\udc7f']) {
    await assert.rejects(recordProof(bytes, key), { kind: 'RequireUtf8' });
  }
  for (const key of [undefined, null, 5, ['a'], shared(1)]) {
    await assert.rejects(recordProof(bytes, key), TypeError);
  }
});

const varint = (n) => (n < 128 ? [n] : [(n % 128) + 128, ...varint(Math.floor(n / 128))]);
const counted = (...parts) => joined(varint(joined(...parts).length), ...parts);

test('a signature, which the crypto of Node checks', { skip }, async () => {
  const unsigned = { did, version: 3, data: name(encode(null)), rev: '3k', prev: null };
  const by = (key) => ({ key, dsaEncoding: 'ieee-p1363' });
  for (const namedCurve of ['P-256', 'secp256k1']) {
    const { privateKey, publicKey } = generateKeyPairSync('ec', { namedCurve });
    const sig = Uint8Array.from(sign('sha256', encode(unsigned), by(privateKey)));
    const block = encode({ ...unsigned, sig });
    const cid = name(block);
    const file = joined(counted(encode({ roots: [cid], version: 1 })), counted(cid.bytes, block));
    const { version, ...fields } = unsigned;
    const commit = await readCommit(file);
    assert.deepStrictEqual(told(commit), told({ ...fields, cid, sig, signed: encode(unsigned) }));
    assert.ok(verify('sha256', commit.signed, by(publicKey), commit.sig));
    commit.signed[9] ^= 1;
    assert.ok(!verify('sha256', commit.signed, by(publicKey), commit.sig));
  }
});

test('bytes that are others meanwhile', { skip }, async () => {
  const detached = (bytes) => (structuredClone(bytes.buffer, { transfer: [bytes.buffer] }), bytes);
  const [frame, file] = [bytesOf(GOOD[0].frame), bytesOf(FILES[3].file)];
  refused(() => readEvent(detached(frame.slice())), 'NoEnd');
  refused(() => verifyEvent(detached(frame.slice())), 'NoEnd');
  refused(() => verifyEvent(frame, { root: detached(Uint8Array.of(1)), rev: '3k' }), 'NoKnown');
  await assert.rejects(readRepo(detached(file.slice())), isLine('refused Truncated'));
  assert.deepStrictEqual(await all(readEvents(detached(frame.slice()))), []);
  // Once the last piece is taken the file may be written, and let go.
  const given = file.slice();
  const key = Uint8Array.of(0x61);
  const made = [readRepo([given]), readCommit([given]), recordProof([given], key)];
  key.fill(0xff);
  await new Promise(setImmediate);
  detached(given.fill(0));
  const wanted = [await readRepo(file), await readCommit(file), await recordProof(file, 'a')];
  assert.deepStrictEqual(await Promise.all(made), wanted);
  // An event is a copy, and the rest lies over the same memory.
  const twice = joined(frame, frame);
  const [event, rest] = readEvent(twice);
  twice.fill(0);
  assert.deepStrictEqual([hex(event.frame), rest.buffer === twice.buffer], [hex(frame), true]);
  // What claims to be bytes.
  const shown = new Proxy(frame, {});
  const none = [shown, { frame: shown }, { frame: [1] }, new DataView(frame.buffer), shared(9)];
  for (const it of [...none, 'text', 5, null, undefined]) {
    assert.throws(() => verifyEvent(it), TypeError);
    assert.throws(() => readEvent(it), TypeError);
  }
  for (const it of ['text', 5, null, undefined, shown, {}]) {
    await assert.rejects(async () => all(readEvents(it)), TypeError);
  }
  class Own extends Uint8Array {
    get length() { return 1 << 30; }
    slice() { throw new Error('asked'); }
    subarray() { throw new Error('asked'); }
  }
  const own = new Own(frame.buffer.slice(0));
  assert.strictEqual(hex(readEvent(own)[0].frame), hex(frame));
  assert.deepStrictEqual(told(verifyEvent(own, knownOf(GOOD[0]))), GOOD[0].verified);
});

test('a byte that is another', { skip }, () => {
  const row = GOOD[5];
  const frame = bytesOf(row.frame);
  for (let at = 0; at < frame.length; at += 3) {
    const damaged = frame.slice();
    damaged[at] ^= 1;
    try {
      assert.deepStrictEqual(told(verifyEvent(damaged, knownOf(row))), row.verified);
    } catch (error) {
      assert.ok(error instanceof EventError, error);
    }
  }
});

// What a script in a thread of its own posts.
const posted = (script) => new Promise((done, fail) => {
  const head = `
    const { readEvent, readRepo } = require(${JSON.stringify(join(package_, 'atproto.js'))});
    const { parentPort, workerData } = require('worker_threads');
    const [frame, file] = workerData.map((it) => Buffer.from(it, 'hex'));
  `;
  const workerData = [GOOD[0].frame, FILES[3].file];
  const worker = new Worker(head + script, { eval: true, workerData });
  worker.once('message', (it) => worker.terminate().then(() => done(it)));
  worker.once('error', fail);
});

test('threads', { skip }, async () => {
  const { commit, file } = FILES[3];
  const many = await Promise.all(Array.from({ length: 20 }, () => readRepo(bytesOf(file))));
  for (const it of many) assert.strictEqual(it.did, commit.did);
  const ask = 'readRepo(file).then(({ did }) => parentPort.postMessage(did));';
  for (const it of await Promise.all(Array.from({ length: 4 }, () => posted(ask)))) {
    assert.strictEqual(it, commit.did);
  }
  // Threads that end while files are read.
  await Promise.all(Array.from({ length: 8 }, () => posted(`
    for (let i = 0; i < 50; i++) readRepo(file);
    setImmediate(() => parentPort.postMessage(0));`)));
  // A stack that is nearly taken: that is told, and nothing is overrun.
  const said = await posted(`
    const found = new Set();
    const deep = () => {
      try { readEvent(frame); found.add('read'); } catch ({ message }) { found.add(message); }
      deep();
    };
    try { deep(); } catch { parentPort.postMessage([...found]); }`);
  assert.deepStrictEqual(said.slice(0, 2), ['read', 'a frame is read with 1 MB of the stack left']);
});

test('a package that has no library that takes memory', () => {
  const folder = fs.mkdtempSync(join(tmpdir(), 'package-'));
  try {
    const made = join(folder, 'callers/node');
    const others = (path) => path !== addon && !/[/](test|node_modules)$/.test(path);
    fs.cpSync(package_, made, { recursive: true, filter: others });
    const script = `
      const { decode } = require(${JSON.stringify(made)});
      if (decode(Uint8Array.of(5)) !== 5) process.exit(1);
      try {
        require(${JSON.stringify(join(made, 'atproto.js'))});
      } catch ({ message }) {
        console.log(message);
      }`;
    const said = execFileSync(process.execPath, ['-e', script], { encoding: 'utf8' });
    assert.match(said, /^there is no addon of dagcbor.atproto for .*: .*DAGCBOR_MEMORY_LIBRARY names\n$/);
  } finally {
    fs.rmSync(folder, { recursive: true });
  }
});
