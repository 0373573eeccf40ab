// Tests the types made from schemas, in TypeScript, on the lines of schemas/examples/verdicts.py,
// which come on the input. The argument is the folder of what the compiler made.
'use strict';
const assert = require('node:assert');
const { readFileSync } = require('node:fs');
const { join, resolve } = require('node:path');

const folder = resolve(process.argv[2]);
const { DagCborError } = require(join(folder, '../node_modules/dagcbor'));

// Returns the block as it is written again, or the kind of the error and the path that it names.
const answer = (made, block) => {
  try {
    return Buffer.from(made.encode(made.decode(block))).toString('hex');
  } catch (error) {
    if (!(error instanceof DagCborError)) throw error;
    // A path if the bytes are a block of another shape; for other bytes the place of the refusal.
    const path = Array.isArray(error.place) ? error.place.join('/') || '-' : '-';
    assert.ok(error.message.startsWith(path === '-' ? '' : `${path}: `));
    return `${error.kind} ${path}`;
  }
};

const lines = readFileSync(0, 'ascii').trim().split('\n');
for (const line of lines) {
  const [schema, name, block, ...wanted] = line.split(' ');
  const made = require(join(folder, schema))[name];
  assert.strictEqual(answer(made, Buffer.from(block, 'hex')), wanted.join(' '), line);
}
assert.ok(lines.length > 50);

// No item stands after one that is left out, and what is not a member is not written.
const { Track } = require(join(folder, 'album'));
const { Embed, Empty, Point, Units } = require(join(folder, 'forms'));
const { StrongRef } = require(join(folder, 'atproto'));
const gap = { x: 0n, y: null, z: 0, counts: {}, tags: [], t: 1 };
const refusals = [
  [() => Point.encode(gap), 'Msg', [5]],
  [() => Embed.encode({ images: [] }), 'Msg', []],
  [() => Embed.encode({ kind: 'Images', value: { images: [gap] } }), 'Msg', ['images', 0, 5]],
  [() => Units.encode({ yes: false, nothing: null, empty: {} }), 'Msg', ['yes']],
  // A property of another name would be lost: one whose name is misspelt, for example.
  [() => Track.encode({ title: '', seconds: 1, notes: 'a' }), 'Msg', ['notes']],
  [() => Embed.encode({ kind: 'External', value: { uri: '', note: '' }, note: '' }), 'Msg', ['note']],
  [() => Embed.encode({ kind: 'External', value: { uri: '', note: '', notes: '' } }), 'Msg', ['notes']],
  [() => Empty.encode({ a: null }), 'Msg', ['a']],
  [() => Units.encode({ yes: true, nothing: null, empty: { ['__proto__']: 1 } }), 'Msg', ['empty', '__proto__']],
];
for (const [write, kind, place] of refusals) {
  assert.throws(write, (error) => {
    assert.deepStrictEqual([error.kind, error.place], [kind, place]);
    return error instanceof DagCborError;
  });
}
const track = { title: '', seconds: 1 };
assert.deepStrictEqual(Track.decode(Track.encode({ ...track, notes: undefined, [Symbol('a')]: 1 })), track);
const ref = { uri: 'u', cid: 'c' }; // of an open type
assert.deepStrictEqual(StrongRef.decode(StrongRef.encode({ ...ref, more: 1 })), ref);
console.log(`${lines.length} blocks`);
