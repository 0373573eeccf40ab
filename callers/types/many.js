// Types with more than the prover takes, from large.ipldsch and others.ipldsch beside this file: each is written and read again,
// and what holds itself is refused. The argument is the folder of what the compiler made.
'use strict';
const assert = require('node:assert');
const { join, resolve } = require('node:path');

const folder = resolve(process.argv[2]);
const { decode } = require(join(folder, '../node_modules/dagcbor'));
const { Row, Pairs, Implied, Told } = require(join(folder, 'large'));
const { Id, Name, Person, Tree, Wrapped } = require(join(folder, 'others'));

const names = (letter, count) => Array.from({ length: count }, (_, i) => `${letter}${i}`);
const numbered = (keys) => Object.fromEntries(keys.map((key, i) => [key, BigInt(i)]));
const deep = (part) => [[part]];
const keys = [...names('a', 10), ...names('b', 6)];
const told = { kind: 'OneOf', value: numbered(names('c', 8)) };
const rows = [
  [Row, { ...numbered(keys), b6: deep(5n) }, [...keys.keys(), deep(5)]],
  [Pairs, { ...numbered(['a', 'b', 'c', 'd']), e: deep(5n) },
    [['a', 0], ['b', 1], ['c', 2], ['d', 3], ['e', deep(5)]]],
  [Implied, numbered(keys), Object.fromEntries(keys.map((key, i) => [key, i]).slice(2))],
  [Told, told, { t: 'x', ...Object.fromEntries(names('c', 8).map((key, i) => [key, i])) }],
];
for (const [made, value, wanted] of rows) {
  const block = made.encode(value);
  // `a0` and `a1` are what is meant if they are left out.
  assert.deepStrictEqual(decode(block), wanted);
  assert.deepStrictEqual(made.decode(block), value);
}
assert.throws(() => Row.encode({ ...numbered(keys), b6: deep('5') }), { name: 'DagCborError' });
// What has been rounded already, as `encode` has it.
const rounded = { name: 'DagCborError', kind: 'CastOverflow', place: [0] };
assert.throws(() => Row.encode({ ...numbered(keys), a0: 2 ** 53, b6: deep(5) }), rounded);

const name = (first, value) => ({ first, side: 'Left', last: { kind: 'String', value } });
assert.strictEqual(Buffer.from(Name.encode(name('a', 'b'))).toString(), 'ha/l/id:b');
const pair = { kind: 'Pair', value: { one: 'a.', two: 'b' } };
for (const write of [() => Name.encode(name('a/b', 'b')), () => Name.encode(name('a', 'b/')), () => Id.encode(pair)]) {
  assert.throws(write, { name: 'DagCborError', kind: 'Msg', place: [] });
}

const nested = (levels) => {
  let tree = [];
  for (let i = 1; i < levels; i++) tree = [tree];
  return tree;
};
const around = (count, ...steps) => Array.from({ length: count }, () => steps).flat();
const tree = [{}];
tree[0].a = tree;
const ann = { name: '', friends: [], boss: { name: '', friends: [] } };
ann.boss.friends.push(ann);
const wrapped = { kind: 'Wrapped' };
wrapped.value = wrapped;
const endless = [
  [Tree, tree, [...around(63, 0, 'a'), 0]],
  [Person, ann, [...around(42, 'boss', 'friends', 0), 'boss']],
  [Wrapped, wrapped, around(127, 'data')],
  [Tree, nested(129), around(127, 0)],
  [Tree, nested(1e4), around(127, 0)],
];
for (const [made, value, place] of endless) {
  assert.throws(() => made.encode(value), { name: 'DagCborError', kind: 'DepthOverflow', place });
}
assert.deepStrictEqual(Tree.decode(Tree.encode(nested(128))), nested(128));
for (const count of [128, 1e5]) {
  const block = Buffer.from([...around(count, 0x81), 0x80]);
  assert.throws(() => Tree.decode(block), { name: 'DagCborError', kind: 'DepthOverflow' });
}
