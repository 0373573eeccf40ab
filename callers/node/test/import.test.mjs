// Each name of the types is there by import, and is that of require.
import assert from 'node:assert';
import { existsSync, readFileSync } from 'node:fs';
import { createRequire } from 'node:module';
import { test } from 'node:test';
import * as dagcbor from 'dagcbor';
import * as codec from 'dagcbor/codec';
import * as store from 'dagcbor/store';
import { CID, CarIndexer, DagCborError, checkCar, decode, encode, verify } from 'dagcbor';

const require = createRequire(import.meta.url);
const namesIn = (types) => {
  const text = readFileSync(new URL(`../${types}`, import.meta.url), 'utf8');
  const found = text.matchAll(/^export (?:class|function|const) (\w+)/gm);
  return [...found].map(([, name]) => name).sort();
};
// Where it was built.
const hasMemory = existsSync(new URL('../out/dagcbor_memory.node', import.meta.url));
const atproto = hasMemory ? await import('dagcbor/atproto') : undefined;

test('names', () => {
  const ours = [dagcbor, 'index.d.ts', 'dagcbor'];
  const stores = [store, 'store.d.ts', 'dagcbor/store'];
  const codecs = [codec, 'codec.d.ts', 'dagcbor/codec'];
  const memory = hasMemory ? [[atproto, 'atproto.d.ts', 'dagcbor/atproto']] : [];
  for (const [all, types, path] of [ours, codecs, stores, ...memory]) {
    const names = namesIn(types);
    assert.ok(names.length >= 5);
    const others = ['default', 'module.exports']; // of all that `require` has
    const found = Object.keys(all).filter((it) => !others.includes(it));
    assert.deepStrictEqual(found.sort(), names);
    for (const name of names) assert.strictEqual(all[name], require(path)[name]);
    assert.strictEqual(all.default, require(path));
  }
  assert.ok(CID && CarIndexer && DagCborError && checkCar && verify);
  assert.deepStrictEqual(decode(encode({ a: 1 })), { a: 1 });
});
