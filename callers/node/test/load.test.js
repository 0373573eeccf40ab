// What answers the library's calls, in a copy of the package with these files: the first that loads;
// and what npm's install script does there.
'use strict';
const assert = require('node:assert');
const { spawnSync } = require('node:child_process');
const { cpSync, existsSync, mkdirSync, mkdtempSync, readFileSync, rmSync, writeFileSync } = require('node:fs');
const { tmpdir } = require('node:os');
const { dirname, join } = require('node:path');
const { test } = require('node:test');

const here = join(__dirname, '..');
const platform = `${process.platform}-${process.arch}`;
const [PREBUILT, BUILT] = [`prebuilds/${platform}/dagcbor.glibc.node`, 'out/dagcbor.node'];
const [MODULE, GIVEN] = ['prebuilds/wasm64/dagcbor.wasm', 'out/dagcbor.wasm'];
const fileOf = (path) => (existsSync(join(here, path)) ? readFileSync(join(here, path)) : undefined);
const [addon, module_] = [fileOf(BUILT), fileOf(GIVEN)];
const junk = Buffer.from('junk');

// The addon, as if it were of a later glibc.
const laterOf = (bytes) => {
  const [later, version] = [Buffer.from(bytes), Buffer.from('GLIBC_9')];
  const at = bytes.indexOf('\0GLIBC_2.');
  assert.ok(at > 0);
  version.copy(later, at + 1);
  return later;
};

const ASK = `
  const { decode, encode } = require(process.cwd());
  require('node:assert').deepStrictEqual(decode(encode([1, 'hi'])), [1, 'hi']);
  const found = Object.keys(require.cache).find((it) => it.endsWith('.node'));
  console.log(found ? require('node:path').relative(process.cwd(), found) : 'the module');`;

const inCopy = (files, call) => {
  const folder = mkdtempSync(join(tmpdir(), 'dagcbor-'));
  const isOwn = (path) => !/[/\\](out|prebuilds|test|node_modules)$/.test(path);
  try {
    cpSync(here, folder, { recursive: true, filter: isOwn });
    for (const [path, bytes] of Object.entries(files)) {
      mkdirSync(join(folder, dirname(path)), { recursive: true });
      writeFileSync(join(folder, path), bytes);
    }
    const run = (...words) => {
      const named = { DAGCBOR_LIBRARY: __filename, DAGCBOR_MEMORY_LIBRARY: '', DAGCBOR_MODULE: '', DAGSTORE: '' };
      const how = { cwd: folder, encoding: 'utf8', env: { ...process.env, ...named, CC: 'no-compiler' } };
      const { status, stdout, stderr } = spawnSync(process.execPath, words, how);
      return [status, (stdout + stderr).replaceAll(folder, 'HERE')];
    };
    call(run, folder);
  } finally {
    rmSync(folder, { recursive: true });
  }
};

const NONE = `there is no addon of dagcbor for ${platform}: \`node build.js\` in HERE compiles one`;
const NO_ADDON = 'there is no addon of dagcbor/atproto for ';
const skip = !addon && 'the addon was not built';
const skipModule = !module_ && 'no module was given';

test('what is not there, or does not load, is said', () => {
  const cases = [
    [{}, NONE], [{ [PREBUILT]: junk }, `${NONE}; HERE/${PREBUILT} does not load: `],
    [{ [PREBUILT]: junk, [BUILT]: junk }, `; HERE/${BUILT} does not load: `],
    [{ [MODULE]: junk }, 'this Node has no memory64 of WebAssembly, or HERE/prebuilds/wasm64/dagcbor.wasm is damaged'],
  ];
  for (const [files, wanted] of cases) {
    inCopy(files, (run) => {
      const [status, said] = run('-e', ASK);
      assert.ok(status === 1 && said.includes(wanted), said);
      const [, told] = run('-e', "require('./atproto_library.js')");
      assert.ok(told.includes(`Error: ${NO_ADDON}${platform}: `), told);
    });
  }
});

test('the first addon that loads', { skip }, () => {
  const later = laterOf(addon);
  const cases = [
    [{ [PREBUILT]: addon }, PREBUILT], [{ [PREBUILT]: addon, [BUILT]: junk }, PREBUILT], [{ [BUILT]: addon }, BUILT],
    [{ [PREBUILT]: junk, [BUILT]: addon }, BUILT], [{ [PREBUILT]: later, [BUILT]: addon, [MODULE]: junk }, BUILT],
  ];
  for (const [files, wanted] of cases) {
    inCopy(files, (run) => assert.deepStrictEqual(run('-e', ASK), [0, `${wanted}\n`]));
  }
  inCopy({ [PREBUILT]: later }, (run) => {
    const [status, said] = run('-e', ASK);
    assert.ok(status === 1 && /GLIBC_9\.[\d.]+' not found/.test(said), said);
  });
});

test('the module, where no addon loads', { skip: skipModule }, () => {
  const cases = [[{ [MODULE]: module_ }], [{ [PREBUILT]: junk, [BUILT]: junk, [MODULE]: module_ }], [{ [GIVEN]: module_ }]];
  for (const [files] of cases) inCopy(files, (run) => assert.deepStrictEqual(run('-e', ASK), [0, 'the module\n']));
  inCopy({ [MODULE]: module_ }, (run) => {
    const [status, said] = run('build.js', '--install');
    assert.strictEqual(status, 0);
    assert.match(said, /^dagcbor: there is no [^\n]*; the WebAssembly module is used\n$/);
    assert.deepStrictEqual(run('-e', ASK), [0, 'the module\n']);
  });
});

test('the module keeps no memory of a large call', { skip: skipModule }, () => {
  require('v8').setFlagsFromString('--experimental-wasm-memory64');
  const { callsOf } = require('../wasm/dagcbor.js');
  const calls = callsOf(new WebAssembly.Module(module_));
  const sizeFor = (block) => calls.compactTape(block).buffer.byteLength;
  const [small, count] = [Buffer.of(0xf6), 6e6];
  const large = Buffer.concat([Buffer.of(0x9a, count >> 24, count >> 16, count >> 8, count), Buffer.alloc(count)]);
  const least = sizeFor(small);
  assert.ok(least < 1 << 26 && sizeFor(large) > 12 * count);
  assert.strictEqual(sizeFor(small), least);
});

test('the module is given no more than the front of what is too long', () => {
  const { nativeOf } = require('../wasm/native.js');
  const given = [];
  const note = ({ length }) => given.push(length) && -29;
  const { cidText, cidFromText } = nativeOf({ cidText: note, cidFromText: note });
  for (const call of [cidText, cidFromText]) for (const length of [9, 1e6]) call('b'.repeat(length));
  assert.deepStrictEqual(given, [9, 100, 9, 256]);
});

test('npm compiles nothing where an addon loads', { skip }, () => {
  inCopy({ [PREBUILT]: addon }, (run, folder) => {
    assert.deepStrictEqual(run('build.js', '--install'), [0, '']);
    assert.ok(!existsSync(join(folder, 'out')));
  });
});

test('a build that fails says why', () => {
  for (const [files, words] of [[{}, ['build.js']], [{}, ['build.js', '--install']], [{ [PREBUILT]: junk }, ['build.js', '--install']]]) {
    inCopy(files, (run) => {
      const [status, said] = run(...words);
      assert.strictEqual(status, 1);
      assert.match(said, /^dagcbor: there is no (C compiler no-compiler|node_api\.h)[^\n]*\n$/);
    });
  }
});
