// Compiles the addons into out/, with the proved libraries inside.
//
// The library of the first, dagcbor.node, is that of the environment variable DAGCBOR_LIBRARY; else
// the one that a release has in lib/, and include/; else that of this repository. If that is not
// there and `rt` is, it is proved and built first. The second, dagcbor_memory.node, which only
// `dagcbor/atproto` needs, is compiled if its library is there: DAGCBOR_MEMORY_LIBRARY, or in one
// of these places. If DAGCBOR_MODULE names a WebAssembly module, that is put there, in place of the
// addons. The program of stores goes beside them: that of DAGSTORE, or of this repository.
//
// `node build.js --install`, which npm runs, compiles nothing if an addon of the release loads. If
// one is needed and none can be compiled, it leaves the WebAssembly module to answer, if the
// package has one.
'use strict';
const { execFileSync } = require('child_process');
const { chmodSync, copyFileSync, existsSync, mkdirSync, realpathSync, rmSync } = require('fs');
const { dirname, join } = require('path');
const { addonOf, addonPaths, inOut, modulePaths, thereOf } = require('./addons.js');

const crateOf = (name) => join(__dirname, '../../crates', name);
const machine = { x64: 'x86_64', arm64: 'aarch64' }[process.arch] ?? process.arch;
const carriedOf = (name) => join(__dirname, 'lib', machine, name);

// The path of the library of a crate, if it is there.
const pathOf = (crate, variable) => {
  const carried = carriedOf(`lib${crate}.a`);
  const own = existsSync(carried) ? carried : join(crateOf(crate), `out/lib${crate}.a`);
  return process.env[variable] ?? own;
};

const library = () => {
  const path = pathOf('dagcbor_ffi', 'DAGCBOR_LIBRARY');
  if (!existsSync(path) && !process.env.DAGCBOR_LIBRARY) {
    const cwd = crateOf('dagcbor_ffi');
    try {
      execFileSync('rt', ['lib'], { cwd, stdio: ['ignore', 'ignore', 'inherit'] });
    } catch (e) {
      if (e.code !== 'ENOENT') throw e;
    }
  }
  if (!existsSync(path)) throw new Error(`no ${path}: \`rt lib\` in crates/dagcbor_ffi makes it`);
  return path;
};

// The one that takes memory; nothing if none is named and none is there.
const memoryLibrary = () => {
  const path = pathOf('dagcbor_memory_ffi', 'DAGCBOR_MEMORY_LIBRARY');
  if (existsSync(path)) return path;
  if (process.env.DAGCBOR_MEMORY_LIBRARY) throw new Error(`there is no ${path}`);
  return undefined;
};

// The headers of Node-API, which are beside its program, or in Debian's place for them.
const headers = () => {
  const beside = join(dirname(realpathSync(process.execPath)), '../include/node');
  const places = [beside, '/usr/include/node'];
  const found = places.find((it) => existsSync(join(it, 'node_api.h')));
  if (!found) throw new Error(`there is no node_api.h in ${places.join(' or ')}`);
  return found;
};

// An addon of these sources, over a library.
const compile = (name, sources, archive) => {
  const [cc, ...words] = (process.env.CC || 'cc').split(' ');
  const flags = ['-std=c11', '-O3', '-Wall', '-Wextra', '-shared', '-fPIC'];
  // The addon exports nothing of the library, and finds at once all that it needs, or does not
  // load.
  const hidden = ['-fvisibility=hidden', '-Wl,--exclude-libs,ALL', '-Wl,-z,now'];
  const more = (process.env.CFLAGS || '').split(' ').filter(Boolean);
  const crates = ['dagcbor_ffi', 'dagcbor_memory_ffi'].map((it) => join(crateOf(it), 'include'));
  const own = [join(__dirname, 'include'), ...crates, join(__dirname, '../c')];
  const folders = [headers(), ...own].map((it) => `-I${it}`);
  const files = [...sources.map((it) => join(__dirname, it)), archive, '-lm', '-o', inOut(name)];
  const all = [...words, ...flags, ...hidden, ...more, ...folders, ...files];
  try {
    execFileSync(cc, all, { stdio: 'inherit' });
  } catch (e) {
    if (e.code !== 'ENOENT') throw e;
    throw new Error(`there is no C compiler ${cc}, which builds the addon: CC may name another`);
  }
};

const compileAll = () => {
  compile('dagcbor.node', ['addon.c', 'car.c', 'units.c', 'values.c'], library());
  const archive = memoryLibrary();
  if (archive) compile('dagcbor_memory.node', ['memory.c', 'values.c'], archive);
};

const putProgram = () => {
  const [found] = thereOf([process.env.DAGSTORE ?? '', join(crateOf('dagstore'), 'out/dagstore')]);
  if (!found) return;
  copyFileSync(found, inOut('dagstore'));
  chmodSync(inOut('dagstore'), 0o755);
};

const MADE = ['dagcbor.node', 'dagcbor_memory.node', 'dagcbor.wasm', 'dagstore'];

const build = () => {
  mkdirSync(join(__dirname, 'out'), { recursive: true });
  for (const it of MADE) rmSync(inOut(it), { force: true });
  putProgram();
  if (process.env.DAGCBOR_MODULE) copyFileSync(process.env.DAGCBOR_MODULE, inOut('dagcbor.wasm'));
  else compileAll();
};

const install = () => {
  if (addonOf(addonPaths('dagcbor').slice(0, 1)).addon) return;
  try {
    build();
  } catch (error) {
    if (!thereOf(modulePaths).length) throw error;
    require('./library.js'); // which says where this engine does not take the module
    console.log(`dagcbor: ${error.message}; the WebAssembly module is used`);
  }
};

try {
  if (process.argv[2] === '--install') install();
  else build();
} catch (e) {
  console.error(`dagcbor: ${e.message}`);
  process.exit(1);
}
