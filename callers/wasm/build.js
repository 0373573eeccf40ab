// node build.js FOLDER MODULE makes the package for browsers, Deno and others, of ECMAScript
// modules. Its files are those of callers/node, except what answers the library's calls, which is
// the module.
'use strict';
const { copyFileSync, mkdirSync, readFileSync, readdirSync, writeFileSync } = require('fs');
const { basename, join } = require('path');

const [, , folder, module_] = process.argv;
if (!module_) throw new Error('node build.js FOLDER MODULE');
const [node, esm] = [join(__dirname, '../node'), join(__dirname, 'esm')];
const ALONE = /^(addons|build|library|platform|(atproto|store)\w*)\.js$/; // Node's alone
const scriptsIn = (folder) => readdirSync(folder).filter((it) => it.endsWith('.js')).map((it) => join(folder, it));
const shared = [...scriptsIn(node), ...scriptsIn(join(node, 'wasm'))].filter((it) => !ALONE.test(basename(it)));

const names = (inside) => inside.replace(/(\w+): (\w+)/g, '$1 as $2');

// What a file exports: all of some others, and names of its own.
const OTHERS = /\.\.\.require\('([^']*)'\),\s*/g;
const exported = (all) =>
  `${all.match(OTHERS)?.join('').replace(OTHERS, "export * from '$1';\n") ?? ''}export ${all.replace(OTHERS, '')};`;

// A file as Node takes it, by imports and exports.
const asModule = (text, path) => {
  const made = text
    .replace(/^'use strict';\n/m, '')
    .replace(/^const (\{[^}]*\}|\w+) = require\('([^']*)'\);$/gm, (_, inside, from) =>
      `import ${inside[0] === '{' ? names(inside) : `* as ${inside}`} from './${basename(from)}';`)
    .replace(/^module\.exports = (\{[^}]*\});$/m, (_, all) => exported(all));
  if (/\brequire\(|\bmodule\.exports\b/.test(made)) throw new Error(`${path} goes into no module`);
  return made;
};

mkdirSync(folder, { recursive: true });
for (const path of shared) {
  writeFileSync(join(folder, basename(path)), asModule(readFileSync(path, 'utf8'), path));
}
for (const it of readdirSync(esm)) copyFileSync(join(esm, it), join(folder, it));
for (const it of ['index.d.ts', 'codec.d.ts', 'dag-pb.d.ts']) copyFileSync(join(node, it), join(folder, it));
copyFileSync(module_, join(folder, 'dagcbor.wasm'));
