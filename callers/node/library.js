// Answers the library's calls: an addon, or the WebAssembly module if none loads.
'use strict';
const { readFileSync } = require('fs');
const { addonOf, addonPaths, lacking, modulePaths, thereOf } = require('./addons.js');

const byModule = (path) => {
  const { callsOf } = require('./wasm/dagcbor.js');
  const { nativeOf } = require('./wasm/native.js');
  const bytes = readFileSync(path);
  // Node 20 has memory of 64-bit addresses only if it is told.
  if (!WebAssembly.validate(bytes)) {
    require('v8').setFlagsFromString('--experimental-wasm-memory64');
  }
  if (!WebAssembly.validate(bytes)) {
    throw new Error(`this Node has no memory64 of WebAssembly, or ${path} is damaged`);
  }
  return nativeOf(callsOf(new WebAssembly.Module(bytes)));
};

const { addon, reasons } = addonOf(addonPaths('dagcbor'));
const [path] = thereOf(modulePaths);
if (!addon && !path) throw lacking('dagcbor', '', reasons);

module.exports = { native: addon ?? byModule(path) };
