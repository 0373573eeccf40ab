// What the package has for this platform: addons that a release has in prebuilds/, in the layout of
// npm's prebuildify, or that `node build.js` put into out/; and the WebAssembly module.
'use strict';
const { existsSync } = require('fs');
const { join } = require('path');

const platform = `${process.platform}-${process.arch}`;
const inOut = (name) => join(__dirname, 'out', name);
const inPrebuilds = (name, folder = platform) => join(__dirname, 'prebuilds', folder, name);

const addonPaths = (name) => [inPrebuilds(`${name}.glibc.node`), inOut(`${name}.node`)];
const modulePaths = [inOut('dagcbor.wasm'), inPrebuilds('dagcbor.wasm', 'wasm64')];
const programPaths = [inOut('dagstore'), inPrebuilds('dagstore')];

const thereOf = (paths) => paths.filter((it) => existsSync(it));

// The first of the addons that loads; else the reasons of those that are there, for example that
// one is for another C library or processor.
const addonOf = (paths) => {
  const reasons = [];
  for (const path of thereOf(paths)) {
    try {
      return { addon: require(path) };
    } catch (error) {
      reasons.push(`${path} does not load: ${error.message}`);
    }
  }
  return { reasons };
};

// The error if none of a package's addons loads: how to make one, and the reasons.
const lacking = (name, of, reasons) => {
  const how = `\`node build.js\` in ${__dirname} compiles one${of}`;
  return new Error([`there is no addon of ${name} for ${platform}: ${how}`, ...reasons].join('; '));
};

module.exports = { addonOf, addonPaths, inOut, lacking, modulePaths, programPaths, thereOf };
