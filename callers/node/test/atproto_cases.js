// What atproto_cases.py tells of frames and repositories, where there is a Python, and the addon
// that reads them.
'use strict';
const { execFileSync, spawnSync } = require('node:child_process');
const { existsSync } = require('node:fs');
const { join } = require('node:path');

const python = process.env.PYTHON || 'python3';
const addon = join(__dirname, '../out/dagcbor_memory.node');
const hasPython = spawnSync(python, ['--version']).status === 0;
const skip = !existsSync(addon) ? `there is no ${addon}` : !hasPython && `there is no ${python}`;

const printed = (word) => {
  const words = [join(__dirname, 'atproto_cases.py'), word];
  return skip ? [] : JSON.parse(execFileSync(python, words, { maxBuffer: 1 << 28 }));
};

module.exports = { addon, printed, python, skip };
