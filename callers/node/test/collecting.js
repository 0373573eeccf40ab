// How Node is started for a script that looks at its memory: no thread of the engine runs beside its own, and what is freed goes
// back at once. So the memory does not depend on which thread runs when.
'use strict';
const COLLECTING = ['--expose-gc', '--single-threaded'];
const env = { ...process.env, MALLOC_ARENA_MAX: '1', MALLOC_MMAP_THRESHOLD_: '65536', MALLOC_TRIM_THRESHOLD_: '65536' };
const SILENT = { env, stdio: ['ignore', 'ignore', 'inherit'] };

module.exports = { COLLECTING, SILENT };
