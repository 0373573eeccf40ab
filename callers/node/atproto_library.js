// Answers the library's calls that take memory: an addon of its own, over a library of its own.
'use strict';
const { addonOf, addonPaths, lacking } = require('./addons.js');

const OF = ' of libdagcbor_memory_ffi.a, which DAGCBOR_MEMORY_LIBRARY names';
const { addon, reasons } = addonOf(addonPaths('dagcbor_memory'));
if (!addon) throw lacking('dagcbor/atproto', OF, reasons);

module.exports = { memory: addon };
