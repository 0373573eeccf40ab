// node-cbor: one item, with repeated keys refused, and its canonical encoder.
'use strict';
const { serve } = require('./lines.js');
const cbor = require('/usr/share/nodejs/cbor');

serve((block) => cbor.encodeCanonical(cbor.decodeFirstSync(block, { preventDuplicateKeys: true })));
