// DAG-CBOR by a proved library: index.d.ts says what each call does.
'use strict';
const { native } = require('./library.js');
const { CID, cidOf, unpack } = require('./cid.js');
const { DagCborError, KINDS, answered } = require('./errors.js');

// The answer for a block, or its refusal with the place.
const of = (call) => (block) => answered(call(block), () => native.place(block));

const check = (block) => KINDS[of(native.check)(block)];
const tape = of(native.tape);
const links = (block) => unpack(of(native.links)(block));
const name = (block) => cidOf(native.name(block));

// Written so that `import` finds each name.
module.exports = {
  ...require('./car.js'), ...require('./car_writer.js'), ...require('./decode.js'),
  ...require('./encode.js'), ...require('./paths.js'), CID, DagCborError, check, links, name, tape,
};
