// Our package for Node, which stands in callers/node: blocks; data to be written; paths; CAR files; CIDs as text.
'use strict';
const { dataOf, serve } = require('./lines.js');
const { CID, CarReader, decode, encode, find } = require(`${process.env.REPO}/callers/node`);

const hex = (bytes) => Buffer.from(bytes).toString('hex');
const joined = (cids) => cids.join(',') || '-';
const at = (block, path) => hex(encode(find(block, path))); // what leads nowhere is undefined, which is not written

serve((block) => encode(decode(block)), {
  writing: (line) => hex(encode(dataOf(line, CID.parse))),
  paths: at,
  segments: at,
  'cid-texts': (text) => {
    const cid = CID.parse(text.toString());
    return `${hex(cid.bytes)} ${cid}`;
  },
  files: async (file) => {
    const car = await CarReader.fromBytes(file);
    const cids = [];
    for await (const it of car.cids()) cids.push(it);
    return `${joined(await car.getRoots())} ${joined(cids)}`;
  },
});
