// Repositories of signed records (AT Protocol): atproto.d.ts says what each call does.
'use strict';
const { AtHand } = require('./at_hand.js');
const { memory } = require('./atproto_library.js');
const { bytesOfKey, textOfKey } = require('./atproto_keys.js');
const { piecesOf, whole } = require('./bytes.js');
const { decode } = require('./decode.js');
const { DagCborError } = require('./errors.js');
const { latin1 } = require('./platform.js');

const NOTHING = new Uint8Array();

// What the call says about the file that comes; or the line that tells why there is nothing to say.
const told = async (call, source, key = NOTHING) => {
  const file = new AtHand();
  for await (const piece of piecesOf(source)) file.put(whole(piece));
  const [code, answer] = await call(file.bytes, key);
  if (code === 0) return answer;
  throw new DagCborError(undefined, latin1(answer).replace(/\n$/, ''));
};

const readRepo = async (source) => {
  const { records, ...commit } = decode(await told(memory.repository, source));
  const named = new Map(records.map(([key, cid]) => [textOfKey(key), cid]));
  return Object.freeze({ ...commit, records: named });
};

const readCommit = async (source) => Object.freeze(decode(await told(memory.commit, source)));

const recordProof = async (source, key) => told(memory.recordProof, source, bytesOfKey(key));

module.exports = { readCommit, readRepo, recordProof };
