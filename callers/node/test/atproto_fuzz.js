// node atproto_fuzz.js SECONDS [SEED]: frames and repositories that are damaged. Each is refused,
// or what is verified of it is what it was.
'use strict';
const assert = require('node:assert');
const { DagCborError } = require('..');
const { printed, skip } = require('./atproto_cases.js');
const { damagedBy } = require('./fuzz.js');
const { generator } = require('./plain.js');

const bytesOf = (text) => Buffer.from(text, 'hex');

// What the call answers, or nothing where it refuses.
const answerOf = async (call) => {
  try {
    return await call();
  } catch (error) {
    assert.ok(error instanceof DagCborError, error);
    return undefined;
  }
};

const judging = (atproto) => {
  const { readCommit, readEvent, readEvents, readRepo, recordProof, verifyEvent } = atproto;

  const frameIsJudged = async (frame, verified, known) => {
    const found = await answerOf(() => verifyEvent(frame, known));
    if (found) assert.deepStrictEqual(found, verified);
    const read = await answerOf(() => readEvent(frame));
    const first = await answerOf(async () => (await readEvents([frame]).next()).value);
    assert.deepStrictEqual(first, read?.[0]);
    if (read) assert.ok(Buffer.concat([read[0].frame, read[1]]).equals(frame));
  };

  const fileIsJudged = async (file, repo, key) => {
    const found = await answerOf(() => readRepo(file));
    if (found) assert.deepStrictEqual(found, repo);
    const commit = await answerOf(() => readCommit(file));
    const proof = await answerOf(() => recordProof(file, key));
    if (proof) assert.deepStrictEqual(await readCommit(proof), commit);
  };

  return { fileIsJudged, frameIsJudged };
};

const fuzz = async (seconds, seed) => {
  const atproto = require('../atproto.js');
  const { fileIsJudged, frameIsJudged } = judging(atproto);
  const frames = printed('frames').filter(({ verified }) => verified);
  const files = printed('repositories').filter(({ commit, file }) => commit && file.length < 1e5);
  const [random, end] = [generator(seed), Date.now() + 1000 * seconds];
  const some = (list) => list[Math.floor(random() * list.length)];
  let rounds = 0;
  for (; Date.now() < end; rounds++) {
    const { root, rev, ...row } = some(frames);
    const [frame, known] = [bytesOf(row.frame), { root: { bytes: bytesOf(root) }, rev }];
    const verified = atproto.verifyEvent(frame, known);
    await frameIsJudged(damagedBy(random, frame), verified, some([undefined, known]));
    if (rounds % 8) continue;
    const { key, ...other } = some(files);
    const file = bytesOf(other.file);
    await fileIsJudged(damagedBy(random, file), await atproto.readRepo(file), bytesOf(key));
  }
  return rounds;
};

const main = async ([seconds, seed = Date.now()]) => {
  if (skip) return console.log(`skipped: ${skip}`);
  console.log(`seed ${seed}`);
  return console.log(`${await fuzz(Number(seconds), Number(seed))} damaged frames`);
};

main(process.argv.slice(2));
