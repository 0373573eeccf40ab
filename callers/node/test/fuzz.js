// node fuzz.js SECONDS [SEED]: random values against a writer that was written apart (plain.js), and
// blocks and files that are damaged, against what the library says of them.
'use strict';
const assert = require('node:assert');
const { CarBlockIterator, DagCborError, check, checkCar, decode, encode, links, name, tape, verify } = require('..');
const { generator, randomData, spelling } = require('./plain.js');

const refusalOf = (call) => {
  try {
    call();
  } catch (error) {
    assert.ok(error instanceof DagCborError, error);
    return `${error.kind} ${error.place}`;
  }
  return '';
};

const damagedBy = (random, block) => {
  const below = (n) => Math.floor(random() * n);
  const some = Uint8Array.from({ length: 1 + below(9) }, () => below(256));
  const at = below(block.length);
  const [front, rest] = [block.subarray(0, at), block.subarray(at)];
  const made = [
    () => Buffer.concat([front, Buffer.of(rest[0] ^ (1 << below(8))), rest.subarray(1)]),
    () => front,
    () => Buffer.concat([front, some, rest]),
    () => Buffer.concat([front, rest.subarray(some.length)]),
    () => Buffer.concat([rest, front]),
    () => Buffer.concat([block, some]),
    () => Buffer.from(some),
  ];
  return made[below(made.length)]();
};

const isJudged = (block) => {
  const refused = refusalOf(() => check(block));
  for (const call of [decode, tape]) assert.strictEqual(refusalOf(() => call(block)), refused);
  refusalOf(() => links(block));
  if (refused) return;
  const value = decode(block);
  assert.ok(block.equals(encode(value)));
  assert.ok(block.equals(spelling(value)));
};

const read = async (file) => {
  const found = [];
  for await (const { cid, bytes, verdict } of await CarBlockIterator.fromBytes(file)) {
    assert.strictEqual(verify(cid, bytes), verdict);
    found.push(verdict);
  }
  const { verdicts } = await checkCar(file);
  assert.strictEqual(Object.values(verdicts).reduce((sum, it) => sum + it, 0), found.length);
};

const isJudgedFile = (file) => read(file).catch((error) => assert.ok(error instanceof DagCborError, error));

const section = (block) => {
  const all = Buffer.concat([name(block).bytes, block]);
  return Buffer.concat([Buffer.from(all.length < 128 ? [all.length] : [all.length % 128 + 128, all.length >> 7]), all]);
};

// As many rounds as wanted: by their number, and not by time, where a test runs it.
const fuzz = async (isEnough, seed) => {
  const random = generator(seed);
  let rounds = 0;
  for (; !isEnough(rounds); rounds++) {
    const value = randomData(random);
    const block = spelling(value);
    assert.strictEqual(Buffer.from(encode(value)).toString('hex'), block.toString('hex'));
    assert.deepStrictEqual(decode(block), value);
    for (let i = 0; i < 8; i++) isJudged(damagedBy(random, block));
    if (rounds % 16 || block.length > 9000) continue;
    const file = Buffer.concat([Buffer.from('\x11\xa2eroots\x80gversion\x01', 'latin1'), section(block), section(Buffer.of(0xf6))]);
    await read(file);
    await isJudgedFile(damagedBy(random, file));
  }
  return rounds;
};

module.exports = { damagedBy, fuzz };

const main = async ([seconds, seed = Date.now()]) => {
  console.log(`seed ${seed}`);
  const end = Date.now() + 1000 * seconds;
  console.log(`${await fuzz(() => Date.now() >= end, Number(seed))} values, of each 8 damaged blocks`);
};

if (require.main === module) main(process.argv.slice(2));
