// CAR files: index.d.ts says what each call does.
'use strict';
const { native } = require('./library.js');
const { CarError, Walk } = require('./car_walk.js');
const { binaryOf, bytesOf, cidOf } = require('./cid.js');
const { KINDS, REASONS, refusal } = require('./errors.js');
const { latin1, openFile, readAll, readAt } = require('./platform.js');

const [OTHER_BYTES, LEAST, TRUNCATED] = [-22, -23, -24]; // of verdicts, the second the least one

const OTHERS = { 9: 'not read', [-22]: 'other bytes', [-23]: 'not verified' };

// A text of the bytes of a CID, of this package or another.
const keyOf = (cid) => binaryOf(cid) ?? latin1(bytesOf(cid));

const verdictOf = (code) =>
  OTHERS[code] ?? (code < 0 ? `refused ${REASONS[code][0]}` : `ok ${KINDS[code]}`);

// The verdict on a block that came under a name.
const verify = (cid, bytes) => {
  const code = native.verify(bytesOf(cid), bytes);
  if (code < LEAST) throw refusal(code);
  return verdictOf(code);
};

// What `make` makes of each section of a batch: of the bytes at hand and their place, of where the
// section begins in them, and of its numbers.
const madeOf = function* ({ place, bytes, numbers }, make) {
  for (let [i, from] = [0, 0]; i < numbers.length; i += 4) {
    const told = numbers.subarray(i, i + 4);
    yield make(bytes, place, from, told);
    from = told[3];
  }
};

const allIn = async function* (walk, make) {
  try {
    yield; // where it waits until it is asked, or ended
    for await (const batch of walk.batches) for (const it of madeOf(batch, make)) yield it;
  } finally {
    await walk.batches.return();
  }
};

// If they are ended before the first is asked for, the source is ended too.
const sectionsOf = (walk, make) => {
  const all = allIn(walk, make);
  all.next();
  return all;
};

const nameIn = (bytes, from, to) => cidOf(latin1(bytes, from, to));

const blockOf = (bytes, place, from, [code, cid, block, end]) =>
  ({ cid: nameIn(bytes, cid, block), bytes: bytes.slice(block, end), verdict: verdictOf(code) });

const indexOf = (bytes, place, from, [code, cid, block, end]) => ({
  cid: nameIn(bytes, cid, block),
  offset: place + from,
  length: end - from,
  blockOffset: place + block,
  blockLength: end - block,
  verdict: verdictOf(code),
});

// What is told about the front of a file.
let rootsOf;
class Opened {
  #front;
  static { rootsOf = (opened) => [...opened.#front.roots]; }

  constructor(front) {
    this.#front = front;
  }

  get version() {
    return this.#front.version;
  }

  async getRoots() {
    return rootsOf(this);
  }
}

// The class of the iterators over what `make` makes of sections.
const iteratorOf = (make) => class extends Opened {
  #sections;

  constructor(walk) {
    super(walk.front);
    this.#sections = sectionsOf(walk, make);
  }

  static async fromIterable(source, options) {
    return new this(await new Walk(options).begin(source));
  }

  static fromBytes = this.fromIterable;

  [Symbol.asyncIterator]() {
    return this.#sections;
  }
};

class CarBlockIterator extends iteratorOf(blockOf) {}
class CarCIDIterator extends iteratorOf((bytes, place, from, [, cid, block]) =>
  nameIn(bytes, cid, block)) {}
class CarIndexer extends iteratorOf(indexOf) {}

const isVerified = ({ verdict }) => verdict !== 'other bytes' && verdict !== 'not verified';

// For each name, the first section that is verified.
const byName = (sections) => {
  const named = new Map();
  for (const it of sections) {
    const key = keyOf(it.cid);
    if (isVerified(it) && !named.has(key)) named.set(key, it);
  }
  return named;
};

class CarBufferReader extends Opened {
  #blocks;
  #named;

  constructor(front, blocks) {
    super(front);
    this.#blocks = blocks;
    this.#named = byName(blocks);
  }

  static fromBytes(bytes, options) {
    const walk = new Walk(options);
    const batches = walk.through(bytes);
    batches.next(); // the front
    const blocks = [];
    for (const batch of batches) for (const it of madeOf(batch, blockOf)) blocks.push(it);
    return new CarBufferReader(walk.front, blocks);
  }

  getRoots() {
    return rootsOf(this);
  }

  has(cid) {
    return this.#named.has(keyOf(cid));
  }

  get(cid) {
    return this.#named.get(keyOf(cid));
  }

  blocks() {
    return [...this.#blocks];
  }

  cids() {
    return this.#blocks.map(({ cid }) => cid);
  }
}

// Sections with promises: `read` gives the block of one, and `get` that which has a name.
class Sections extends Opened {
  #sections;
  #named;
  #read;
  #get;

  constructor(front, sections, read = (it) => it, get = read) {
    super(front);
    this.#sections = sections;
    this.#named = byName(sections);
    this.#read = read;
    this.#get = get;
  }

  async has(cid) {
    return this.#named.has(keyOf(cid));
  }

  async get(cid) {
    const found = this.#named.get(keyOf(cid));
    return found && this.#get(found);
  }

  async *blocks() {
    for (const it of this.#sections) yield this.#read(it);
  }

  async *cids() {
    for (const { cid } of this.#sections) yield cid;
  }
}

// The block at a place of an open file, and the verdict on it.
const blockAt = async (file, { cid, blockOffset, blockLength }) => {
  const bytes = await readAt(file, blockLength, blockOffset);
  if (bytes.length !== blockLength) throw refusal(TRUNCATED);
  return { cid, bytes, verdict: verify(cid, bytes) };
};

const allOf = async (walk, make) => {
  const all = [];
  for await (const it of sectionsOf(walk, make)) all.push(it);
  return all;
};

class CarReader extends Sections {
  static async fromIterable(source, options) {
    const walk = await new Walk(options).begin(source);
    return new CarReader(walk.front, await allOf(walk, blockOf));
  }

  static fromBytes = this.fromIterable;

  static async readRaw(file, index) {
    const block = await blockAt(file, index);
    if (!isVerified(block)) throw refusal(block.verdict === 'other bytes' ? OTHER_BYTES : LEAST);
    return block;
  }
}

class CarIndexedReader extends Sections {
  #file;

  // The file may change: then a block of it is refused.
  constructor(front, sections, file) {
    super(front, sections, (it) => blockAt(file, it), (it) => CarReader.readRaw(file, it));
    this.#file = file;
  }

  static async fromFile(path, options) {
    if (typeof path !== 'string') throw new TypeError('the path of a file is wanted');
    const file = await openFile(path);
    try {
      const walk = await new Walk(options).begin(readAll(file));
      return new CarIndexedReader(walk.front, await allOf(walk, indexOf), file);
    } catch (error) {
      await file.close();
      throw error;
    }
  }

  async close() {
    await this.#file.close();
  }
}

const checkOf = ([roots, counts, missing]) => {
  const verdicts = {};
  const codes = Array.from(counts, (_, i) => (i < 10 ? i : 9 - i)); // first what is well
  for (const code of codes) {
    if (counts[code - LEAST]) verdicts[verdictOf(code)] = counts[code - LEAST];
  }
  missing.sort((one, other) => (binaryOf(one) < binaryOf(other) ? -1 : 1));
  const areWell = Object.keys(verdicts).every((it) => it === 'not read' || it.startsWith('ok '));
  return { roots, verdicts, missing, isWell: areWell && !missing.length };
};

const checkCar = async (source, options) => {
  const walk = await new Walk(options, true).begin(source);
  try {
    while (!(await walk.batches.next()).done);
  } catch (error) {
    if (error instanceof CarError) error.checked = checkOf(walk.found());
    throw error;
  }
  return checkOf(walk.found());
};

module.exports = {
  CarBlockIterator, CarBufferReader, CarCIDIterator, CarError, CarIndexedReader, CarIndexer, CarReader,
  checkCar, verify,
};
