// Blocks in a file that lasts, by the program `dagstore`: store.d.ts says what each call does.
'use strict';
const { access, constants } = require('fs/promises');
const { resolve } = require('path');
const { fileURLToPath } = require('url');
const { isAlone, isBytes, whole } = require('./bytes.js');
const { CID, wantedCid } = require('./cid.js');
const { InvalidBlock, NotFoundError } = require('./store_errors.js');
const { Program } = require('./store_program.js');

const [MOST, MOST_BYTES] = [256, 1 << 20]; // of blocks that `putMany` commits at once
const WORDS = { delete: 'remove', addRoot: 'add-root', dropRoot: 'drop-root' };

const textOf = (bytes) => Buffer.from(bytes).toString();
const cidsIn = (bytes) => textOf(bytes).split('\n').filter(Boolean).map((it) => new CID(it));
// An absolute path that can stand in a line.
const pathOf = (path) => {
  const text = path instanceof URL ? fileURLToPath(path) : path;
  if (typeof text !== 'string' || !/^[^\n\0]+$/.test(text) || isAlone(text)) {
    throw new TypeError('a path is a text with no line feed, or a URL');
  }
  return resolve(text);
};

const codecOf = (codec) => {
  if (codec === 'dag-cbor' || codec === 'raw') return codec;
  const isNumber = typeof codec === 'bigint' || Number.isSafeInteger(codec);
  if (isNumber && codec >= 0 && codec < 2n ** 64n) return `0x${codec.toString(16)}`;
  throw new TypeError("a codec is 'dag-cbor', 'raw' or a number");
};

// The request for a change. A block is copied, because it is sent later.
const requestOf = ({ put, cid, codec = cid ? wantedCid(cid).code : 'dag-cbor', ...named }) => {
  const others = Object.keys(named).filter((it) => Object.hasOwn(WORDS, it));
  if (others.length > (put === undefined ? 1 : 0)) {
    throw new TypeError('a change is one of put, delete, addRoot and dropRoot');
  }
  if (put !== undefined) {
    const block = whole(put).slice();
    return { line: `add ${codecOf(codec)} ${block.length}`, block, cid: cid && wantedCid(cid) };
  }
  const [[word, value] = []] = Object.entries(named);
  if (!Object.hasOwn(WORDS, word)) throw new TypeError(`no change is named ${word}`);
  return { line: `${WORDS[word]} ${wantedCid(value)}` };
};

// `put(block, codec)`, or `put(cid, block)` as in a blockstore.
const changeOf = (first, second) =>
  isBytes(first) ? { put: first, codec: second } : { put: second, cid: wantedCid(first) };

class Store {
  #program;
  #turn = Promise.resolve(); // that of the last call

  static async open(path, { program } = {}) {
    const store = new Store();
    store.#program = new Program(pathOf(path), program);
    await store.#ask('rollback');
    return store;
  }

  // Calls it when each call before it has ended.
  #alone(call) {
    const made = this.#turn.then(call);
    this.#turn = made.catch(() => {});
    return made;
  }

  #ask(line) {
    return this.#alone(() => this.#program.ask(line));
  }

  async #keep({ line, block, cid }) {
    const answer = await this.#program.ask(line, block);
    if (!cid || cid.equals(cidsIn(answer)[0])) return answer;
    throw new InvalidBlock(`the block is not that of ${cid}, but of ${textOf(answer)}`);
  }

  // Makes the requests in one commit: all of them, or none. Returns the CIDs of the blocks.
  async #do(requests) {
    const answers = [];
    await this.#alone(async () => {
      try {
        for (let at = 0; at < requests.length; at += MOST) {
          const some = requests.slice(at, at + MOST).map((it) => this.#keep(it));
          answers.push(...(await Promise.all(some)));
        }
        await this.#program.ask('commit');
      } catch (error) {
        await this.#program.ask('rollback').catch(() => {});
        throw error;
      }
    });
    return answers.filter((_, n) => requests[n].block).flatMap(cidsIn);
  }

  async commit(changes) {
    return this.#do([...changes].map(requestOf));
  }

  async put(...given) {
    return (await this.commit([changeOf(...given)]))[0];
  }

  async delete(cid) {
    await this.commit([{ delete: cid }]);
  }

  async addRoots(...cids) {
    await this.commit(cids.map((it) => ({ addRoot: it })));
  }

  async dropRoots(...cids) {
    await this.commit(cids.map((it) => ({ dropRoot: it })));
  }

  async roots() {
    return cidsIn(await this.#ask('roots'));
  }

  async get(cid) {
    const name = wantedCid(cid);
    const block = await this.#ask(`get ${name}`);
    if (block === null) throw new NotFoundError(`nothing is stored under ${name}`);
    return block;
  }

  async has(cid) {
    return (await this.#ask(`has ${wantedCid(cid)}`)) !== null;
  }

  async count() {
    return Number(textOf(await this.#ask('count')));
  }

  async *[Symbol.asyncIterator]() {
    for (let name = await this.#ask('next'); name !== null; ) {
      const [cid] = cidsIn(name);
      yield cid;
      name = await this.#ask(`next ${cid}`);
    }
  }

  async *putMany(source) {
    let [requests, size] = [[], 0];
    for await (const { cid, block, bytes = block } of source) {
      requests.push(requestOf(changeOf(cid, bytes)));
      size += bytes.length;
      if (requests.length < MOST && size < MOST_BYTES) continue;
      yield* await this.#do(requests);
      [requests, size] = [[], 0];
    }
    yield* await this.#do(requests);
  }

  async *getMany(source) {
    for await (const cid of source) yield { cid, block: await this.get(cid) };
  }

  async *deleteMany(source) {
    for await (const cid of source) {
      await this.delete(cid);
      yield cid;
    }
  }

  async *getAll() {
    yield* this.getMany(this);
  }

  async importCar(path) {
    const text = pathOf(path);
    await access(text, constants.R_OK);
    const lines = textOf(await this.#ask(`import ${text}`)).trim().split('\n');
    const sections = Number(lines.pop().replace('stored ', ''));
    return { roots: lines.map((it) => new CID(it.replace('root ', ''))), sections };
  }

  async exportCar(path) {
    await this.#ask(`export ${pathOf(path)}`);
  }

  async close() {
    await this.#alone(() => this.#program.close());
  }
}

module.exports = { ...require('./store_errors.js'), Store };
