// The program `dagstore FILE serve`, as a process: requests, and their answers in the same order.
'use strict';
const { spawn } = require('child_process');
const { existsSync } = require('fs');
const { programPaths, thereOf } = require('./addons.js');
const { AtHand } = require('./at_hand.js');
const { CID } = require('./cid.js');
const { latin1 } = require('./platform.js');
const errors = require('./store_errors.js');

const [CARRIED = 'dagstore'] = thereOf(programPaths);
const LINE_FEED = 10;
const ANSWER = /^(ok|none|refused|bad) (\d+)$/; // before this many bytes
const HOW = 'name it, or set DAGSTORE, or put it on PATH';
const missing = (program) => (existsSync(program)
  ? `the program ${program} is for another platform than this: ${HOW}`
  : `there is no program \`dagstore\`: ${HOW}`);

// How the last line of a message begins: it tells why.
const REFUSALS = [
  [/^another process has the file open/, 'StoreLocked'],
  [/^the file (is no store|is of an earlier version|cannot be opened)/, 'StoreUnreadable'],
  [/^the (index of names has a wrong entry|table of roots has a wrong row)/, 'StoreUnreadable'],
  [/^(database or disk is full|the file takes no more)/, 'StoreFull'],
  [/^(disk I\/O error|database disk image is malformed|the transaction must be)/, 'StoreDiskError'],
  [/^out of memory/, 'StoreMemoryError'],
  [/^what is stored under the name/, 'DamagedBlock'],
  [/^the block (is (?!too long)|has other bytes)/, 'InvalidBlock'],
  [/^the input is not a CAR file/, 'InvalidCar'],
];

const refusalOf = (said) => {
  const lines = said.trim().split('\n').map((it) => it.replace(/^dagstore: /, ''));
  const [first, why] = [lines[0], lines.at(-1)];
  const [, found = 'StoreError'] = REFUSALS.find(([start]) => start.test(why)) ?? [];
  const isCar = first.startsWith('after ') && why !== 'the input failed';
  const error = new errors[isCar ? 'InvalidCar' : found](lines.join(', '));
  if (found === 'DamagedBlock' && lines.length > 1) error.cid = new CID(first.split(' ')[0]);
  return error;
};

class Program {
  #child;
  #pieces; // of what it answers
  #said = new AtHand(); // of them
  #told = ''; // on standard error
  #isClosed = false;
  #end; // kept with the error that tells of it
  #last = Promise.resolve(); // the answer that was asked for last
  #asked = 0; // how many answers are awaited

  constructor(path, given) {
    const program = given ?? (process.env.DAGSTORE || CARRIED);
    // In a group of its own, so that an interrupt at the terminal does not end it within a request.
    this.#child = spawn(program, [path, 'serve'], { detached: true });
    this.#child.stdin.on('error', () => {}); // its end tells why
    this.#child.stderr.on('data', (piece) => (this.#told += piece));
    this.#pieces = this.#child.stdout[Symbol.asyncIterator]();
    this.#end = new Promise((keep) => {
      this.#child.on('error', (error) => {
        keep(error.code === 'ENOENT' ? Object.assign(error, { message: missing(program) }) : error);
      });
      this.#child.on('close', (status, signal) => keep(this.#whyOf(status ?? signal)));
    });
  }

  #whyOf(status) {
    if (this.#isClosed) return new errors.StoreEnded('the store is closed');
    const error = refusalOf(this.#told);
    if (error.name !== 'StoreError') return error;
    return new errors.StoreEnded(`the program ended (${status}): ${this.#told.trim()}`);
  }

  // A script may end while no answer is awaited. Then the program ends too.
  #hold(more) {
    this.#asked += more;
    for (const it of [this.#child, ...this.#child.stdio]) it[this.#asked ? 'ref' : 'unref']();
  }

  // The bytes of the answer, or null if it says that there are none.
  ask(request, block = '') {
    this.#hold(1);
    const { stdin } = this.#child;
    stdin.cork();
    stdin.write(`${request}\n`);
    stdin.write(block);
    stdin.uncork();
    const answer = this.#last.then(() => this.#answer()).finally(() => this.#hold(-1));
    this.#last = answer.catch(() => {});
    return answer;
  }

  async #more() {
    const { value, done } = await this.#pieces.next().catch(() => ({ done: true }));
    if (done) throw await this.#end;
    this.#said.put(value);
  }

  async #answer() {
    const said = this.#said;
    let end;
    while ((end = said.bytes.indexOf(LINE_FEED)) < 0) await this.#more();
    const [, word, length = Infinity] = ANSWER.exec(latin1(said.bytes, 0, end)) ?? [];
    if (word === undefined) this.#child.kill('SIGKILL'); // it is another program
    const [from, to] = [end + 1, end + 1 + Number(length)];
    while (said.bytes.length < to) await this.#more();
    const bytes = said.bytes.slice(from, to);
    said.pass(said.place + to);
    if (word === 'ok') return bytes;
    if (word === 'none') return null;
    throw refusalOf(Buffer.from(bytes).toString());
  }

  async close() {
    this.#isClosed = true;
    this.#hold(1);
    this.#child.stdin.end();
    await this.#end;
  }
}

module.exports = { Program, refusalOf };
