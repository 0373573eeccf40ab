// The thread that judges. Each message has a number, and its answer has the same; those of a walk
// come in batches before it.

import { load } from './dagcbor.js';
import { readBy } from './cid.js';
import { judge } from './judge.js';
import { frontOf, walk } from './car.js';
import { writeJson } from './json.js';
import { tokensOf } from './spell.js';

let library;
const stopped = new Set(); // walks by their numbers

const calls = {
  async start({ module }) {
    library = await load(module);
    readBy(library);
    return {};
  },

  // Says by its front if it is a CAR file.
  async look({ file }) {
    return { front: await frontOf(library, file) };
  },

  async judge({ file }) {
    const bytes = new Uint8Array(await file.arrayBuffer());
    return { bytes, ...judge(library, bytes) };
  },

  async json({ file, indent, most }) {
    const bytes = new Uint8Array(await file.arrayBuffer());
    const { shape, code } = judge(library, bytes);
    if (!shape || code < 0) return { text: '', isWhole: false };
    return writeJson(bytes, shape, indent, most);
  },

  // The block of DAG-JSON, its name and its kind; or the number of the refusal.
  async spell({ text }) {
    const { payload, tokens } = tokensOf(text);
    const bytes = library.spell(payload, tokens);
    if (typeof bytes === 'number') return { code: bytes };
    return { code: library.check(bytes), bytes, name: library.name(bytes) };
  },

  // Walks may go on beside each other: no call of the library keeps anything for the next.
  async walk({ file, front, walk: mine }, post) {
    const told = (batch, at) => post({ batch, at });
    return walk(library, file, front, { told, isStopped: () => stopped.has(mine) });
  },

  async stop({ walk: which }) {
    stopped.add(which);
    return {};
  },
};

// The memory of an answer's own arrays, which is handed over and not copied.
const handed = (answer) => {
  const arrays = [answer, answer.shape, answer.batch].flatMap((it) => Object.values(it ?? {}));
  return [...new Set(arrays.filter((it) => ArrayBuffer.isView(it)).map((it) => it.buffer))];
};

self.onmessage = async ({ data }) => {
  const { number, call, ...given } = data;
  const post = (progress) => self.postMessage({ number, progress }, handed(progress));
  try {
    const answer = await calls[call](given, post);
    self.postMessage({ number, answer }, handed(answer));
  } catch (error) {
    const { line, column } = error;
    self.postMessage({ number, error: { message: String(error?.message ?? error), line, column } });
  }
};
