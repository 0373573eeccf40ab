// The page's side of the worker. The page is one file, with the module and the worker inside, or a
// folder of files.

import { load } from './dagcbor.js';
import { readBy } from './cid.js';
import { followBy } from './paths.js';
import { fromBase64 } from './text.js';

const moduleBytes = async () => {
  const inside = document.getElementById('module');
  if (inside) return fromBase64(inside.textContent.trim());
  const answer = await fetch('dagcbor.wasm');
  if (!answer.ok) throw new Error(`dagcbor.wasm: ${answer.status}`);
  return new Uint8Array(await answer.arrayBuffer());
};

const policy = globalThis.trustedTypes?.createPolicy('worker', { createScriptURL: (it) => it });
const trusted = (url) => policy?.createScriptURL(url) ?? url;

const started = () => {
  const inside = document.getElementById('worker');
  if (!inside) return new Worker(trusted('worker.js'), { type: 'module' });
  const url = URL.createObjectURL(new Blob([inside.textContent], { type: 'text/javascript' }));
  return new Worker(trusted(url));
};

export class Asker {
  constructor() {
    this.waiting = new Map();
    this.last = 0;
    this.worker = started();
    this.worker.onmessage = ({ data }) => this.hear(data);
    this.worker.onerror = (event) => this.give(new Error(event.message || 'the worker ended'));
    this.ready = moduleBytes().then((module) => this.start(module));
  }

  // The worker has the library, and this side has it too, for the texts of CIDs and for paths.
  async start(module) {
    const [library] = await Promise.all([load(module), this.send('start', { module })]);
    readBy(library);
    followBy(library);
  }

  hear({ number, answer, progress, error }) {
    const asked = this.waiting.get(number);
    if (!asked) return;
    if (progress) asked.told?.(progress);
    else {
      this.waiting.delete(number);
      if (error !== undefined) asked.reject(Object.assign(new Error(error.message), error));
      else asked.resolve(answer);
    }
  }

  give(error) {
    for (const asked of this.waiting.values()) asked.reject(error);
    this.waiting.clear();
  }

  send(call, given, told) {
    this.last += 1;
    const number = this.last;
    return new Promise((resolve, reject) => {
      this.waiting.set(number, { resolve, reject, told });
      this.worker.postMessage({ number, call, ...given });
    });
  }

  async ask(call, given = {}, told) {
    await this.ready;
    return this.send(call, given, told);
  }
}
