// Answers the library's calls: the WebAssembly module beside this file.
import { callsOf } from './dagcbor.js';
import { nativeOf } from './native.js';

const url = new URL('dagcbor.wasm', import.meta.url);
const isNode = url.protocol === 'file:' && globalThis.process?.release?.name === 'node';

const bytesOf = async () => {
  if (isNode) return (await import('node:fs/promises')).readFile(url);
  const answer = await fetch(url);
  if (!answer.ok) throw new Error(`${url}: ${answer.status} ${answer.statusText}`);
  return answer.arrayBuffer();
};

const bytes = await bytesOf();
// Some Nodes have memory of 64-bit addresses only if they are told.
if (isNode && !WebAssembly.validate(bytes)) {
  (await import('node:v8')).setFlagsFromString('--experimental-wasm-memory64');
}
if (!WebAssembly.validate(bytes)) {
  throw new Error('dagcbor: this engine has no memory64 of WebAssembly, or the module is damaged');
}

export const native = nativeOf(callsOf(await WebAssembly.compile(bytes)));
