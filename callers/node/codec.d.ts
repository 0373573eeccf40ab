/**
 * The codec as `multiformats` and Helia take one: a `BlockCodec<0x71, T>`, with the names of the
 * package `@ipld/dag-cbor`.
 */
import type { Data } from './index.js';

export const name: 'dag-cbor';
export const code: 0x71;

/** The one block of a value, like `encode` of `dagcbor`. */
export function encode(value: unknown): Uint8Array;

/** The data of a block, like `decode` of `dagcbor`, also from an ArrayBuffer. */
export function decode<T = Data>(block: Uint8Array | ArrayBuffer): T;

/** The data of the first item, and the bytes after it. */
export function decodeFirst<T = Data>(bytes: Uint8Array): [T, Uint8Array];
