/**
 * Blocks under their CIDs, in a file that lasts: the file of the program `dagstore`, which the
 * package starts and asks. The names are those of blockstores (`interface-blockstore`), as far as
 * they go.
 */
import type { AnyCid, CID } from './index.js';

/** What `dagstore` says of a call that it refuses. The name is that of the class. */
export class StoreError extends Error {}

/** Another process, or another Store, has the file open. */
export class StoreLocked extends StoreError {}

/**
 * The file is not a store, or is of an earlier version, or cannot be opened for reading and
 * writing.
 */
export class StoreUnreadable extends StoreError {}

/** The disk is full. */
export class StoreFull extends StoreError {}

/** The disk failed, or the file is damaged. */
export class StoreDiskError extends StoreError {}

/** The program is out of memory. */
export class StoreMemoryError extends StoreError {}

/** The program ended, or the store is closed. What was answered before is in the file. */
export class StoreEnded extends StoreError {}

/** Bytes that are not a block of their codec, or not the block that the CID names. */
export class InvalidBlock extends StoreError {}

/** Bytes that are not a CAR file, or a CAR file with a block that is not one. */
export class InvalidCar extends StoreError {}

/** The bytes that are stored under `cid` are not those that it names. */
export class DamagedBlock extends StoreError {
  readonly cid: CID | undefined;
}

/** Nothing is stored under the name. */
export class NotFoundError extends StoreError {
  readonly code: 'ERR_NOT_FOUND';
}

/** A codec: 0x70 for DAG-PB. */
export type Codec = 'dag-cbor' | 'raw' | number | bigint;

/** A change. A block is DAG-CBOR if neither codec nor CID is given. */
export type Change =
  | { readonly put: Uint8Array; readonly codec?: Codec }
  | { readonly put: Uint8Array; readonly cid: AnyCid }
  | { readonly delete: AnyCid }
  | { readonly addRoot: AnyCid }
  | { readonly dropRoot: AnyCid };

/** What comes, at once or later. */
export type Many<T> = Iterable<T> | AsyncIterable<T>;

/** A block and its name. */
export interface Pair {
  readonly cid: AnyCid;
  readonly block: Uint8Array;
}

/** The same, as CAR files have it. */
export interface Section {
  readonly cid: AnyCid;
  readonly bytes: Uint8Array;
}

/**
 * A caller may make several calls at once: each waits for those before it. A change is on the disk
 * when its promise is kept. What is changed in a block after a call has begun is not seen.
 */
export class Store implements AsyncIterable<CID> {
  private constructor();
  /**
   * Opens the file, or makes it, and has it alone until `close`. The program is the one given, or
   * that of the environment variable DAGSTORE, or the one in this package, or one on PATH. An open
   * store that has no call to answer does not keep a script from ending.
   */
  static open(path: string | URL, options?: { readonly program?: string }): Promise<Store>;
  /** The block, with the bytes that the CID names; else a NotFoundError. */
  get(cid: AnyCid): Promise<Uint8Array>;
  has(cid: AnyCid): Promise<boolean>;
  /** Keeps the block, and returns its CID, of version 1 by SHA-256. DAG-CBOR is the default. */
  put(block: Uint8Array, codec?: Codec): Promise<CID>;
  /** The same, if this is its CID. */
  put(cid: AnyCid, block: Uint8Array): Promise<CID>;
  /** Takes out what is stored under the name, if anything is. */
  delete(cid: AnyCid): Promise<void>;
  /** Makes all of the changes, or none. Returns the CIDs of the blocks, in their order. */
  commit(changes: Iterable<Change>): Promise<CID[]>;
  /** How many names are listed. The time grows with their number. */
  count(): Promise<number>;
  /** The names, in the order of their bytes. One that is put or deleted meanwhile may be missed. */
  [Symbol.asyncIterator](): AsyncGenerator<CID>;
  /** Puts each, and yields its CID once it is on the disk: up to 256 of them, or 1 MB, at once. */
  putMany(source: Many<Pair | Section>): AsyncGenerator<CID>;
  getMany<T extends AnyCid>(source: Many<T>): AsyncGenerator<{ cid: T; block: Uint8Array }>;
  deleteMany<T extends AnyCid>(source: Many<T>): AsyncGenerator<T>;
  /** All blocks, in the order of their names. */
  getAll(): AsyncGenerator<{ cid: CID; block: Uint8Array }>;
  /** The names that are kept as roots, in their order. */
  roots(): Promise<CID[]>;
  /** Keeps each as a root, after the others, if it is not one yet. A block need not be there. */
  addRoots(...cids: AnyCid[]): Promise<void>;
  /** Takes each out of the roots, if it is one. The blocks stay. */
  dropRoots(...cids: AnyCid[]): Promise<void>;
  /** Keeps the blocks and the roots of a CAR file, all of them or none. */
  importCar(path: string | URL): Promise<{ roots: CID[]; sections: number }>;
  /** Makes a file of all blocks (CAR, version 1), with the roots. It overwrites no file. */
  exportCar(path: string | URL): Promise<void>;
  /** Ends the program. A second call does nothing. */
  close(): Promise<void>;
}
