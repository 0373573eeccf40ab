/**
 * DAG-CBOR by a proved library. The library judges if bytes are a block, for `decode` and for
 * `encode`.
 */

/**
 * The data of a block. An integer beyond 2^53 is a bigint. A map is an object whose keys are all
 * its own, also `__proto__`.
 */
export type Data =
  | null
  | boolean
  | number
  | bigint
  | string
  | Uint8Array
  | CID
  | Data[]
  | { [key: string]: Data };

export type Kind = 'null' | 'bool' | 'integer' | 'string' | 'bytes' | 'list' | 'map' | 'link';

/** Why something is refused. */
export type Refusal =
  | 'Msg'
  | 'Eof'
  | 'Mismatch'
  | 'LengthMismatch'
  | 'Unsupported'
  | 'RequireUtf8'
  | 'CastOverflow'
  | 'DepthOverflow'
  | 'TrailingData'
  | 'IndefiniteSize'
  | 'NonMinimal'
  | 'UnorderedKey'
  | 'InvalidCid'
  | 'UnknownBase'
  | 'TooLong'
  | 'InvalidCharacter'
  | 'InvalidLength'
  | 'TrailingBits'
  | 'LeadingZero'
  | 'InvalidVersion'
  | 'OtherBytes'
  | 'NotVerified'
  | 'NotRead'
  | 'MissingBlock'
  | 'Truncated'
  | 'NoBlock'
  | 'OtherHeader'
  | 'InvalidOffset'
  | 'InvalidVarint'
  | 'UnexpectedField'
  | 'NoHash'
  | 'NameNotText'
  | 'NotANode'
  | 'UnsortedLinks'
  | EventRefusal;

/** Why bytes are not a frame, or its commit is not verified (`dagcbor/atproto`). */
export type EventRefusal =
  | 'NoEnd'
  | 'NoHeader'
  | 'OtherOperation'
  | 'NoKind'
  | 'NoBody'
  | 'NoCommitFrame'
  | 'NoKnown'
  | 'TooBig'
  | 'Rebase'
  | 'ManyOperations'
  | 'ManyBytes'
  | 'NotAfter'
  | 'OtherRoot'
  | 'NoRoot'
  | 'OtherForm'
  | 'NoCar'
  | 'OtherCommit'
  | 'NoCommit'
  | 'OtherRepository'
  | 'OtherRevision'
  | 'LeadsElsewhere'
  | 'MissingNode'
  | 'OtherBytes'
  | 'NoNode'
  | 'OtherTree'
  | 'KeyLength'
  | 'OtherState';

/** Bytes that are not a block, a value that has no block, or what is not a CID. */
export class DagCborError extends Error {
  constructor(
    kind: Refusal | undefined,
    message: string,
    place?: number | readonly (string | number)[],
  );
  /** Undefined for a file that is not a repository (`dagcbor/atproto`): the message tells why. */
  readonly kind: Refusal | undefined;
  /**
   * For bytes that are not a block: the offset of the byte with which the refusal comes, or the
   * number of bytes, if they end too early. For a value that has no block, or that a type made from
   * a schema refuses: the keys and indices that lead to what is refused.
   */
  readonly place: number | readonly (string | number)[] | undefined;
}

/** A multihash, like that of `multiformats`. */
export interface Multihash {
  readonly code: number;
  readonly size: number;
  readonly digest: Uint8Array;
  readonly bytes: Uint8Array;
}

/** A base, like one of `multiformats`: its encoder, and its decoder. */
export interface Base {
  readonly prefix: string;
  encode(bytes: Uint8Array): string;
}
export interface BaseDecoder {
  decode(text: string): Uint8Array;
}

/** What the front of a CID says, before its digest. */
export interface CidFront {
  readonly version: 0 | 1;
  readonly codec: number;
  readonly multihashCode: number;
  readonly digestSize: number;
  readonly multihashSize: number;
  /** Of the whole CID. */
  readonly size: number;
}

/** A CID, with the names of `multiformats`, whose `CID.asCID` takes one. */
export class CID {
  #binary;
  /**
   * From the binary form, or from the text: Qm.. for version 0, and b, B, z or f first for version
   * 1.
   */
  constructor(value: Uint8Array | string);
  /** Reads a text in another base than those above by the decoder of that base. */
  static parse(text: string, base?: BaseDecoder): CID;
  static decode(bytes: Uint8Array): CID;
  /** The CID at the front of bytes, and the bytes after it, which lie over the same memory. */
  static decodeFirst(bytes: Uint8Array): [CID, Uint8Array];
  /** What the CID at the front of bytes says. No bytes after what it says need be there. */
  static inspectBytes(bytes: Uint8Array): CidFront;
  /** True if both are the same CID, of this package or of another. */
  static equals(one: unknown, other: unknown): boolean;
  /**
   * The same CID as one of this package, from one of another package; null if the value is not a
   * CID.
   */
  static asCID(value: unknown): CID | null;
  static create(version: number, code: number, multihash: { readonly bytes: Uint8Array }): CID;
  static createV0(multihash: { readonly bytes: Uint8Array }): CID;
  static createV1(code: number, multihash: { readonly bytes: Uint8Array }): CID;
  readonly version: 0 | 1;
  /** The number of the codec: 0x71 for DAG-CBOR. */
  readonly code: number;
  readonly multihash: Multihash;
  /** A copy of the binary form, the same one each time. What is written into it changes no CID. */
  readonly bytes: Uint8Array;
  readonly '/': Uint8Array;
  readonly byteOffset: number;
  readonly byteLength: number;
  readonly asCID: this;
  readonly [Symbol.toStringTag]: 'CID';
  link(): this;
  toV0(): CID;
  toV1(): CID;
  /** True if it is the same CID, of this package or of another. */
  equals(other: unknown): boolean;
  /** The text: Qm.. for version 0, and base32 after b for version 1; or in another base. */
  toString(base?: Base): string;
  toJSON(): { '/': string };
}

// A Uint8Array must be over memory that is not shared: over a SharedArrayBuffer it is a TypeError.

/** The data of a block. The caller may give its type, which nothing checks. */
export function decode<T = Data>(block: Uint8Array): T;

/** The data of the first item, and the bytes after it, which lie over the same memory. */
export function decodeFirst<T = Data>(bytes: Uint8Array): [T, Uint8Array];

/**
 * The one block of a value. Keys come in the order of blocks, whatever the order in the object.
 * Beside `Data` it takes a CID of `multiformats`, a Map whose keys are texts, and an object of
 * another class, as a map of its own enumerable properties. It refuses a float, undefined, a text
 * with a surrogate alone, and any other object, such as a Date, a Set or a Uint16Array. Nobody can
 * tell what a Proxy stands for: if it shows an Array or a plain object it is written, and otherwise
 * it is refused (`Unsupported`), for example the reactive Map of a framework.
 *
 * A block of up to 1,024 bytes may share its `buffer` with others, as a Buffer of Node does. If
 * that matters, as for `postMessage`, take its `slice()`. A `ReadableStream` of bytes takes the
 * `buffer`, and so the other blocks become empty.
 */
export function encode(value: unknown): Uint8Array;

/** The kind of a block. */
export function check(block: Uint8Array): Kind;

/** The links of the first item, in their order. What follows it is not looked at. */
export function links(block: Uint8Array): CID[];

/**
 * A text such as `a/0/b`, whose segments stand between slashes, and empty ones say nothing; or an
 * array of segments, each taken whole. A segment is a key of a map, or the index of an item of a
 * list in decimal. Only an array reaches a key that is empty or has a slash.
 */
export type Path = string | readonly string[];

/**
 * The data to which a path leads in a block; undefined if it leads nowhere. A link is an item, and
 * nothing is in it.
 */
export function find<T = Data>(block: Uint8Array, path: Path): T | undefined;

/**
 * What holds blocks by their names: a call, or an object with `get`, such as a `CarReader` or a
 * blockstore.
 */
export type Blocks = Get | { get: Get };
export type Get = (cid: CID) => Held | Promise<Held>;
export type Held = Uint8Array | { readonly bytes: Uint8Array } | undefined | null;

/**
 * The data to which the path leads from the block of the CID, over links, as in `ipfs dag get`;
 * undefined if it leads nowhere. Each block on the way is verified, so either answer holds for
 * everyone who has blocks of these names. The call is refused if a block on the way is not held
 * (`MissingBlock`), is of another codec (`NotRead`) or hash function (`NotVerified`), has other
 * bytes than its name says (`OtherBytes`), or is not a block.
 */
export function resolve<T = Data>(get: Blocks, cid: AnyCid, path: Path): Promise<T | undefined>;

/** The CID of any bytes as a block: version 1, DAG-CBOR, SHA-256. */
export function name(block: Uint8Array): CID;

/** Three numbers for each token of a block: its kind, its number, its place. */
export function tape(block: Uint8Array): BigUint64Array;

/**
 * The verdict on bytes that came under a name. It is `ok ..` or `refused ..` if they are the bytes
 * that the name names.
 */
export function verify(cid: AnyCid, bytes: Uint8Array): Verdict;

// CAR files, of version 1 or 2. The names are those of the package `@ipld/car`.

/** A CID of this package, or of another that has its binary form in `bytes`. */
export type AnyCid = { readonly bytes: Uint8Array };

/** Bytes as they come, for example from a stream of Node. */
export type Source = AsyncIterable<Uint8Array> | Iterable<Uint8Array>;

/**
 * How a file is read. `sha256` computes the digests of blocks of 8 KB or more in the place of the
 * library, such as `(bytes) => createHash('sha256').update(bytes).digest()` of Node's `crypto`, and
 * is trusted: if it says that a block has the digest of its CID, the block is taken for the one
 * that the CID names. The library still judges each block, so verdicts are the same. It is called
 * on the thread that asks, with a copy.
 */
export interface CarOptions {
  readonly sha256?: (bytes: Uint8Array) => Uint8Array;
}

/** The verdict on a section, in the words of `dagcar check`. */
export type Verdict =
  | `ok ${Kind}`
  | `refused ${Refusal}`
  | 'other bytes'
  | 'not read'
  | 'not verified';

/** The version of a file. */
export type CarVersion = 1 | 2;

/** A section of a file. */
export interface Block {
  readonly cid: CID;
  readonly bytes: Uint8Array;
  readonly verdict: Verdict;
}

/**
 * Bytes that are not a CAR file. `place` is the offset in the file of the header or the section
 * that is not one.
 */
export class CarError extends DagCborError {
  readonly place: number;
  /** For `checkCar`: what was found before. Not there if the fault is in the header. */
  readonly checked?: CarCheck;
}

/** The sections of a file, one at a time, and its roots. */
export class CarBlockIterator implements AsyncIterable<Block> {
  static fromBytes(bytes: Uint8Array, options?: CarOptions): Promise<CarBlockIterator>;
  static fromIterable(source: Source, options?: CarOptions): Promise<CarBlockIterator>;
  readonly version: CarVersion;
  getRoots(): Promise<CID[]>;
  [Symbol.asyncIterator](): AsyncIterator<Block>;
}

/** An open file of Node: its number, or what `open` of `fs/promises` gives. */
export type OpenFile = number | FileHandle;
export interface FileHandle {
  read(into: Uint8Array, at: number, count: number, place: number): Promise<{ bytesRead: number }>;
  write(of: Uint8Array, at: number, count: number, place: number): Promise<{ bytesWritten: number }>;
}

/** A file in memory, without promises. It is read by the thread that calls. */
export class CarBufferReader {
  static fromBytes(bytes: Uint8Array, options?: CarOptions): CarBufferReader;
  readonly version: CarVersion;
  getRoots(): CID[];
  /** True if a verified block has the name. */
  has(cid: AnyCid): boolean;
  /** The first verified block of the name. */
  get(cid: AnyCid): Block | undefined;
  /** All sections, whatever their verdicts. */
  blocks(): Block[];
  cids(): CID[];
}

/**
 * A file on disk. Its names and places are in memory. In the package for browsers `fromFile`
 * rejects.
 */
export class CarIndexedReader {
  /** Opens the file until `close()`, and reads all of it. */
  static fromFile(path: string, options?: CarOptions): Promise<CarIndexedReader>;
  readonly version: CarVersion;
  getRoots(): Promise<CID[]>;
  /** True if a verified block had the name. */
  has(cid: AnyCid): Promise<boolean>;
  /** The first block of the name that was verified, read and verified again. */
  get(cid: AnyCid): Promise<Block | undefined>;
  /** All sections, read and judged again. */
  blocks(): AsyncGenerator<Block>;
  cids(): AsyncGenerator<CID>;
  close(): Promise<void>;
}

/** A file in memory. */
export class CarReader {
  static fromBytes(bytes: Uint8Array, options?: CarOptions): Promise<CarReader>;
  static fromIterable(source: Source, options?: CarOptions): Promise<CarReader>;
  /**
   * The block that stands there in an open file of Node, if it is verified. Else it is refused
   * (`OtherBytes`, `NotVerified`), also if the file ends before it does (`Truncated`).
   */
  static readRaw(
    file: OpenFile,
    index: { readonly cid: AnyCid; readonly blockOffset: number; readonly blockLength: number },
  ): Promise<{ cid: AnyCid; bytes: Uint8Array; verdict: Verdict }>;
  readonly version: CarVersion;
  getRoots(): Promise<CID[]>;
  /** True if a verified block has the name. */
  has(cid: AnyCid): Promise<boolean>;
  /** The first verified block of the name. */
  get(cid: AnyCid): Promise<Block | undefined>;
  /** All sections, whatever their verdicts. */
  blocks(): AsyncGenerator<Block>;
  cids(): AsyncGenerator<CID>;
}

/** The names in a file, one at a time, and its roots. */
export class CarCIDIterator implements AsyncIterable<CID> {
  static fromBytes(bytes: Uint8Array, options?: CarOptions): Promise<CarCIDIterator>;
  static fromIterable(source: Source, options?: CarOptions): Promise<CarCIDIterator>;
  readonly version: CarVersion;
  getRoots(): Promise<CID[]>;
  [Symbol.asyncIterator](): AsyncIterator<CID>;
}

/** Where a section is in a file, and where its block is. */
export interface BlockIndex {
  readonly cid: CID;
  readonly offset: number;
  readonly length: number;
  readonly blockOffset: number;
  readonly blockLength: number;
  readonly verdict: Verdict;
}

/** Where the sections of a file are, one at a time, and its roots. */
export class CarIndexer implements AsyncIterable<BlockIndex> {
  static fromBytes(bytes: Uint8Array, options?: CarOptions): Promise<CarIndexer>;
  static fromIterable(source: Source, options?: CarOptions): Promise<CarIndexer>;
  readonly version: CarVersion;
  getRoots(): Promise<CID[]>;
  [Symbol.asyncIterator](): AsyncIterator<BlockIndex>;
}

/** What was found in a file. */
export interface CarCheck {
  readonly roots: CID[];
  /** How often each verdict was given. */
  readonly verdicts: { readonly [verdict in Verdict]?: number };
  /**
   * The roots and links that lead to no verified block of the file, each once, in the order of
   * their bytes. A CID by the identity hash holds its block itself: its links are followed.
   */
  readonly missing: CID[];
  /** True if nothing is missing, and each verdict is `ok ..` or `not read`. */
  readonly isWell: boolean;
}

/** Checks a whole file, with no more than a section and the names in memory. */
export function checkCar(
  source: Uint8Array | Source,
  options?: CarOptions,
): Promise<CarCheck>;

/** Writes a file of version 1. */
export class CarWriter {
  /** `out` gives the file as it is written. */
  static create(roots?: AnyCid | readonly AnyCid[]): {
    writer: CarWriter;
    out: AsyncIterable<Uint8Array>;
  };
  /** The same for sections alone, to follow a file that is there. */
  static createAppender(): { writer: CarWriter; out: AsyncIterable<Uint8Array> };
  /**
   * Writes other roots into the header of a file of version 1, if they take as many bytes as those
   * there. Else it is refused, and nothing is written: `LengthMismatch`, or `OtherHeader` for a
   * file of version 2. The promise gives the same bytes.
   */
  static updateRootsInBytes<T extends Uint8Array>(bytes: T, roots: AnyCid | readonly AnyCid[]): Promise<T>;
  /** The same in a file of Node that is open for reading and writing, and not for appending. */
  static updateRootsInFile(file: OpenFile, roots: AnyCid | readonly AnyCid[]): Promise<void>;
  /**
   * Writes a section. If the bytes are not those of their CID they are refused (`OtherBytes`), and
   * nothing is written. The promise is kept when the reader asks for what follows.
   */
  put(block: { readonly cid: AnyCid; readonly bytes: Uint8Array }): Promise<void>;
  close(): Promise<void>;
}

/** A file of version 1 that is written into memory of a given size. */
export interface BufferWriter {
  /**
   * If the header has no room for it, `resize` moves what was written; else it throws a RangeError.
   */
  addRoot(root: AnyCid, options?: { readonly resize?: boolean }): void;
  /**
   * Writes a section, as `CarWriter` does. It throws a RangeError if the memory has no room for it.
   */
  write(block: { readonly cid: AnyCid; readonly bytes: Uint8Array }): void;
  /** The file. If the header has another size than was foretold, `resize` is needed. */
  close(options?: { readonly resize?: boolean }): Uint8Array;
}

export const CarBufferWriter: {
  createWriter(
    buffer: ArrayBuffer,
    options?: {
      readonly roots?: readonly AnyCid[];
      readonly byteOffset?: number;
      readonly byteLength?: number;
      readonly headerSize?: number;
    },
  ): BufferWriter;
  /** How many bytes a section has. */
  blockLength(block: { readonly cid: AnyCid; readonly bytes: Uint8Array }): number;
  /**
   * How many bytes the header has: for these roots, for roots of these lengths, for a count of
   * roots.
   */
  headerLength(header: { readonly roots: readonly AnyCid[] }): number;
  calculateHeaderLength(rootLengths: readonly number[]): number;
  estimateHeaderLength(rootCount: number, rootByteLength?: number): number;
};
