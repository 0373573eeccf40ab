/**
 * Repositories and events of the AT Protocol, verified. A proved library of its own judges if a
 * file is a repository, and if a commit is verified. It takes memory, and the package has it if it
 * was built with it.
 */
import type { AnyCid, CID, Data, DagCborError, EventRefusal, Source } from './index.js';

/** A record's key as a text. A byte that is not UTF-8 is a surrogate alone: 0xff is `\udcff`. */
export type Key = string;

/** What a commit says. */
export interface Signed {
  readonly did: string;
  readonly rev: string;
  /** The root of the tree. */
  readonly data: CID;
  /** The commit before; null as a rule. */
  readonly prev: CID | null;
  /** The signature, which is not checked. */
  readonly sig: Uint8Array;
  /** The bytes that the signature is of. */
  readonly signed: Uint8Array;
}

/** A commit, and the records of its tree. */
export interface Repository extends Signed {
  /** The CID of each record by its key, in the order of the keys' bytes. */
  readonly records: ReadonlyMap<Key, CID>;
}

/** A commit alone. */
export interface RepoCommit extends Signed {
  readonly cid: CID;
}

/**
 * The repository that a CAR file is. The commit and the whole tree are verified; records need not
 * be in the file. For any other file a DagCborError tells why, in the words of `dagcar records`,
 * and its `kind` is undefined. The file is in memory meanwhile, and a thread of the pool reads it.
 */
export function readRepo(source: Uint8Array | Source): Promise<Repository>;

/**
 * The commit that the first root of a CAR file names. No other block need be in the file, so the
 * file of an event is enough, or that of `recordProof`. For any other file a DagCborError tells
 * why, in the words of `dagcar commit`.
 */
export function readCommit(source: Uint8Array | Source): Promise<RepoCommit>;

/**
 * A CAR file that proves which record the key has, or that it has none: the commit, the nodes on
 * the way to the key, and the record, if there is one. No other blocks need be in the source. For
 * any other file a DagCborError tells why, in the words of `dagcar record-proof`.
 */
export function recordProof(
  source: Uint8Array | Source,
  key: Key | Uint8Array,
): Promise<Uint8Array>;

/**
 * Bytes that are not a frame, or a commit that is not verified. For `MissingNode`, `OtherBytes` and
 * `NoNode`, `node` is the CID of the tree's node that is at fault; else it is undefined.
 */
export class EventError extends DagCborError {
  constructor(kind: EventRefusal, message: string, node?: CID);
  readonly kind: EventRefusal;
  readonly node: CID | undefined;
}

/** A frame as it was read: nothing in it is verified. */
export class Frame {
  protected constructor(fields: object);
  /** A copy of its bytes. */
  readonly frame: Uint8Array;
}

/** What the host says was done with the record of a path: `create`, `update` or `delete`. */
export interface RepoOp {
  readonly action: string;
  readonly path: string;
  readonly cid: CID | null;
  readonly prev: CID | null;
}

/** A commit, as the host tells of it. `blocks` is a CAR file, for `CarReader`. */
export class CommitEvent extends Frame {
  readonly seq: number | bigint;
  readonly repo: string;
  readonly rev: string;
  readonly since: string | null;
  readonly commit: CID;
  readonly ops: readonly RepoOp[];
  readonly blobs: readonly CID[];
  readonly prevData: CID | null;
  readonly blocks: Uint8Array;
  readonly tooBig: boolean;
  readonly rebase: boolean;
  readonly time: string;
}

/** A repository as it is, whatever came before. `blocks` has its commit. */
export class SyncEvent extends Frame {
  readonly seq: number | bigint;
  readonly did: string;
  readonly rev: string;
  readonly blocks: Uint8Array;
  readonly time: string;
}

/** An account whose handle or key may have changed. */
export class IdentityEvent extends Frame {
  readonly seq: number | bigint;
  readonly did: string;
  readonly handle: string | null;
  readonly time: string;
}

/** Says if the host serves the repository of an account, and why not. */
export class AccountEvent extends Frame {
  readonly seq: number | bigint;
  readonly did: string;
  readonly active: boolean;
  readonly status: string | null;
  readonly time: string;
}

/** What the host tells about the stream. */
export class InfoEvent extends Frame {
  readonly name: string;
  readonly message: string | null;
}

/** Why the host ends the stream. It is a frame like others, and not thrown. */
export class StreamError extends Frame {
  readonly error: string;
  readonly message: string | null;
}

/** A frame of another kind: its name, and the data of its body. */
export class OtherEvent extends Frame {
  readonly name: string;
  readonly body: Data;
}

export type Event =
  | CommitEvent
  | SyncEvent
  | IdentityEvent
  | AccountEvent
  | InfoEvent
  | StreamError
  | OtherEvent;

/** What is known of a repository: the root of its tree, and its revision. */
export interface Known {
  readonly root: AnyCid;
  readonly rev: string;
}

/** A key of a repository, the CID of its record before, and of the one after. */
export interface Change {
  readonly key: Key;
  readonly old: CID | null;
  readonly new: CID | null;
}

/** A commit that its own frame proves: its operations lead to it from the root before. */
export interface Verified extends Signed {
  /** The root of the tree before. */
  readonly before: CID;
  /** The CID of the commit itself. */
  readonly commit: CID;
  /** The operations, in their order. */
  readonly changes: readonly Change[];
  /** What is known after it, for the next commit of this repository. */
  readonly known: Known & { readonly root: CID };
}

/**
 * The frame at the front of bytes, such as a message of a stream, and the bytes after it, which lie
 * over the same memory. If there is none an EventError tells why. Nothing of a commit is verified
 * yet.
 */
export function readEvent(bytes: Uint8Array): [Event, Uint8Array];

/**
 * The frames in bytes or in a stream of them, one after the other. The first that is not a frame
 * throws an EventError, and ends the iteration. The frame that is read, and a piece of the source,
 * are in memory.
 */
export function readEvents(source: Uint8Array | Source): AsyncGenerator<Event, void, undefined>;

/**
 * Verifies a commit by its frame alone: an event that was read, or the frame's bytes. It is
 * verified against what is known of the repository: `known` of the last commit that was verified,
 * or `{ root: repo.data, rev: repo.rev }` of a whole repository that was read. If it is not
 * verified an EventError tells why. The caller has to check that the account's key signed the
 * commit.
 */
export function verifyEvent(
  event: { readonly frame: Uint8Array } | Uint8Array,
  known?: Known | null,
): Verified;
