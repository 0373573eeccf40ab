/**
 * The codec of DAG-PB as `multiformats` and Helia take one: a `BlockCodec<0x70, PBNode>`, with the
 * names of the package `@ipld/dag-pb`.
 */
import type { CID } from './index.js';

/** A link: the CID that it leads to, its name, and the size of all blocks below it. */
export interface PBLink {
  Hash: CID;
  Name?: string;
  Tsize?: number | bigint;
}

/** A node: its data, which for a file or a directory of IPFS is a message of UnixFS, and its links. */
export interface PBNode {
  Data?: Uint8Array;
  Links: PBLink[];
}

export const name: 'dag-pb';
export const code: 0x70;

/**
 * The data of a block. Links are in the order of the block. A block in which a name is not UTF-8 is
 * refused as `NameNotText`.
 */
export function decode(block: Uint8Array | ArrayBuffer): PBNode;

/** The links of a block, in its order, whatever their names are. `@ipld/dag-pb` has no such call. */
export function links(block: Uint8Array | ArrayBuffer): CID[];

/**
 * The one canonical block of a node. If the node does not have this shape it is refused as
 * `NotANode`, and if its links are not sorted by the bytes of their names as `UnsortedLinks`:
 * `prepare` sorts them.
 */
export function encode(node: PBNode): Uint8Array;

/**
 * The node that a value means: bytes or a text are its data, and links are CIDs, or have one as
 * `Hash`, in any order.
 */
export function prepare(node: unknown): PBNode;

export function createNode(data: Uint8Array | string | undefined, links?: unknown[]): PBNode;

export function createLink(name: string, size: number, cid: CID): PBLink;

/** Throws if `encode` would. */
export function validate(node: PBNode): void;
