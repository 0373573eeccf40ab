// What TypeScript says of the types: this file is compiled, and not run.
import dagcbor = require('dagcbor');
import * as atproto from 'dagcbor/atproto';
import * as codec from 'dagcbor/codec';
import { Change, Store, StoreLocked } from 'dagcbor/store';
import { CID, CarCheck, Data, decode, decodeFirst, encode, name, verify } from 'dagcbor';

// As `multiformats` has them.
interface BlockEncoder<Code extends number, T> {
  name: string;
  code: Code;
  encode(data: T): Uint8Array;
}
interface BlockDecoder<Code extends number, T> {
  code: Code;
  decode(bytes: Uint8Array | ArrayBuffer): T;
}
interface BlockCodec<Code extends number, T> extends BlockEncoder<Code, T>, BlockDecoder<Code, T> {}
interface ForeignCid {
  readonly code: number;
  readonly version: 0 | 1;
  readonly multihash: { code: number; size: number; digest: Uint8Array; bytes: Uint8Array };
  readonly bytes: Uint8Array;
  readonly '/': Uint8Array;
  readonly byteOffset: number;
  readonly byteLength: number;
  toV1(): ForeignCid;
  equals(other: unknown): boolean;
  toString(base?: { prefix: string; encode(bytes: Uint8Array): string }): string;
  toJSON(): { '/': string };
  link(): ForeignCid;
  readonly [Symbol.toStringTag]: string;
}
// As `interface-blockstore` has it, of the CIDs of this package.
interface Pair {
  cid: CID;
  block: Uint8Array;
}
type Many<T> = Iterable<T> | AsyncIterable<T>;
interface Blockstore {
  has(key: CID): boolean | Promise<boolean>;
  put(key: CID, val: Uint8Array): CID | Promise<CID>;
  putMany(source: Many<Pair>): Many<CID>;
  get(key: CID): Uint8Array | Promise<Uint8Array>;
  getAll(): Many<Pair>;
  getMany(source: Many<CID>): Many<Pair>;
  delete(key: CID): void | Promise<void>;
  deleteMany(source: Many<CID>): Many<CID>;
}
interface Note {
  text: string;
}

const taken: BlockCodec<0x71, unknown> = codec;
const note: Note = { text: 'hi' };
const block = encode(note);
const data: Data = decode(block);
const read: Note = decode<Note>(block);
const [first, rest]: [Data, Uint8Array] = decodeFirst(block);
const ours: CID = name(block);
const theirs: ForeignCid = ours;
encode({ theirs, ours, map: new Map([['a', 1]]) });
verify(theirs, block);
// @ts-expect-error: what another package made is not of this class
const none: CID = theirs;
const check: Promise<CarCheck> = dagcbor.checkCar([block]);
const kept = async (path: URL): Promise<CID[]> => {
  const store = await Store.open(path, { program: 'dagstore' });
  const blockstore: Blockstore = store;
  await blockstore.put(await store.put(block), block);
  await store.addRoots(await store.put(block, 0x71n), theirs);
  const changes: Change[] = [{ put: block, codec: 'raw' }, { put: block, cid: theirs }, { delete: ours }, { addRoot: ours }];
  for await (const cid of store) changes.push({ dropRoot: cid });
  // @ts-expect-error: a change has one of these names
  changes.push({ remove: ours });
  const { roots, sections } = await store.importCar('blocks.car');
  await dagcbor.resolve(store, roots[sections], 'a');
  return store.commit(changes);
};
const follow = async (source: AsyncIterable<Uint8Array>): Promise<Map<string, atproto.Known>> => {
  const known = new Map<string, atproto.Known>();
  for await (const event of atproto.readEvents(source)) {
    if (event instanceof atproto.AccountEvent && !event.active) known.delete(event.did);
    if (!(event instanceof atproto.CommitEvent)) continue;
    const { did, changes, known: next, signed } = atproto.verifyEvent(event, known.get(event.repo));
    known.set(did, signed.length ? next : { root: theirs, rev: event.rev });
    const cids: (CID | null)[] = changes.map((it) => it.new);
    // @ts-expect-error: a record may have been deleted
    cids.map((cid) => cid.code);
  }
  return known;
};
const files = async (handle: dagcbor.FileHandle, base: { decode(text: string): Uint8Array }): Promise<(CID | Uint8Array)[]> => {
  const indexed = await dagcbor.CarIndexedReader.fromFile('blocks.car');
  const held: dagcbor.Block | undefined = await indexed.get(theirs);
  const read: dagcbor.CarBufferReader = dagcbor.CarBufferReader.fromBytes(block);
  const version: 1 | 2 = read.version;
  const { bytes } = await dagcbor.CarReader.readRaw(handle, { cid: theirs, blockOffset: 0, blockLength: version });
  await dagcbor.CarWriter.updateRootsInFile(version, [ours, theirs]); // by its number
  const same: Uint8Array = await dagcbor.CarWriter.updateRootsInBytes(bytes, ours);
  const { writer, out } = dagcbor.CarWriter.createAppender();
  await writer.put(held ?? { cid: ours, bytes: same });
  for await (const piece of out) read.has(CID.parse(String(piece), base));
  const [cid, rest] = CID.decodeFirst(bytes);
  // @ts-expect-error: what is read without promises has none
  await read.get(cid).then();
  return CID.equals(cid, theirs) ? [cid] : [rest.subarray(CID.inspectBytes(rest).size), ...read.cids()];
};
const missing = (error: unknown): CID | undefined =>
  error instanceof atproto.EventError && error.kind === 'MissingNode' ? error.node : undefined;
const proven = async (file: Uint8Array): Promise<Uint8Array> => {
  const { records, data }: atproto.Repository = await atproto.readRepo([file]);
  const [key] = records.keys();
  const [event, left]: [atproto.Event, Uint8Array] = atproto.readEvent(file);
  atproto.verifyEvent(event, { root: data, rev: (await atproto.readCommit(file)).rev });
  // @ts-expect-error: nothing of it is written
  records.set('a', data);
  return atproto.recordProof(left, key);
};
const isLocked = (error: unknown): boolean => error instanceof StoreLocked && error.name === 'StoreLocked';
export { files, follow, isLocked, kept, missing, proven };
export { check, data, first, none, read, rest, taken };
