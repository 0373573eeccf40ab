// Frames of a host's stream (AT Protocol), and the commits in them: atproto.d.ts says what each
// call does.
'use strict';
const { AtHand } = require('./at_hand.js');
const { eventRefusal } = require('./atproto_errors.js');
const { textOfKey } = require('./atproto_keys.js');
const { memory } = require('./atproto_library.js');
const { isAlone, isBytes, lengthOf, piecesOf, view, whole } = require('./bytes.js');
const { bytesOf } = require('./cid.js');
const { decode } = require('./decode.js');

const NOTHING = new Uint8Array();
const [NO_END, NO_KNOWN] = [-61, -67];
const LARGE = 1 << 22; // bytes of a frame, from which on it is not looked for at each piece
const encoder = new TextEncoder();

// A frame as it was read: nothing in it is verified.
class Frame {
  constructor(fields) {
    Object.freeze(Object.assign(this, fields));
  }
}
class CommitEvent extends Frame {}
class SyncEvent extends Frame {}
class IdentityEvent extends Frame {}
class AccountEvent extends Frame {}
class InfoEvent extends Frame {}
class StreamError extends Frame {}
class OtherEvent extends Frame {}

const FIELDS = [
  [CommitEvent, ['seq', 'repo', 'rev', 'since', 'commit', 'ops', 'blobs', 'prevData', 'blocks',
    'tooBig', 'rebase', 'time']],
  [SyncEvent, ['seq', 'did', 'rev', 'blocks', 'time']],
  [IdentityEvent, ['seq', 'did', 'handle', 'time']],
  [AccountEvent, ['seq', 'did', 'active', 'status', 'time']],
  [InfoEvent, ['name', 'message']],
  [StreamError, ['error', 'message']],
];
const OPERATION = ['action', 'path', 'cid', 'prev'];

// The fields that the map has, and null for the others.
const fieldsOf = (map, names) => Object.fromEntries(names.map((it) => [it, map[it] ?? null]));

// The frame of this kind, given by the number of the library.
const eventOf = (kind, frame, place) => {
  const body = decode(view(frame, place, lengthOf.call(frame)));
  if (FIELDS[kind] === undefined) {
    return new OtherEvent({ name: decode(view(frame, 0, place)).t, body, frame });
  }
  const [Event, names] = FIELDS[kind];
  const fields = fieldsOf(body, names);
  if (Event === CommitEvent) fields.ops = body.ops.map((it) => fieldsOf(it, OPERATION));
  return new Event({ ...fields, frame });
};

// The frame at the front of bytes, as the library tells it, and where it ends.
const eventIn = (bytes, told) => {
  if (typeof told === 'number') throw eventRefusal(told);
  const [kind, body, end] = told;
  return { event: eventOf(kind, view(bytes, 0, end).slice(), body), end };
};

const readEvent = (bytes) => {
  const { event, end } = eventIn(bytes, memory.eventFrame(bytes));
  return [event, view(bytes, end, lengthOf.call(bytes))];
};

// The frames that are whole at hand.
const wholeIn = function* (atHand) {
  for (let { bytes } = atHand; bytes.length; { bytes } = atHand) {
    const told = memory.eventFrame(bytes);
    if (told === NO_END) return;
    const { event, end } = eventIn(bytes, told);
    atHand.pass(atHand.place + end);
    yield event;
  }
};

const eventsOf = async function* (source) {
  const atHand = new AtHand();
  let wanted = 0; // bytes
  for await (const piece of source) {
    atHand.put(whole(piece));
    if (atHand.bytes.length < wanted) continue;
    for (const it of wholeIn(atHand)) yield it;
    const { length } = atHand.bytes;
    wanted = length < LARGE ? 0 : 2 * length;
  }
  for (const it of wholeIn(atHand)) yield it;
  if (atHand.bytes.length) throw eventRefusal(NO_END);
};

const readEvents = (source) => eventsOf(piecesOf(source));

// The bytes of the root and of the revision that are known, or of none.
const knownOf = (known) => {
  if (known === undefined || known === null) return [NOTHING, NOTHING];
  const { root, rev } = known;
  if (typeof rev !== 'string') throw new TypeError('what is known is { root, rev }: CID and text');
  const cid = whole(bytesOf(root));
  if (!cid.length || isAlone(rev)) throw eventRefusal(NO_KNOWN);
  return [cid, encoder.encode(rev)];
};

const verifyEvent = (event, known) => {
  const frame = isBytes(event) ? event : event.frame;
  const [code, answer] = memory.verifyEvent(frame, ...knownOf(known));
  if (code < 0) throw eventRefusal(code, answer);
  const { cid, before, commit, signed, changes } = decode(answer);
  const { did, rev, data, prev, sig } = commit;
  const told = changes.map(([key, old, now]) => ({ key: textOfKey(key), old, new: now }));
  const found = { did, rev, data, prev, before, commit: cid, sig, signed, changes: told };
  return Object.freeze({ ...found, known: Object.freeze({ root: data, rev }) });
};

module.exports = {
  AccountEvent, CommitEvent, Frame, IdentityEvent, InfoEvent, OtherEvent, StreamError, SyncEvent,
  readEvent, readEvents, verifyEvent,
};
