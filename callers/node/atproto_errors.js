// Why there is no frame, or its commit is not verified, in the words of the addon.
'use strict';
const { memory } = require('./atproto_library.js');
const { CID } = require('./cid.js');
const { DagCborError } = require('./errors.js');

// `node` is the CID of the node at fault; else undefined.
class EventError extends DagCborError {
  constructor(kind, message, node) {
    super(kind, message);
    this.node = node;
  }
}
EventError.prototype.name = 'EventError';

const eventRefusal = (code, node) =>
  new EventError(...memory.reason(code), node?.length ? new CID(node) : undefined);

module.exports = { EventError, eventRefusal };
