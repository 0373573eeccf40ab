// What `dagstore` says about a call that it refuses, as classes of errors.
'use strict';

class StoreError extends Error {
  get name() {
    return this.constructor.name;
  }
}
class StoreLocked extends StoreError {}
class StoreUnreadable extends StoreError {}
class StoreFull extends StoreError {}
class StoreDiskError extends StoreError {}
class StoreMemoryError extends StoreError {}
class StoreEnded extends StoreError {}
class InvalidBlock extends StoreError {}
class InvalidCar extends StoreError {}
class DamagedBlock extends StoreError {} // with `cid`
class NotFoundError extends StoreError {
  code = 'ERR_NOT_FOUND'; // as blockstores tell it
}

module.exports = {
  DamagedBlock, InvalidBlock, InvalidCar, NotFoundError, StoreDiskError, StoreEnded, StoreError,
  StoreFull, StoreLocked, StoreMemoryError, StoreUnreadable,
};
