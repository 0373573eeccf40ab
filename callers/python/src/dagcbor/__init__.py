"""DAG-CBOR by a proved library.

    loads(block)         the data of a block: None, bool, int, str, bytes, list, dict and CID
    dumps(value)         the one block of such data
    check(block)         the kind of a block
    find(block, path)    the data to which a path such as a/0/b leads in a block; else a KeyError. A list
                         of segments is a path too, which reaches keys that have slashes
    links(block)         the links of the first item
    name(block)          the block's own CID
    verify(cid, block)   true if the bytes are those that the CID names
    to_json(block)       the data of a block as DAG-JSON
    from_json(text)      the one block of data in DAG-JSON

    resolve(get, cid, path)  the data to which a path leads from a block on, over links

    loads_first(bytes)   the data of the first item, and where it ends
    iter_loads(bytes)    the data of items, one after the other
    load(file), dump(value, file)  the same as `loads` and `dumps`, for a binary file

    read_car(source)                the roots of a CAR file, and its sections in turn
    check_car(source)               its verdicts, and what is missing
    write_car(file, roots, blocks)  writes one

    read_repo(source)    a repository of signed records (AT Protocol): its commit, and its records
    read_commit(source)  its commit alone
    record_proof(source, key)  a CAR file that proves which record a key has, or that it has none

    dag_pb.loads(block), dag_pb.dumps(node)  blocks of DAG-PB, which files of IPFS are made of

    atproto.read_events(source)            frames of a host's stream (AT Protocol)
    atproto.verify_event(event, known)     what is verified of a commit, by its frame alone
    atproto.to_json(block), atproto.from_json(text)  JSON of the AT Protocol

    Store(path)          blocks in a file that lasts, by the program `dagstore`

The library judges if bytes are a block or a CAR file, and is proved. It also judges if a file is a whole
repository, or has its commit, makes the file that proves a record, judges if the commit of a frame is
verified, and writes and reads DAG-JSON. The rest makes objects from what the library tells, and tells it
what the objects are. It is two small extensions in C, and is not proved."""

from . import atproto, dag_pb
from ._car import CarCheck, check_car, verify, write_car
from ._errors import CarError, DagCborError
from ._items import dump, iter_loads, load
from ._json import from_json, to_json
from ._native import CID, CarReader, Section, check, dumps, links, loads, loads_first, name
from ._native import read_car
from ._paths import MissingBlock, find, resolve
from ._repo import RepoCommit, Repository, read_commit, read_repo, record_proof
from ._store import DamagedBlock, Imported, InvalidBlock, InvalidCar, Store, StoreDiskError
from ._store import StoreEnded, StoreError, StoreFull, StoreLocked, StoreMemoryError
from ._store import StoreUnreadable

__version__ = "0.7.0"

__all__ = [
    "CID",
    "CarCheck",
    "CarError",
    "CarReader",
    "DagCborError",
    "DamagedBlock",
    "Imported",
    "InvalidBlock",
    "InvalidCar",
    "MissingBlock",
    "RepoCommit",
    "Repository",
    "Section",
    "Store",
    "StoreDiskError",
    "StoreEnded",
    "StoreError",
    "StoreFull",
    "StoreLocked",
    "StoreMemoryError",
    "StoreUnreadable",
    "atproto",
    "check",
    "check_car",
    "dag_pb",
    "dump",
    "dumps",
    "find",
    "from_json",
    "iter_loads",
    "links",
    "load",
    "loads",
    "loads_first",
    "name",
    "read_car",
    "read_commit",
    "read_repo",
    "record_proof",
    "resolve",
    "to_json",
    "verify",
    "write_car",
]
