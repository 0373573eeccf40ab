"""Our package for Python: blocks; data to be written; paths; CAR files; CIDs as text."""

from dagcbor import CID, dumps, find, loads, read_car
from lines import data_of, serve


def files(file):
    car = read_car(file)
    cids = [it.cid for it in car]
    return " ".join(",".join(map(str, them)) or "-" for them in (car.roots, cids))


def cid_texts(text):
    cid = CID(text.decode())
    return f"{bytes(cid).hex()} {cid}"


at = lambda block, path: dumps(find(block, path)).hex()
writing = lambda line: dumps(data_of(line, CID)).hex()
serve(lambda block: dumps(loads(block)), writing=writing, paths=at, segments=at, files=files, cid_texts=cid_texts)
