#!/usr/bin/env python3
"""A reference of event frames (AT Protocol, sync, inductive firehose): hashlib alone. Trees are kept as nodes here, nested and with
unopened links, and not as the flat rows of the product, so that the two are apart.

    python3 conformance/events.py vectors [SEED]    prints frames, good and faulty, each with the root that one knew and the verdict
    python3 conformance/events.py trees [SEED]      prints changes of partial trees, good and faulty, as crates/tests_events/src/cases.rt
    python3 conformance/events.py cases [SEED]      prints three of each verdict, as crates/tests_frames/src/cases.rt
    python3 conformance/events.py answers [SEED]    prints what C is answered of the good ones of these, as crates/tests_frames/src/answers.rt
    python3 conformance/events.py streams [SEED]    prints streams, and what `dagcar event` says of them, as crates/tests_frames/src/streams.rt
    python3 conformance/events.py write FOLDER [SEED]    writes the same, a file each, with what is said and what is told beside it
    python3 conformance/events.py hostile FOLDER [BYTES]    writes frames that are dear to judge, of up to so many bytes of blocks
                                                    (2,000,000), each a file
    python3 conformance/events.py stream FILE N     writes N frames over a repository of 10,000 records, each of what became of it
    python3 conformance/events.py check SEED        undoes random changes, and judges frames that lack a node
    python3 conformance/events.py speed N           times N frames over a repository of 10,000 records"""

import base64
import hashlib
import pathlib
import random
import sys
import time


class Link(bytes):
    pass


def head(major, n):
    if n < 24:
        return bytes([major << 5 | n])
    for code, size in ((24, 1), (25, 2), (26, 4), (27, 8)):
        if n < 1 << 8 * size:
            return bytes([major << 5 | code]) + n.to_bytes(size, "big")


def enc(x):
    if x is None:
        return b"\xf6"
    if x is True:
        return b"\xf5"
    if x is False:
        return b"\xf4"
    if isinstance(x, int):
        return head(0, x) if x >= 0 else head(1, -1 - x)
    if isinstance(x, Link):
        return b"\xd8\x2a" + head(2, len(x) + 1) + b"\0" + x
    if isinstance(x, bytes):
        return head(2, len(x)) + x
    if isinstance(x, str):
        return head(3, len(x.encode())) + x.encode()
    if isinstance(x, list):
        return head(4, len(x)) + b"".join(map(enc, x))
    keys = sorted(x, key=lambda k: (len(k.encode()), k.encode()))
    return head(5, len(x)) + b"".join(enc(k) + enc(x[k]) for k in keys)


def dec(b, i=0):
    m, a = b[i] >> 5, b[i] & 31
    i += 1
    if m == 7:
        return {20: False, 21: True, 22: None}[a], i
    if a >= 24:
        s = 1 << (a - 24)
        a, i = int.from_bytes(b[i : i + s], "big"), i + s
    if m == 0:
        return a, i
    if m == 1:
        return -1 - a, i
    if m == 2:
        return b[i : i + a], i + a
    if m == 3:
        return b[i : i + a].decode(), i + a
    if m == 4:
        out = []
        for _ in range(a):
            x, i = dec(b, i)
            out.append(x)
        return out, i
    if m == 5:
        out = {}
        for _ in range(a):
            k, i = dec(b, i)
            out[k], i = dec(b, i)
        return out, i
    x, i = dec(b, i)
    return Link(x[1:]), i


def cid(block):
    return Link(b"\x01\x71\x12\x20" + hashlib.sha256(block).digest())


def uvarint(n):
    out = b""
    while n >= 128:
        out += bytes([n & 127 | 128])
        n >>= 7
    return out + bytes([n])


def car(root, blocks):
    h = enc({"roots": [root], "version": 1})
    return uvarint(len(h)) + h + b"".join(uvarint(len(c) + len(b)) + c + b for c, b in blocks)


def read_uvarint(b, i):
    n = s = 0
    while True:
        n |= (b[i] & 127) << s
        s += 7
        i += 1
        if b[i - 1] < 128:
            return n, i


def read_car(b):
    n, i = read_uvarint(b, 0)
    h, _ = dec(b[i : i + n])
    i += n
    blocks = {}
    while i < len(b):
        n, i = read_uvarint(b, i)
        c, block = Link(b[i : i + 36]), b[i + 36 : i + n]
        blocks[c] = block
        i += n
    return h["roots"], blocks


def layer(key):
    n = int.from_bytes(hashlib.sha256(key).digest(), "big")
    return (256 - n.bit_length()) // 2


# ---- the tree of entries: kept as {"layer", "l", "e": [[key, value, after]]}, where a subtree is None, such a dict, or a Link unopened


def spell(t):
    rows, before = [], b""
    for key, value, after in t["e"]:
        p = 0
        while p < min(len(before), len(key)) and before[p] == key[p]:
            p += 1
        rows.append({"p": p, "k": key[p:], "v": value, "t": name(after)})
        before = key
    return enc({"l": name(t["l"]), "e": rows})


def name(t, out=None):
    if t is None or isinstance(t, Link):
        return t
    if "cid" not in t:
        t["cid"] = cid(spell(t))
    return t["cid"]


def build(entries, n):
    """The node of layer n over entries in order."""
    t = {"layer": n, "l": None, "e": []}
    run = []

    def close():
        sub = build(run[:], n - 1) if run else None
        run.clear()
        if t["e"]:
            t["e"][-1][2] = sub
        else:
            t["l"] = sub

    for k, v in entries:
        if layer(k) < n:
            run.append((k, v))
        else:
            close()
            t["e"].append([k, v, None])
    close()
    return t


def whole(entries):
    es = sorted(entries.items())
    return build(es, max([layer(k) for k, _ in es], default=0))


def nodes(t, out):
    if isinstance(t, dict):
        out[name(t)] = spell(t)
        nodes(t["l"], out)
        for r in t["e"]:
            nodes(r[2], out)
    return out


class Refused(Exception):
    pass


class Partial:
    """A tree, some of whose nodes are there: each change copies what it touches. `read` has the names that were opened."""

    def __init__(self, blocks, root):
        self.blocks, self.read = blocks, set()
        self.root = self.open(root, None)

    def open(self, t, n):
        if not isinstance(t, Link):
            return t
        if t not in self.blocks:
            raise Refused("missing " + t.hex())
        self.read.add(t)
        if cid(self.blocks[t]) != t:
            raise Refused("bytes " + t.hex())
        node, before, rows = dec(self.blocks[t])[0], b"", []
        for r in node["e"]:
            if r["p"] > len(before):
                raise Refused("shape")
            before = before[: r["p"]] + r["k"]
            rows.append([before, r["v"], r["t"]])
        if n is None:
            n = layer(rows[0][0]) if rows else 0
        if any(layer(r[0]) != n for r in rows):
            raise Refused("shape")
        return {"layer": n, "l": node["l"], "e": rows, "cid": t}

    def slots(self, t):
        """Keys and subtrees in turn: s0 k0 s1 k1 .. s"""
        return [t["l"]] + [r[2] for r in t["e"]]

    def find(self, key, t=0):
        t = self.root if t == 0 else t
        if t is None:
            return None
        at = sum(1 for r in t["e"] if r[0] <= key)
        if at and t["e"][at - 1][0] == key:
            return t["e"][at - 1][1]
        sub = self.slots(t)[at]
        return self.find(key, self.open(sub, t["layer"] - 1)) if sub is not None else None

    def put(self, key, value):
        """Sets a key that is there."""

        def go(t):
            at = sum(1 for r in t["e"] if r[0] <= key)
            e = [r[:] for r in t["e"]]
            if at and e[at - 1][0] == key:
                e[at - 1][1] = value
                return {"layer": t["layer"], "l": t["l"], "e": e}
            sub = go(self.open(self.slots(t)[at], t["layer"] - 1))
            if at:
                e[at - 1][2] = sub
                return {"layer": t["layer"], "l": t["l"], "e": e}
            return {"layer": t["layer"], "l": sub, "e": e}

        self.root = go(self.root)

    def split(self, t, n, key):
        if t is None:
            return None, None
        t = self.open(t, n)
        at = sum(1 for r in t["e"] if r[0] < key)
        left, right = self.split(self.slots(t)[at], n - 1, key)
        e = [r[:] for r in t["e"]]
        a = {"layer": n, "l": t["l"], "e": e[:at]}
        if at:
            a["e"][-1][2] = left
        else:
            a["l"] = left
        b = {"layer": n, "l": right, "e": e[at:]}
        return (a if a["e"] or a["l"] is not None else None), (b if b["e"] or b["l"] is not None else None)

    def merge(self, a, b, n):
        if a is None:
            return b
        if b is None:
            return a
        a, b = self.open(a, n), self.open(b, n)
        e = [r[:] for r in a["e"]] + [r[:] for r in b["e"]]
        mid = self.merge(self.slots(a)[-1], b["l"], n - 1)
        if a["e"]:
            e[len(a["e"]) - 1][2] = mid
            return {"layer": n, "l": a["l"], "e": e}
        return {"layer": n, "l": mid, "e": e}

    def add(self, key, value):
        """Inserts a key that is absent."""
        n = layer(key)

        def go(t, m):
            if t is None and m == n:
                return {"layer": m, "l": None, "e": [[key, value, None]]}
            if t is None:
                return {"layer": m, "l": go(None, m - 1), "e": []}
            t = self.open(t, m)
            at = sum(1 for r in t["e"] if r[0] < key)
            e = [r[:] for r in t["e"]]
            sub = self.slots(t)[at]
            if m == n:
                left, right = self.split(sub, m - 1, key)
                e.insert(at, [key, value, right])
            else:
                left = go(sub, m - 1)
            if at:
                e[at - 1][2] = left
                return {"layer": m, "l": t["l"], "e": e}
            return {"layer": m, "l": left, "e": e}

        t = self.root
        empty = not t["e"] and t["l"] is None
        if empty:
            self.root = {"layer": n, "l": None, "e": [[key, value, None]]}
            return
        while t["layer"] < n and t["layer"] + 1 < n:
            t = {"layer": t["layer"] + 1, "l": t, "e": []}
        if t["layer"] < n:
            left, right = self.split(t, t["layer"], key)
            self.root = {"layer": n, "l": left, "e": [[key, value, right]]}
        else:
            self.root = go(t, t["layer"])

    def remove(self, key):
        """Removes a key that is there."""

        def go(t):
            at = sum(1 for r in t["e"] if r[0] <= key)
            e = [r[:] for r in t["e"]]
            if at and e[at - 1][0] == key:
                before = t["l"] if at == 1 else e[at - 2][2]
                sub = self.merge(before, e[at - 1][2], t["layer"] - 1)
                del e[at - 1]
                at -= 1
            else:
                sub = go(self.open(self.slots(t)[at], t["layer"] - 1))
            if at:
                e[at - 1][2] = sub
                return {"layer": t["layer"], "l": t["l"], "e": e}
            return {"layer": t["layer"], "l": sub, "e": e} if e or sub is not None else None

        t = go(self.root)
        while t is not None and not t["e"]:
            t = self.open(t["l"], t["layer"] - 1)
        self.root = t or {"layer": 0, "l": None, "e": []}


# ---- frames


def undo(blocks, root, ops):
    """The root before the ops, and the names of the nodes that were opened."""
    t = Partial(blocks, root)
    for op in reversed(ops):
        key = op["path"].encode()
        if not 1 <= len(key) <= 1024:
            raise Refused("shape")
        prev, now = form_of(op)
        if t.find(key) != now:
            raise Refused("state")
        if op["action"] == "create":
            t.remove(key)
        elif op["action"] == "update":
            t.put(key, prev)
        else:
            t.add(key, prev)
    return name(t.root), t.read


def form_of(op):
    """The record before and the record after, if they are those of the action."""
    now, prev = op["cid"], op.get("prev")
    if (op["action"] == "create") != (prev is None) or (op["action"] == "delete") != (now is None):
        raise Refused("form")
    return prev, now


def verify(body, known, rev):
    """The commit of an event, if it is right for the root and the revision that are known (None: nothing)."""
    if body["tooBig"]:
        raise Refused("big")
    if body["rebase"]:
        raise Refused("rebase")
    if len(body["ops"]) > 200 or len(body["blocks"]) > 2000000:
        raise Refused("many")
    if rev is not None and body["rev"].encode() <= rev.encode():
        raise Refused("after")
    before = body.get("prevData")
    if before is None and known is None or None not in (before, known) and before != known:
        raise Refused("known")
    for op in body["ops"]:
        form_of(op)
    try:
        roots, blocks = read_car(body["blocks"])
    except (IndexError, KeyError, TypeError):
        raise Refused("car") from None
    if roots[:1] != [body["commit"]]:
        raise Refused("root")
    if body["commit"] not in blocks or cid(blocks[body["commit"]]) != body["commit"]:
        raise Refused("commit")
    c = dec(blocks[body["commit"]])[0]
    if set(c) != {"did", "version", "data", "rev", "prev", "sig"} or c["version"] != 3:
        raise Refused("commit")
    if c["did"] != body["repo"]:
        raise Refused("repository")
    if c["rev"] != body["rev"]:
        raise Refused("revision")
    if undo(blocks, c["data"], body["ops"])[0] != (before or known):
        raise Refused("before")
    return c


def judge(frame, known, rev="3k"):
    """ok, or why not; the signature is not looked at."""
    try:
        h, i = dec(frame)
        if h.get("op") != 1 or h.get("t") != "#commit":
            raise Refused("kind")
        body, j = dec(frame, i)
        if j != len(frame):
            raise Refused("form")
        verify(body, known, rev)
        return "ok"
    except Refused as e:
        return str(e)


def record(n):
    return cid(enc({"n": n}))


def change(rng, entries, count, keys):
    """Ops on entries, and the entries after them. At most one op a path."""
    ops, after, seen = [], dict(entries), set()
    while len(ops) < count:
        k = rng.choice(keys)
        if k in seen:
            continue
        seen.add(k)
        v = record(rng.randrange(1 << 30))
        if k not in after:
            ops.append({"action": "create", "path": k.decode(), "cid": v})
            after[k] = v
        elif rng.random() < 0.5:
            ops.append({"action": "update", "path": k.decode(), "cid": v, "prev": after[k]})
            after[k] = v
        else:
            ops.append({"action": "delete", "path": k.decode(), "cid": None, "prev": after.pop(k)})
    return ops, after


def commit_of(root, did="did:plc:abc", rev="3kabcdefghi22"):
    return enc({"did": did, "version": 3, "data": root, "rev": rev, "prev": None, "sig": bytes(64)})


def frame_of(commit, blocks, ops, before, /, **other):
    c = cid(commit)
    body = {"seq": 7, "rebase": False, "tooBig": False, "repo": "did:plc:abc", "commit": c, "rev": "3kabcdefghi22", "since": None,
            "blocks": car(c, [(c, commit)] + sorted(blocks.items())), "ops": ops, "blobs": [], "prevData": before, "time": "2026-01-01T00:00:00Z"}
    body.update(other)
    return enc({"op": 1, "t": "#commit"}) + enc(body)


def good(rng, entries, ops, after):
    """The commit, and the nodes that a frame has: those on the ways of the ops' keys, and those that undoing opens."""
    new, old = whole(after), whole(entries)
    all_nodes = nodes(new, {})
    before, opened = undo(all_nodes, name(new), ops)
    assert before == name(old)
    return commit_of(name(new)), {n: all_nodes[n] for n in opened}, name(old)


def key_pool(rng, count):
    """Keys, a good part of which are of high layers."""
    out = []
    while len(out) < count:
        k = b"app.bsky.feed.post/%011d" % rng.randrange(10**8)
        if layer(k) >= 1 or rng.random() < 0.5:
            out.append(k)
    return out


def flip(c):
    return record(int.from_bytes(c[-4:], "big") + 1)


def frames_of(seed):
    """Rows: what is so of a frame, the frame, the root that is known, and the verdict."""
    rng = random.Random(seed)
    out = []

    def case(what, frame, known, want=None, rev="3k"):
        got = judge(frame, known, rev)
        if want is not None and got.split()[0] != want:
            raise SystemExit(f"{what}: {got}, and not {want}")
        out.append((what, frame, known, rev, got))

    for size, count in ((0, 1), (1, 1), (1, 2), (2, 1), (5, 3), (20, 1), (20, 4), (60, 1), (60, 1), (60, 2), (60, 8), (200, 1), (200, 1), (200, 3), (200, 12)):
        pool = key_pool(rng, max(size * 3 // 2, 3))
        entries = {k: record(i) for i, k in enumerate(rng.sample(pool, size))}
        ops, after = change(rng, entries, count, pool)
        commit, blocks, before = good(rng, entries, ops, after)
        tag = f"{size} records, {count} ops"
        case(f"good, {tag}", frame_of(commit, blocks, ops, before), before, "ok")
        if size < 5:
            continue
        lost = rng.choice(sorted(blocks))
        case(f"a node lost, {tag}", frame_of(commit, {n: b for n, b in blocks.items() if n != lost}, ops, before), before, "missing")
        at = rng.randrange(count)

        def edited(**other):
            es = [dict(o) for o in ops]
            es[at].update(other)
            return es

        if "prev" in ops[at]:
            case(f"another prev, {tag}", frame_of(commit, blocks, edited(prev=flip(ops[at]["prev"])), before), before, "before")
            case(f"no prev, {tag}", frame_of(commit, blocks, edited(prev=None), before), before, "form")
        if ops[at]["cid"] is not None:
            case(f"another cid, {tag}", frame_of(commit, blocks, edited(cid=flip(ops[at]["cid"])), before), before, "state")
        case(f"an op of an absent key, {tag}", frame_of(commit, blocks, edited(path="app.bsky.feed.post/x", action="update", cid=record(1), prev=record(2)), before), before)
        case(f"another root before, {tag}", frame_of(commit, blocks, ops, before, prevData=flip(before)), flip(before), "before")
        case(f"another root known, {tag}", frame_of(commit, blocks, ops, before), flip(before), "known")
        case(f"no prevData, {tag}", frame_of(commit, blocks, ops, before, prevData=None), before, "ok")
        case(f"another rev, {tag}", frame_of(commit, blocks, ops, before, rev="3kabcdefghi23"), before, "revision")
        case(f"another repo, {tag}", frame_of(commit, blocks, ops, before, repo="did:plc:abd"), before, "repository")
        case(f"the rev that is known, {tag}", frame_of(commit, blocks, ops, before), before, "after", "3kabcdefghi22")
        case(f"another commit, {tag}", frame_of(commit, blocks, ops, before, commit=flip(before)), before, "root")
        case(f"too big, {tag}", frame_of(commit, blocks, ops, before, tooBig=True), before, "big")
        case(f"a rebase, {tag}", frame_of(commit, blocks, ops, before, rebase=True), before, "rebase")
        case(f"no commit in the file, {tag}", frame_of(commit, blocks, ops, before, blocks=car(cid(commit), sorted(blocks.items()))), before, "commit")
        case(f"other bytes, {tag}", frame_of(commit, {n: b + b"x" if n == lost else b for n, b in blocks.items()}, ops, before), before, "bytes")
        case(f"an op left out, {tag}", frame_of(commit, blocks, ops[:at] + ops[at + 1 :], before), before, "before")
        case(f"an op more, {tag}", frame_of(commit, blocks, ops + [{"action": "delete", "path": "a/b", "cid": None, "prev": record(3)}], before), before)
    return out


def events_of(rng, did):
    """A random event: what is so of a frame, and the frame, good and faulty. Each has a repository of its own, so that none is judged
    by those before it."""
    size, count = rng.choice((5, 8, 20, 40)), rng.choice((1, 1, 2, 4))
    pool = key_pool(rng, size * 3 // 2)
    entries = {k: record(i) for i, k in enumerate(rng.sample(pool, size))}
    ops, after = change(rng, entries, count, pool)
    made, nodes_there, before = good(rng, entries, ops, after)
    root = Link(dec(made)[0]["data"])
    lost, at = rng.choice(sorted(nodes_there)), rng.randrange(count)
    number = 0

    def frame(those=nodes_there, done=ops, repo="", **other):
        nonlocal number
        number += 1
        own = f"{did}-{number}"
        return frame_of(commit_of(root, own), those, done, before, **{"repo": own + repo, **other})

    def edited(**other):
        return [{**op, **other} if n == at else op for n, op in enumerate(ops)]

    yield "good", frame()
    yield "a node lost", frame({n: b for n, b in nodes_there.items() if n != lost})
    yield "other bytes", frame({n: b + b"x" if n == lost else b for n, b in nodes_there.items()})
    yield "another record before", frame(done=edited(action="update" if ops[at]["cid"] else "delete", prev=record(rng.randrange(1 << 30))))
    yield "no record before", frame(done=edited(action="update", cid=record(1), prev=None))
    yield "another record after", frame(done=edited(action="create", cid=record(rng.randrange(1 << 30)), prev=None))
    yield "an operation of an absent key", frame(done=edited(path="app.bsky.feed.post/x", action="update", cid=record(1), prev=record(2)))
    yield "an operation left out", frame(done=ops[:at] + ops[at + 1 :])
    yield "an operation more", frame(done=[*ops, {"action": "delete", "path": "a/b", "cid": None, "prev": record(3)}])
    yield "the order turned", frame(done=ops[::-1])
    yield "another root before", frame(prevData=flip(before))
    yield "no root before", frame(prevData=None)
    yield "another revision", frame(rev="3kabcdefghi23")
    yield "another repository", frame(repo="x")
    yield "another commit", frame(commit=flip(before))
    yield "no commit", frame(blocks=car(cid(commit_of(root, f"{did}-{number + 1}")), sorted(nodes_there.items())))
    yield "too big", frame(tooBig=True)
    yield "a rebase", frame(rebase=True)


def vectors(seed):
    print("# frame by frame: a name, the frame, the root and the revision that one knew, the verdict")
    for what, frame, known, rev, got in frames_of(seed):
        print(f"case {what}\nframe {frame.hex()}\nknown {known.hex()} {rev}\nverdict {got}")


def spelled(data):
    return 'b"' + "".join(f"\\x{byte:02x}" for byte in data) + '"'


def few(seed):
    """Three frames of each verdict, taken from the short ones."""
    seen = {}
    for what, frame, known, rev, got in frames_of(seed):
        verdict = got.split()[0]
        seen[verdict] = seen.get(verdict, 0) + (len(frame) <= 1800)
        if len(frame) <= 1800 and seen[verdict] <= 3:
            yield what, frame, known, rev, verdict


def cases(seed):
    """The file of tests, as `rt fmt` lays it out."""
    print("//! Frames that conformance/events.py made: what is so of it, the frame, the root and the revision that")
    print("//! one knew, and the verdict.\n")
    print("pub(crate) const CASES: &[(&str, &[u8], &[u8], &str, &str)] = &[")
    for what, frame, known, rev, verdict in few(seed):
        print(f'    (\n        "{what}",\n        {spelled(frame)},\n        {spelled(known)},\n        "{rev}",\n        "{verdict}",\n    ),')
    print("];")


def answer(frame, known, rev):
    """The block that tells what is verified of a good frame."""
    body = dec(frame, dec(frame)[1])[0]
    c = verify(body, known, rev)
    signed = enc({key: c[key] for key in c if key != "sig"})
    changes = [[op["path"].encode(), op.get("prev"), op["cid"]] for op in body["ops"]]
    return enc({"cid": body["commit"], "before": body.get("prevData") or known, "commit": c, "signed": signed, "changes": changes})


def answers(seed):
    print("//! What conformance/events.py says is verified of the good frames, in their order, as a block.\n")
    print("pub(crate) const ANSWERS: &[&[u8]] = &[")
    for what, frame, known, rev, verdict in few(seed):
        if verdict == "ok":
            print(f"    {spelled(answer(frame, known, rev))},")
    print("];")


# ---- streams, and the lines of `dagcar event`


def text_of(name):
    """A CID of 36 bytes as text, in base32."""
    return "b" + base64.b32encode(name).decode().lower().rstrip("=")


def word(text):
    return "".join(f"%{b:02X}" if b < 0x21 or b > 0x7E or b == 0x25 else chr(b) for b in text.encode())


def lines_of(body):
    words = {"create": "created", "update": "updated", "delete": "deleted"}
    out = f"commit {word(body['repo'])} {word(body['rev'])}\n"
    for op in body["ops"]:
        names = [text_of(n) for n in (op.get("prev"), op["cid"]) if n is not None]
        out += " ".join([words[op["action"]], word(op["path"])] + names) + "\n"
    return out


def kind_of(kind, body):
    return enc({"op": 1, "t": kind}) + enc(body)


class Chain:
    """A repository, and the frames of its commits, one after the other."""

    def __init__(self, rng, did, size):
        self.rng, self.did, self.count = rng, did, 0
        self.pool = key_pool(rng, size * 2 + 6)
        self.entries = {k: record(i) for i, k in enumerate(rng.sample(self.pool, size))}

    def next(self, count, **other):
        ops, after = change(self.rng, self.entries, count, self.pool)
        _commit, blocks, before = good(self.rng, self.entries, ops, after)
        rev = f"3kabcdefghi{22 + self.count}"
        commit = commit_of(name(whole(after)), self.did, rev)
        self.entries, self.count = after, self.count + 1
        return frame_of(commit, blocks, ops, before, repo=self.did, rev=rev, **other)


def streams_of(seed):
    """Rows: what is so of a stream, the stream, what is said of it, and what is told."""
    rng = random.Random(seed)
    time = "2026-01-01T00:00:00Z"
    first, second, odd = Chain(rng, "did:plc:abc", 6), Chain(rng, "did:web:b.example", 3), Chain(rng, "did:\n%", 0)
    a = [first.next(n) for n in (1, 2, 1)]
    b = [second.next(n) for n in (1, 1)]
    c = odd.next(1)
    sync = kind_of("#sync", {"seq": 8, "did": "did:plc:abc", "rev": "3kabcdefghi23", "time": time, "blocks": b""})
    identity = kind_of("#identity", {"seq": 9, "did": "did:plc:abc", "time": time, "handle": "a.example"})
    active = kind_of("#account", {"seq": 10, "did": "did:plc:abc", "time": time, "active": True})
    gone = kind_of("#account", {"seq": 11, "did": "did:plc:abc", "time": time, "active": False, "status": "taken down"})
    silent = kind_of("#account", {"seq": 12, "did": "did:plc:abc", "time": time, "active": False})
    info = kind_of("#info", {"name": "OutdatedCursor", "message": "too old"})
    other = kind_of("#more", {})
    error = enc({"op": -1}) + enc({"error": "FutureCursor"})

    def said(*frames):
        return "".join(lines_of(dec(f, dec(f)[1])[0]) for f in frames)

    def told(frames, n, why):
        return f"frame {n} at byte {sum(map(len, frames[: n - 1]))}: {why}\n"

    def row(what, frames, lines, *whys):
        return what, b"".join(frames), lines, "".join(told(frames, n, why) for n, why in whys)

    after, root = "the revision does not come after the one that is known", "prevData is another root than the one that is known"
    kinds = ("sync did:plc:abc 3kabcdefghi23\nidentity did:plc:abc\naccount did:plc:abc active\n"
             "account did:plc:abc inactive taken%20down\naccount did:plc:abc inactive\ninfo OutdatedCursor\n")
    return [
        row("nothing", [], ""),
        row("a chain", a, said(*a)),
        row("two chains, and keys that are spelled", [a[0], b[0], c, a[1], b[1], a[2]], said(a[0], b[0], c, a[1], b[1], a[2])),
        row("a commit twice", [a[0], a[0], a[1]], said(a[0], a[1]), (2, after)),
        row("a commit left out", [a[0], a[2]], said(a[0]), (2, root)),
        row("a commit left out, and a sync", [a[0], sync, a[2]], said(a[0]) + "sync did:plc:abc 3kabcdefghi23\n" + said(a[2])),
        row("a commit that is refused, between two", [a[0], a[1].replace(b"\x66tooBig\xf4", b"\x66tooBig\xf5"), a[1]], said(a[0], a[1]),
            (2, "the event does not tell all: tooBig")),
        row("each kind", [sync, identity, active, gone, silent, info], kinds),
        row("another kind, and an error", [other, error, identity], "identity did:plc:abc\n",
            (1, "a kind that is not known: #more"), (2, "the host ends the stream: FutureCursor")),
        row("headers that are none", [enc({"op": 5}) + enc({}), enc({"op": 1}) + enc({}), enc({"t": "#info"}) + enc({}), identity],
            "identity did:plc:abc\n", (1, "the operation of the header is neither 1 nor -1"), (2, "the header tells no kind"),
            (3, "the header is not read: missing field")),
        row("a body that is none", [kind_of("#info", {}), identity], "identity did:plc:abc\n", (1, "the body is not read: missing field")),
        row("an end that is not known", [a[0], identity[:-1]], said(a[0]), (2, "the bytes are not two items")),
        row("a header alone", [a[0], enc({"op": -1})], said(a[0]), (2, "the bytes are not two items")),
    ]


def quoted(text):
    return '"' + text.replace("\n", "\\n") + '"'


def streams(seed):
    """The file of tests, as `rt fmt` lays it out."""
    print("//! Streams that conformance/events.py made: what is so of it, the stream, the lines that are said of it,")
    print("//! and those that are told.\n")
    print("pub(crate) const STREAMS: &[(&str, &[u8], &str, &str)] = &[")
    for what, stream, lines, told in streams_of(seed):
        cells = [quoted(what), spelled(stream), quoted(lines), quoted(told)]
        short = f"    ({', '.join(cells)}),"
        print(short if len(short) <= 100 else "    (\n" + "".join(f"        {cell},\n" for cell in cells) + "    ),")
    print("];")


def write_streams(folder, seed=1):
    out = pathlib.Path(folder)
    for n, (what, stream, lines, told) in enumerate(streams_of(seed)):
        (out / f"{n}.frames").write_bytes(stream)
        (out / f"{n}.said").write_text(lines)
        (out / f"{n}.told").write_text(told)


def trees(seed):
    """Changes undone on an event's nodes: what is so of them, the root, the nodes, the changes, and the root before, or why there is none."""
    rng = random.Random(seed)
    rows, changes = [], []

    def case(what, root, blocks, ops):
        try:
            want = undo(blocks, root, ops)[0]
        except Refused as e:
            want = str(e).split()[0].encode()
        changes.extend((len(rows), o["path"], o.get("prev") or b"", o["cid"] or b"") for o in ops)
        rows.append((what, car(root, sorted(blocks.items())), want))
        return want

    for size, count in ((0, 1), (1, 1), (1, 2), (2, 1), (3, 2), (5, 3), (8, 2), (12, 1), (12, 4), (20, 1), (20, 4), (30, 2), (40, 1), (60, 2), (60, 4)):
        pool = key_pool(rng, max(size * 3 // 2, 3))
        entries = {k: record(i) for i, k in enumerate(rng.sample(pool, size))}
        ops, after = change(rng, entries, count, pool)
        commit, blocks, before = good(rng, entries, ops, after)
        root, tag = dec(commit)[0]["data"], f"{size} records, {count} changes"
        root = Link(root)
        assert case(f"good, {tag}", root, blocks, ops) == before
        if 5 <= size <= 20:
            lost = rng.choice(sorted(blocks))
            assert case(f"a node lost, {tag}", root, {n: b for n, b in blocks.items() if n != lost}, ops) == b"missing"
            at = rng.randrange(count)
            other = dict(ops[at], cid=None if ops[at]["cid"] else record(9), prev=record(8), action="delete" if ops[at]["cid"] else "update")
            assert case(f"another record, {tag}", root, blocks, ops[:at] + [other] + ops[at + 1 :]) == b"state"
            if count > 1:
                case(f"the order turned, {tag}", root, blocks, ops[::-1])
    pool = key_pool(rng, 9)
    entries = {k: record(i) for i, k in enumerate(pool[:8])}
    once = {"action": "create", "path": pool[8].decode(), "cid": record(20)}
    again = {"action": "update", "path": pool[8].decode(), "cid": record(21), "prev": record(20)}
    commit, blocks, before = good(rng, entries, [once, again], {**entries, pool[8]: record(21)})
    root = Link(dec(commit)[0]["data"])
    assert case("good, one key twice", root, blocks, [once, again]) == before
    assert case("one key twice, the order turned", root, blocks, [again, once]) == b"state"
    print("//! Changes of partial trees, by conformance/events.py.")
    print("")
    print("/// What is so of it, the nodes, in a file whose root is the tree's, and the root before, or why there is none.")
    print("pub(crate) const CASES: &[(&str, &[u8], &[u8])] = &[")
    for what, file, want in rows:
        print(f'    ("{what}", {spelled(file)}, {spelled(want)}),')
    print("];")
    print("")
    print("/// Of the case of this number, in their order: the key, and the record before and after, if there is one.")
    print("pub(crate) const CHANGES: &[(usize, &str, &[u8], &[u8])] = &[")
    for number, key, old, new in changes:
        print(f'    ({number}, "{key}", {spelled(old)}, {spelled(new)}),')
    print("];")


# ---- frames that are costly to judge


def hostile(folder, most=1_990_000):
    """Files of frames with at most this many bytes of blocks, which cost as much as they can. None of them is right."""
    folder = pathlib.Path(folder)
    folder.mkdir(parents=True, exist_ok=True)

    def put(name, nodes, root, ops, before=record(1)):
        commit = commit_of(root)
        frame = frame_of(commit, {}, ops, before, blocks=car(cid(commit), [(cid(commit), commit), *nodes]))
        (folder / name).write_bytes(frame)
        print(f"{name}: {len(frame)} bytes")

    node = lambda left, rows: enc({"l": left, "e": [{"p": p, "k": k, "v": v, "t": t} for p, k, v, t in rows]})
    keys = sorted(b"app.bsky.feed.post/%011d" % n for n in range(200000) if layer(b"app.bsky.feed.post/%011d" % n) == 0)
    op = {"action": "update", "path": keys[5].decode(), "cid": record(2), "prev": record(1)}
    wide = [(0, k, record(2), None) for k in keys[: most // 90]]
    block = node(None, wide)
    put("wide-200-ops", [(cid(block), block)], cid(block), [{**op, "path": k.decode(), "prev": record(2)} for k in keys[-200:]])
    put("one-key-200-times", [(cid(block), block)], cid(block), [{**op, "cid": record(2), "prev": record(2)}] * 200)
    # keys of 1,024 bytes that share all but the last byte: short in the node, and long when read
    long = sorted(b"x" * 1016 + b"%08d" % n for n in range(200000) if layer(b"x" * 1016 + b"%08d" % n) == 0)[: most // 74]
    block = node(None, [(0 if i == 0 else 1016, k if i == 0 else k[1016:], record(2), None) for i, k in enumerate(long)])
    put("long-keys-200-ops", [(cid(block), block)], cid(block), [{**op, "path": k.decode(), "prev": record(2)} for k in long[-200:]])
    # a chain of nodes without keys below each row, the same for each
    rows = [k for k in (b"app.bsky.feed.post/%011d" % n for n in range(most)) if layer(k) == 5]
    link, chain = record(77), []
    for _ in range(4):
        block = node(link, [])
        link = cid(block)
        chain.append((link, block))
    block = node(link, [(0, k, record(2), link) for k in rows])
    put("chains-below-each-row", [*chain, (cid(block), block)], cid(block), [{**op, "path": rows[0].decode(), "prev": record(2)}])
    # a node that stands below itself, as often as there are layers, in each row of each
    low = sorted(k for k in keys[:40])
    block = node(None, [(0, k, record(2), None) for k in low])
    tree = [(cid(block), block)]
    for n in range(1, 8):
        more = [k for k in (b"app.bsky.feed.post/%011d" % m for m in range(400000)) if layer(k) == n][:4]
        block = node(tree[-1][0], [(0, k, record(2), tree[-1][0]) for k in sorted(more)])
        tree.append((cid(block), block))
    put("nodes-repeat", tree, tree[-1][0], [op])
    # blocks that nothing leads to
    block = node(None, wide[:3])
    idle = [(cid(b), b) for b in (bytes([n & 255, n >> 8 & 255, n >> 16]) for n in range(most // 42))]
    put("idle-blocks", [(cid(block), block), *idle], cid(block), [{**op, "path": keys[0].decode(), "prev": record(2)}])


def frames(count):
    """Frames of changes of a repository of 10,000 records, each after the one before; with the root before each."""
    rng = random.Random(5)
    pool = key_pool(rng, 15000)
    entries = {k: record(i) for i, k in enumerate(pool[:10000])}
    old = whole(entries)
    for n in range(count):
        ops, entries = change(rng, entries, rng.choice((1, 1, 1, 2, 5)), pool)
        new = whole(entries)
        all_nodes = nodes(new, {})
        before, opened = undo(all_nodes, name(new), ops)
        assert before == name(old)
        rev = f"3k{n:011d}"
        yield frame_of(commit_of(name(new), rev=rev), {m: all_nodes[m] for m in opened}, ops, before, rev=rev), before
        old = new


def speed(count):
    """Times how dicts judge frames."""
    made, known = list(frames(count)), "3k"
    start = time.perf_counter()
    for frame, before in made:
        assert judge(frame, before, known) == "ok"
    took = time.perf_counter() - start
    print(f"{count} frames, {sum(len(f) for f, _ in made) // count} bytes on average: {took / count * 1e6:.0f} microseconds a frame")


def stream(path, count):
    pathlib.Path(path).write_bytes(b"".join(frame for frame, _ in frames(count)))


def check(seed):
    """Of many random batches: undoing opens no node but those in the CAR, and a frame that lacks any one node is refused."""
    rng = random.Random(seed)
    for _ in range(300):
        size = rng.choice((0, 1, 2, 3, 10, 40, 120))
        pool = key_pool(rng, size * 2 + 3)
        entries = {k: record(i) for i, k in enumerate(rng.sample(pool, size))}
        ops, after = change(rng, entries, rng.randrange(1, 4), pool)
        commit, blocks, before = good(rng, entries, ops, after)
        assert judge(frame_of(commit, blocks, ops, before), before) == "ok"
        for lost in blocks:
            assert judge(frame_of(commit, {n: b for n, b in blocks.items() if n != lost}, ops, before), before).startswith("missing")
    print("300 batches hold")


SEEDED = {"vectors": vectors, "trees": trees, "cases": cases, "answers": answers, "streams": streams}
OTHERS = {"write": write_streams, "hostile": hostile, "stream": stream, "check": check, "speed": speed}


def main(word, *given):
    given = [int(it) if it.isdigit() else it for it in given]
    if word in SEEDED:
        SEEDED[word](*given or [1])
    else:
        OTHERS[word](*given)


if __name__ == "__main__":
    main(*sys.argv[1:])
