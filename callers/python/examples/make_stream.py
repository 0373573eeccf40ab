#!/usr/bin/env python3
"""Writes a stream of frames, as a host of the AT Protocol sends them: commits of two accounts, signed here, and other kinds.

    make_stream.py FRAMES KEYS

FRAMES becomes the frames, one after the other. KEYS becomes the accounts' keys in JSON, as their DID documents would say them: one
is of P-256, and one of K-256. The frames are those of conformance/events.py."""

import json
import os
import random
import sys

from cryptography.hazmat.primitives.asymmetric import ec, utils
from cryptography.hazmat.primitives.hashes import SHA256
from cryptography.hazmat.primitives.serialization import Encoding, PublicFormat

HERE = os.path.dirname(os.path.realpath(__file__))
sys.dont_write_bytecode = True
sys.path[:0] = [HERE, f"{HERE}/../../../conformance"]

import events
from check_commit import CURVES, DIGITS


class Account:
    """A DID, its key, and the records that it has."""

    def __init__(self, rng, did, front):
        curve, self.order = CURVES[front]
        self.did, self.front, self.key = did, front, ec.generate_private_key(curve)
        self.pool = events.key_pool(rng, 60)
        self.entries = {key: events.record(n) for n, key in enumerate(self.pool[:30])}

    def did_key(self):
        point = self.key.public_key().public_bytes(Encoding.X962, PublicFormat.CompressedPoint)
        number, text = int.from_bytes(self.front + point, "big"), ""
        while number:
            number, digit = divmod(number, 58)
            text = DIGITS[digit] + text
        return "did:key:z" + text

    def signed(self, unsigned):
        r, s = utils.decode_dss_signature(self.key.sign(unsigned, ec.ECDSA(SHA256())))
        return r.to_bytes(32, "big") + min(s, self.order - s).to_bytes(32, "big")

    def frame(self, rng, number, count):
        """Returns the frame of the next commit, with this many operations."""
        ops, after = events.change(rng, self.entries, count, self.pool)
        commit, blocks, before = events.good(rng, self.entries, ops, after)
        rev, self.entries = f"3kabcdefg{number:04}", after
        fields = {"did": self.did, "version": 3, "data": events.dec(commit)[0]["data"], "rev": rev, "prev": None}
        commit = events.enc({**fields, "sig": self.signed(events.enc(fields))})
        return events.frame_of(commit, blocks, ops, before, repo=self.did, rev=rev, seq=number)


def frames(accounts, rng):
    """Twelve commits, and an event of an account after each."""
    for number in range(12):
        account = accounts[number % len(accounts)]
        yield account.frame(rng, 2 * number, rng.choice((1, 1, 2, 5)))
        body = {"seq": 2 * number + 1, "did": account.did, "time": "2026-01-01T00:00:00Z", "active": True}
        yield events.enc({"op": 1, "t": "#account"}) + events.enc(body)


def main(frames_path, keys_path):
    rng = random.Random(7)
    accounts = [Account(rng, f"did:plc:{name}", front) for name, front in zip(("abc", "def"), CURVES)]
    with open(frames_path, "wb") as file:
        file.writelines(frames(accounts, rng))
    with open(keys_path, "w", encoding="utf-8") as file:
        json.dump({it.did: it.did_key() for it in accounts}, file)


if __name__ == "__main__":
    main(*sys.argv[1:])
