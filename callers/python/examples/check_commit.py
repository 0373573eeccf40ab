#!/usr/bin/env python3
"""Checks that a repository (AT Protocol) is whole, and that a key signed its commit.

    check_commit.py REPO.CAR DID_KEY

The key is what the account's DID document says, as `did:key:z..`: of P-256, or of K-256 (secp256k1). The signed bytes are the
SHA-256 of the commit's other fields as DAG-CBOR. The signature is two numbers of 32 bytes, and the second is at most half of the
curve's order. The arithmetic is that of the package `cryptography`. `read_repo` verifies that the records are those of the commit.
The status is 0 if the key signed it."""

import sys

from cryptography.exceptions import InvalidSignature
from cryptography.hazmat.primitives.asymmetric import ec, utils
from cryptography.hazmat.primitives.hashes import SHA256
from dagcbor import DagCborError, read_repo

# The curve and its order, by what comes before a key's point (multicodec table).
CURVES = {
    b"\x80\x24": (ec.SECP256R1(), 0xFFFFFFFF00000000FFFFFFFFFFFFFFFFBCE6FAADA7179E84F3B9CAC2FC632551),
    b"\xe7\x01": (ec.SECP256K1(), 0xFFFFFFFFFFFFFFFFFFFFFFFFFFFFFFFEBAAEDCE6AF48A03BBFD25E8CD0364141),
}
DIGITS = "123456789ABCDEFGHJKLMNPQRSTUVWXYZabcdefghijkmnopqrstuvwxyz"


def key_of(did):
    """Returns the key of a `did:key`, and the order of its curve."""
    front, digits = did[:9], did[9:]
    if front != "did:key:z" or not digits or set(digits) - set(DIGITS):
        raise ValueError("no did:key in base58")
    number = 0
    for digit in digits:
        number = 58 * number + DIGITS.index(digit)
    data = number.to_bytes(35, "big")
    if data[:2] not in CURVES:
        raise ValueError("a key of another kind than P-256 and K-256")
    curve, order = CURVES[data[:2]]
    return ec.EllipticCurvePublicKey.from_encoded_point(curve, data[2:]), order


def is_signed(repo, did):
    """Returns true if this key signed the repository's commit."""
    key, order = key_of(did)
    r, s = int.from_bytes(repo.sig[:32], "big"), int.from_bytes(repo.sig[32:], "big")
    if len(repo.sig) != 64 or s > order // 2:
        return False
    try:
        key.verify(utils.encode_dss_signature(r, s), repo.signed, ec.ECDSA(SHA256()))
        return True
    except InvalidSignature:
        return False


def main(path, did):
    try:
        with open(path, "rb") as file:
            repo = read_repo(file)
    except DagCborError as error:
        print(f"no repository: {error}")
        return 1
    well = is_signed(repo, did)
    print("signed" if well else "not signed")
    return not well


if __name__ == "__main__":
    sys.exit(main(*sys.argv[1:]))
