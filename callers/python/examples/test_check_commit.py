"""Commits that are signed here, by keys of both curves, and signatures that are not to be taken."""

import io

import pytest

pytest.importorskip("cryptography")

from check_commit import CURVES, DIGITS, is_signed, main
from dagcbor import dumps, name, read_repo, write_car
from cryptography.hazmat.primitives import hashes
from cryptography.hazmat.primitives.asymmetric import ec, utils
from cryptography.hazmat.primitives.serialization import Encoding, PublicFormat

TREE = dumps({"e": [], "l": None})  # of no records
UNSIGNED = {"did": "did:plc:abc", "version": 3, "data": name(TREE), "rev": "3jzfcijpj2z2a", "prev": None}


def did_of(front, key):
    point = key.public_key().public_bytes(Encoding.X962, PublicFormat.CompressedPoint)
    number, text = int.from_bytes(front + point, "big"), ""
    while number:
        number, digit = divmod(number, 58)
        text = DIGITS[digit] + text
    return "did:key:z" + text


def signed(key, order, low=True):
    r, s = utils.decode_dss_signature(key.sign(dumps(UNSIGNED), ec.ECDSA(hashes.SHA256())))
    s = order - s if (s > order // 2) == low else s
    return {**UNSIGNED, "sig": r.to_bytes(32, "big") + s.to_bytes(32, "big")}


def file_of(commit, *nodes):
    file, blocks = io.BytesIO(), [dumps(commit), *nodes]
    write_car(file, [name(blocks[0])], {name(it): it for it in blocks})
    return file.getvalue()


def repo_of(commit):
    return read_repo(file_of(commit, TREE))


@pytest.mark.parametrize("front", CURVES)
def test_a_signature_is_taken_or_not(front, tmp_path, capsys):
    curve, order = CURVES[front]
    key, other = ec.generate_private_key(curve), ec.generate_private_key(curve)
    commit, did = signed(key, order), did_of(front, key)
    assert repo_of(commit).signed == dumps(UNSIGNED) and repo_of(commit).records == {}
    assert is_signed(repo_of(commit), did)
    assert not is_signed(repo_of(commit), did_of(front, other))
    assert not is_signed(repo_of({**commit, "rev": "3jzfcijpj2z2b"}), did)
    assert not is_signed(repo_of(signed(key, order, low=False)), did)
    assert not is_signed(repo_of({**commit, "sig": commit["sig"] + b"\0"}), did)
    path = tmp_path / "repo.car"
    path.write_bytes(file_of(commit, TREE))
    assert main(path, did) == 0
    assert main(path, did_of(front, other)) == 1
    path.write_bytes(file_of(commit))  # whose tree is not there
    assert main(path, did) == 1
    said = capsys.readouterr().out.splitlines()
    assert said == ["signed", "not signed", f"no repository: missing {name(TREE)} dag-cbor"]


@pytest.mark.parametrize("did", ["did:plc:abc", "did:key:z", "did:key:z0", "did:key:zQ3sh", "did:key:f00"])
def test_a_key_of_another_kind_is_refused(did):
    with pytest.raises(ValueError):
        is_signed(repo_of(signed(ec.generate_private_key(ec.SECP256R1()), CURVES[b"\x80\x24"][1])), did)
