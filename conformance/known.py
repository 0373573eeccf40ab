"""The peers of peers/peers.json: builds them in out/, and says what stands here."""

import functools
import json
import os
import subprocess
import sys

MANY = ("all", "ours")  # in place of names
# The version of this repository.
OURS = "sed -n '/^## /{s/^## //p;q}' $REPO/CHANGELOG.md"
HERE = os.path.dirname(os.path.abspath(__file__))
ROOT, OUT = os.path.dirname(HERE), os.environ.get("CONFORMANCE_OUT", f"{HERE}/out")


def ran(words):
    quiet = {"capture_output": True, "text": True, "stdin": subprocess.DEVNULL}
    return subprocess.run(words, shell=True, cwd=OUT, env=environment(), **quiet)


@functools.cache
def python():
    """A Python that makes wheels."""
    found = [it for it in (os.environ.get("PYTHON"), sys.executable, "/usr/bin/python3") if it]
    makes = lambda it: subprocess.run([it, "-c", "import setuptools, pip, wheel"], capture_output=True).returncode == 0
    return next(filter(makes, found), found[0])


def environment():
    library = os.environ.get("DAGCBOR_LIBRARY", f"{ROOT}/crates/dagcbor_ffi/out/libdagcbor_ffi.a")
    here = "--config 'source.crates-io.replace-with=\"here\"' --config 'source.here.directory=\"/usr/share/cargo/registry\"'"
    cargo = f"eval CARGO_TARGET_DIR={OUT}/target cargo build --release --offline --quiet {here}"
    ours = {"REPO": ROOT, "PEERS": f"{HERE}/peers", "OUT": OUT, "DAGCBOR_LIBRARY": library, "PYTHON": python(), "CARGO": cargo}
    return {**os.environ, **ours}


def peers(names):
    """What is said of each."""
    with open(f"{HERE}/peers/peers.json", encoding="utf-8") as file:
        kept = {it["name"]: it for it in json.load(file)}
    if names == "ours":
        return [it for name, it in kept.items() if name.startswith(("dagcbor", "dagcar"))]
    none = lambda name: {"name": name, "promises": "nothing", "build": "false", "get": "there is no such peer"}
    return list(kept.values()) if names == "all" else [kept.get(it) or none(it) for it in names.split(",")]


def built(peer):
    """What is said of the peer, where it is built, and its command for each subject that it has: `run`, which is for blocks, and then the
    subject's word. A peer without a word for writing gets the loose form of data. If it is not here: why, and no command."""
    os.makedirs(OUT, exist_ok=True)
    made = ran(peer.get("build", "true"))
    if made.returncode:
        said = made.stderr.strip().split("\n")[-1]
        return {**peer, "lack": f"not here: {peer['get']}{f' ({said})' if said else ''}"}, {}
    subjects = peer.get("subjects", ["blocks"])
    words = {it: peer["run"] if it == "blocks" else f"{peer['run']} {it}" for it in subjects}
    words |= {"writing": peer["run"]} if "writing" not in subjects else {}
    version, commands = ran(peer.get("version", OURS)).stdout.strip(), [f"{subject}: {it}" for subject, it in words.items()]
    told = {**peer, "version": version, "is_loose": "writing" not in subjects, "commands": commands}
    return told, {subject: ["sh", "-c", f"exec {it}"] for subject, it in words.items()}
