"""The loop of the peers in Python: a line in, a line out. A word of the command line names what the lines are, if not blocks."""

import base64
import json
import os
import sys

sys.path.append(os.path.dirname(os.path.dirname(os.path.abspath(__file__))))

import cidtexts


def serve(rewrite, **around):
    """`rewrite` returns what is written again from the bytes of a block, or raises. For other subjects the others return what comes
    after `ok`: for `writing` from the line; for `paths` and `segments` from a block, and a text or list of texts; else from the bytes."""
    subject = next((it for it in sys.argv[1:] if it.replace("-", "_") in around), None)
    answers = around[subject.replace("-", "_")] if subject else lambda block: rewrite(block).hex()
    for line in sys.stdin:
        try:
            answer = f"ok {answers(*given_of(subject, line.rstrip()))}"
        except MemoryError:
            answer = "refused memory"
        except Exception as error:
            cause = f"{error.kind} {error.place}" if hasattr(error, "kind") else type(error).__name__
            answer = f"refused {cause}"
        print(answer, flush=True)


def given_of(subject, line):
    if subject == "writing":
        return [line]
    block, *path = line.split(" ")
    texts = [bytes.fromhex(it.strip("-")).decode() for them in path for it in them.split("/") if it]
    return [bytes.fromhex(block.strip("-")), *(texts if subject == "paths" else [texts] if path else [])]


def data_of(line, link):
    """The data of a line of DAG-JSON: `link` makes the data of a binary CID."""

    def of(found):
        if isinstance(found, list):
            return [of(it) for it in found]
        if not isinstance(found, dict):
            return found
        inner = found.get("/") if len(found) == 1 else None
        if isinstance(inner, str):
            return link(cidtexts.read(inner))
        if inner is not None:
            return base64.b64decode(inner["bytes"] + "=" * (-len(inner["bytes"]) % 4))
        return {key: of(it) for key, it in found.items()}

    return of(json.loads(line))
