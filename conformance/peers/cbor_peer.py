"""cbor (Debian's python3-cbor), with sorted keys in writing: `loads` of its part in C, which does not say where the item ended; or,
with the word `pure`, `load` of its part in Python, behind which nothing may be left."""

import io
import sys

from lines import serve

if "pure" in sys.argv:
    from cbor.cbor import dumps, load
else:
    from cbor import dumps, loads


def rewrite(block):
    if "pure" not in sys.argv:
        return dumps(loads(block), sort_keys=True)
    stream = io.BytesIO(block)
    data = load(stream)
    if stream.read(1):
        raise ValueError("trailing data")
    return dumps(data, sort_keys=True)


serve(rewrite)
