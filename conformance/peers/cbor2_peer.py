"""cbor2: decodes a stream of one item, and encodes by its canonical option. `pure` takes the decoder in Python."""

import io
import sys

from lines import serve

if "pure" in sys.argv:
    from cbor2.decoder import CBORDecoder
    from cbor2.encoder import dumps
else:
    from cbor2 import CBORDecoder, dumps


def rewrite(block):
    stream = io.BytesIO(block)
    data = CBORDecoder(stream, str_errors="strict").decode()
    if stream.read(1):
        raise ValueError("trailing data")
    return dumps(data, canonical=True)


serve(rewrite)
