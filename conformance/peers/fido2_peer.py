"""fido2.cbor: the CTAP2 canonical subset, which has no tags."""

from fido2 import cbor
from lines import serve


def rewrite(block):
    data, rest = cbor.decode_from(block)
    if rest:
        raise ValueError("trailing data")
    return cbor.encode(data)


serve(rewrite)
