"""Untried here. libipld of Python (in Rust): `pip install libipld`, and then
    PYTHONPATH=conformance/peers conformance/run python3 conformance/peers/untried/libipld_peer.py"""

import libipld
from lines import serve

serve(lambda block: libipld.encode_dag_cbor(libipld.decode_dag_cbor(block)))
