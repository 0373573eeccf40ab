"""Untried here. dag_cbor of Python: `pip install dag-cbor`, and then
    PYTHONPATH=conformance/peers conformance/run python3 conformance/peers/untried/dag_cbor_peer.py"""

import dag_cbor
from lines import serve

serve(lambda block: dag_cbor.encode(dag_cbor.decode(block)))
