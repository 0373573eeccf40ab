#!/usr/bin/env python3
"""Instructions of the package for Rust, compared with serde_cbor's, by callgrind: bench/rust_package.py [page]

It builds bench/languages/package.rs over callers/rust and Debian's librust-serde-cbor-dev and librust-serde-derive-dev.
bench/measuring.py says the rest."""

import sys

from measuring import ROOT, in_cargo, instructions, measure, ratio

SHAPES = {
    "person": "a struct, 66 bytes",
    "people": "1,000 of these",
    "posts": "1,000 structs of six fields, two of them lists",
    "post": "one of these",
    "texts": "2,000 Cyrillic texts of 60 bytes or more",
    "integers": "4,744 integers of 3 bytes",
    "map": "a `BTreeMap` of 1,000 entries",
}
DEPENDENCIES = f"""dagcbor = {{ path = "{ROOT}/callers/rust", features = ["serde"] }}
serde = {{ version = "1", features = ["derive"] }}
serde_cbor = "0.11"
"""
COLUMNS = "to_vec", "its judge", "its sort", "from_slice", "its judge", "to_vec / serde_cbor", "from_slice / serde_cbor"
SORT = "*ser*Writer*sort*"


def package(section):
    programs = in_cargo(section.folder, DEPENDENCIES, ["languages/package"])
    if programs is None:
        sys.exit(1)
    section.head("Rust", *COLUMNS)
    for shape, name in SHAPES.items():
        of = lambda call, function=None: instructions([f"{programs}/package", shape, call], (11, 1), function=function)
        written, read = of("to_vec"), of("from_slice")
        counts = written, of("to_vec", "dagcbor_check"), of("to_vec", SORT), read, of("from_slice", "dagcbor_check")
        section.row(name, *(f"{it:,}" for it in counts), ratio(written, of("their_to_vec")), ratio(read, of("their_from_slice")))


measure({"rust_package.py": package})
