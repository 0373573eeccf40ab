#!/usr/bin/env python3
"""What one core does, for docs/FAULTS.md: the package for Python reads CAR files of 100 MB of records of each size, and
`verify_folder.py` divides their names.

    bench/scale.py [RUNS] [page]

RUNS is 5 if none is given. With `page` the table is put into docs/FAULTS.md. bench/measuring.py says the rest."""

from measuring import in_python, measure
from blocks import FILE, put_records

SIZES = (400, 1_000, 10_000, 100_000, 1_000_000)


def least(section, work):
    """The seconds, the names, and the bytes by which the process grew."""
    rows = [in_python(section.folder, "scale.py", work, f"{section.folder}/records")[0] for _ in range(section.runs)]
    return map(min, zip(*rows))


def scale(section):
    section.measured("processor time, ")
    section.head("Blocks of", "MB a second", "bytes a name", "µs to divide a name", "µs in its part")
    for size in SIZES:
        length = put_records(f"{section.folder}/records", FILE // size, size)
        took, names, grown = least(section, "check")
        cells = [""] * 3
        if names > 50_000:
            cells = [f"{grown / names:.0f}", *(f"{next(least(section, work)) / names * 1e6:.2f}" for work in ("divide", "part"))]
        section.row(f"{size:,} bytes", f"{length / took / 1e6:.0f}", *cells)


measure({"scale.py": scale}, runs=5, page="FAULTS.md")
