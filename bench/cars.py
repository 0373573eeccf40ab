"""CAR files: the time of `dagcar` for 100 MB of records of 1 KB, compared with that of SHA-256 alone for the same bytes."""

import shutil
import sys

from measuring import heap_counter, least, used
from blocks import put_records, put_string, told

MEMORY = ((1_000, 1_000), (10_000, 1_000), (100_000, 1_000), (10, 100_000), (10, 1_000_000), (10, 10_000_000))


def times(section, program):
    """Processor time of the program and of SHA-256 alone, in turn."""
    given = f"{section.folder}/records"
    put_records(given)
    string = put_string(f"{section.folder}/string", given)
    rows = {
        "`dagcar check`": ([program, "check"], given),
        "`dagcar list`, which hashes nothing": ([program, "list"], given),
        "SHA-256 of the toolchain: `dagcar name` over one byte string of the same bytes": ([program, "name"], string),
        "SHA-256 of OpenSSL: `openssl dgst -sha256` over the file": (["openssl", "dgst", "-sha256"], given),
    }
    rows = {name: row for name, row in rows.items() if shutil.which(row[0][0])}
    section.head(told(given), "s", "user alone, s")
    for name, took in zip(rows, least(section.runs, *(lambda row=row: used(*row) for row in rows.values()))):
        section.row(name, f"{took.processor:.3g}", f"{took.user:.3g}")


def memory(section, program):
    """The peak of the heap, for files of more sections, and of larger blocks."""
    library = heap_counter(section.folder)
    if library is None:
        return
    section.head("File", "`check`: heap at its peak, KB", "a section", "`list`: heap at its peak, KB", "as a factor of a block")
    given = f"{section.folder}/memory"
    for count, size in MEMORY:
        put_records(given, count, size)
        check, listed = (used([program, command], given, library=library).heap for command in ("check", "list"))
        cells = f"{check / 1000:,.0f}", f"{check / (count + 1):,.0f} bytes", f"{listed / 1000:,.0f}", f"{listed / size:.2f}"
        section.row(f"{count:,} blocks of {size:,} bytes", *cells)


def measure(section):
    program = section.dagcar()
    section.measured()
    times(section, program)
    memory(section, program)


if __name__ == "__main__":
    sys.exit("bench/cars.py is a part of bench/speed.py: bench/speed.py cars")
