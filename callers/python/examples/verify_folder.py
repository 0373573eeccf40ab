#!/usr/bin/env python3
"""Verifies CAR files on many machines: a Dask bag of files, each of which goes to a
worker.

    verify_folder.py [--scheduler ADDRESS] [--parts N] PATH..

A path is a file, or a folder, of which each file that ends with .car is taken; workers read them
under the same names. Without an address, workers are started on this machine. A line tells the
verdicts on each file, and why it is not a CAR file from some place on, or was not read. Then
`missing <CID>` comes for each root and link that leads to no verified block of any of the files. The
status is 0 if all is well.

Names never come together on one machine. The names that a file holds, and those that it links to and
does not hold, are divided into parts by a hash of the name, and each part tells what is missing in
it. Only what is missing comes back."""

import argparse
import pathlib
import sys
import zlib

import dask
import dask.bag
from dagcbor import CID, CarError, check_car
from dask.distributed import Client

PARTS = 64


def divided(names, parts):
    """The names, packed: for each part, with a byte of length before each name."""
    packed = [bytearray() for _ in range(parts)]
    for name in map(bytes, names):
        part = packed[zlib.crc32(name) % parts]
        part.append(len(name))
        part += name
    return [bytes(it) for it in packed]


def unpacked(packed):
    """The names again."""
    at = 0
    while at < len(packed):
        yield packed[at + 1 : at + 1 + packed[at]]
        at += 1 + packed[at]


def verified(path, parts):
    """Returns what is said of a file; and for each part its number, and the names that the file holds
    and wants."""
    report = {"path": str(path), "verdicts": {}, "refused": None}
    found = None
    try:
        with open(path, "rb") as file:
            found = check_car(file)
    except CarError as error:
        report["refused"] = f"refused {error.kind} at {error.place}"
        found = error.checked  # verdicts before that place count
    except OSError as error:
        report["refused"] = f"not read: {error}"
    if found is None:
        return report, []
    report["verdicts"] = found.verdicts
    held, wanted = divided(found.held, parts), divided(found.missing, parts)
    return report, list(zip(range(parts), held, wanted))


def missing_in(group):
    """Returns the names of a part that some files want and none holds. Those that are held make no set."""
    _, pieces = group
    missing = set()
    for _, _, wanted in pieces:
        missing.update(unpacked(wanted))
    for _, held, _ in pieces:
        missing.difference_update(unpacked(held))
    return sorted(missing)


def number_of(piece):
    return piece[0]


def verify(paths, parts=PARTS):
    """Returns the reports on the files, in their order, and the CIDs that lead to no block of any file."""
    files = dask.bag.from_sequence(paths, partition_size=1).map(verified, parts)
    pieces = files.pluck(1).flatten()
    missing = pieces.groupby(number_of, shuffle="tasks").map(missing_in).flatten()
    # Both at once, so each file is read once.
    reports, names = dask.compute(files.pluck(0), missing)
    return reports, sorted(map(CID, names))


def is_well(report):
    verdicts = report["verdicts"]
    are_well = all(it.startswith("ok ") or it == "not read" for it in verdicts)
    return are_well and report["refused"] is None


def line_of(report):
    told = [f"{count} {verdict}" for verdict, count in report["verdicts"].items()] or ["no section"]
    if report["refused"]:
        told.append(report["refused"])
    return f"{report['path']}: {', '.join(told)}"


def files_in(path):
    return sorted(path.glob("*.car")) if path.is_dir() else [path]


def main():
    words = argparse.ArgumentParser(description=__doc__.partition("\n\n")[0])
    words.add_argument("--scheduler", help="the address of Dask's scheduler")
    words.add_argument("--parts", type=int, default=PARTS, help="how many parts of names there are")
    words.add_argument("paths", nargs="+", type=pathlib.Path, metavar="PATH")
    given = words.parse_args()
    paths = [file for path in given.paths for file in files_in(path)]
    if not paths:
        sys.exit("there are no files")
    with Client(given.scheduler) if given.scheduler else Client(dashboard_address=None):
        reports, missing = verify(paths, given.parts)
    for report in reports:
        print(line_of(report))
    for cid in missing:
        print(f"missing {cid}")
    return 0 if all(map(is_well, reports)) and not missing else 1


if __name__ == "__main__":
    sys.exit(main())
