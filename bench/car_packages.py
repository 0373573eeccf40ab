#!/usr/bin/env python3
"""Speed of the packages for Python, Go and Node on a CAR file of 104 MB of records, compared with `dagcar check`.

    bench/car_packages.py [RUNS] [PROGRAM] [page]

RUNS is 9 if none is given. bench/measuring.py says the rest."""

import shutil

from measuring import ffi, in_go, in_node, in_python, measure, printed, used
from blocks import FILE, RECORD, put_records, told

NAMES = {
    "Python": ["`check_car` of an open file", "`check_car` of bytes", "`read_car` of an open file",
               "`check_car` of an open file, with `sha256=hashlib.sha256`",
               "`read_car` of an open file, with `sha256=hashlib.sha256`",
               "the sections alone: a loop reads lengths and bytes, and judges nothing"],
    "Go": ["`CARReader`", "`CARReader`, with the `SHA256` of crypto/sha256"],
    "Node": ["`checkCar` of a stream", "`checkCar` of bytes", "`CarBlockIterator` of a stream"],
}


def ways(section, given, program):
    """The ways to read the file: the name of each, and the call that returns its seconds."""
    count, go = FILE // RECORD + 1, in_go(section.folder, "languages/cars", ffi())
    yield ["`dagcar check`"], lambda: [used([program, "check"], given).processor]
    yield ["`dagcar list`, which hashes nothing"], lambda: [used([program, "list"], given).processor]
    packages = {"Python": lambda: in_python(section.folder, "cars.py", given, count)[0]}
    packages |= {"Go": lambda: printed(go, given, count)[0]} if go else {}
    packages |= {"Node": lambda: in_node("cars.js", given, count)[0]} if shutil.which("node") else {}
    for language, call in packages.items():
        yield [f"{language}: {name}" for name in NAMES[language]], call


def files_in_packages(section):
    program, given = section.dagcar(), f"{section.folder}/records"
    size = put_records(given) / 1e6
    names, calls = zip(*ways(section, given, program))
    seconds = list(map(min, zip(*[[it for call in calls for it in call()] for _ in range(section.runs)])))
    section.measured("processor time, ")
    section.head(told(given), "s", "MB a second", "by `dagcar check`")
    for name, took in zip(sum(names, []), seconds, strict=True):
        section.row(name, f"{took:.3g}", f"{size / took:.0f}", f"{took / seconds[0]:.2f}")


measure({"car_packages.py": files_in_packages})
