"""What a worker takes for one thing that verify_folder.py does: scale.py check FILE, divide FILE or
part FILE. Prints seconds of the processor, how many names there were, and by how many bytes the
process grew."""

import os
import sys
import time

from dagcbor import check_car

HERE = os.path.dirname(os.path.abspath(__file__))
sys.path.insert(0, os.path.join(HERE, "../../callers/python/examples"))

from verify_folder import divided, missing_in


def peak():
    """The most memory of this process so far. What getrusage says counts that of its parent too."""
    with open("/proc/self/status", encoding="ascii") as file:
        return next(int(it.split()[1]) * 1024 for it in file if it.startswith("VmHWM:"))


def check(path):
    """A file is checked."""
    with open(path, "rb") as file:
        found = check_car(file)
    return lambda: None, found


def divide(path):
    """Its names are divided."""
    _, found = check(path)
    return lambda: divided(found.held, 64), found


def part(path):
    """A part of which three files hold a third each, and want a tenth of what they hold."""
    _, found = check(path)
    packed = b"".join(divided(found.held, 1))
    wanted = packed[: len(packed) // 370 * 37]
    third = len(packed) // 37 // 3 * 37
    pieces = [(0, packed[it : it + third], wanted) for it in (0, third, 2 * third)]
    return lambda: missing_in((0, pieces)), found


work, path = {"check": check, "divide": divide, "part": part}[sys.argv[1]], sys.argv[2]
if work is check:
    before, began = peak(), time.process_time()
    _, found = check(path)
else:
    call, found = work(path)
    before, began = peak(), time.process_time()
    call()
assert found.is_well
print(time.process_time() - began, sum(found.verdicts.values()), peak() - before)
