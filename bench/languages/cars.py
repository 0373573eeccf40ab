"""Seconds of the processor for one go through a CAR file, in each way: cars.py FILE

Prints them in a line: `check_car` of the open file, and of its bytes; `read_car`, each section of
the open file; `check_car` and `read_car` of the open file with digests by hashlib; and reading the
sections alone, by a loop that knows lengths and judges nothing."""

import hashlib
import sys
import time

from dagcbor import check_car, read_car


def check_file(path, sha256=None):
    with open(path, "rb") as file:
        return sum(check_car(file, sha256=sha256).verdicts.values())


def check_by_hashlib(path):
    return check_file(path, hashlib.sha256)


def check_bytes(path):
    with open(path, "rb") as file:
        return sum(check_car(file.read()).verdicts.values())


def read_sections(path, sha256=None):
    with open(path, "rb") as file:
        sections = read_car(file, sha256=sha256)
        return sum(1 for section in sections if section.verdict.startswith("ok "))


def read_by_hashlib(path):
    return read_sections(path, hashlib.sha256)


def number_in(file):
    number = shift = 0
    while byte := file.read(1):
        number |= (byte[0] & 127) << shift
        shift += 7
        if byte[0] < 128:
            return number
    return None


def sections_alone(path):
    with open(path, "rb") as file:
        file.read(number_in(file))
        count = 0
        while (length := number_in(file)) is not None:
            file.read(length)
            count += 1
        return count


def seconds(call, path):
    began = time.process_time()
    count = call(path)
    took = time.process_time() - began
    assert count == int(sys.argv[2]), (call, count)
    return took


CALLS = check_file, check_bytes, read_sections, check_by_hashlib, read_by_hashlib, sections_alone
print(*(seconds(it, sys.argv[1]) for it in CALLS))
