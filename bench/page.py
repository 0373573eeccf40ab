#!/usr/bin/python3
"""Speed of the page in the browser on a CAR file of 104 MB of records, compared with `dagcar check`.

    bench/page.py [RUNS] [MODULE.wasm] [PROGRAM] [page]

RUNS is 5 if none is given. Without the module callers/web/build proves and builds it. It needs chromium, chromium-driver and
python3-selenium of Debian. bench/measuring.py says the rest."""

import os
import subprocess
import sys
import time

from measuring import ROOT, measure, ratio, used
from blocks import put_records, told

sys.path.insert(0, f"{ROOT}/callers/web/tests")

from browser import QUIET, Page, started

SETTLED = "document.querySelector('.car[data-done]')"


def processes():
    """For each process the words after its name in /proc: the parent is the second, and the ticks of user and system are the
    twelfth and thirteenth."""
    found = {}
    for it in filter(str.isdigit, os.listdir("/proc")):
        try:
            with open(f"/proc/{it}/stat", encoding="utf-8") as file:
                found[int(it)] = file.read().rpartition(")")[2].split()
        except OSError:
            pass
    return found


def used_by(pid):
    """The processor seconds so far of the process, of those that it started, and so on."""
    found, family = processes(), [pid]
    for one in family:
        family += [it for it, words in found.items() if int(words[1]) == one]
    return sum(int(it) for one in family if one in found for it in found[one][11:13]) / os.sysconf("SC_CLK_TCK")


def in_page(driver, url, path, scratch, is_watched=False):
    """Seconds by the clock, of the processor, and the longest in which the page gave no answer, if it is watched."""
    page = Page(driver, url, scratch)
    if is_watched:
        page.js(QUIET)
    pid = driver.service.process.pid
    before, began = used_by(pid), time.monotonic()
    page.give_file(path)
    page.wait(SETTLED, 600)
    taken = time.monotonic() - began, used_by(pid) - before, page.js("return (window.longest ?? 0) / 1000")
    if "all is well" not in page.text(".banner h2"):
        sys.exit(f"bench/page.py: {page.text('.banner')}")
    return taken


def page_and_program(section):
    folder, program = section.folder, section.dagcar()
    module = [os.path.abspath(it) for it in section.words if it.endswith(".wasm")]
    subprocess.run([f"{ROOT}/callers/web/build", f"{folder}/page", *module], check=True)
    path, ours, theirs = f"{folder}/records.car", [], []
    put_records(path)
    given, driver = (f"file://{folder}/page/dagcbor.html", path, folder), started()
    try:
        for _ in range(section.runs):
            ours.append(in_page(driver, *given)[:2])
            theirs.append(used([program, "check"], path)[:2])
        silent = in_page(driver, *given, is_watched=True)[2]
    finally:
        driver.quit()
    ours, theirs = (list(map(min, zip(*it))) for it in (ours, theirs))
    section.measured()
    section.head(told(path), "s by the clock", "s of the processor")
    section.row("the page, in Chromium", *(f"{it:.3g}" for it in ours))
    section.row("`dagcar check`", *(f"{it:.3g}" for it in theirs))
    section.row("the page by `dagcar check`", *map(ratio, ours, theirs))
    section.tell(f"\nIn a further run the page gave no answer for at most {silent * 1000:.0f} ms.")


measure({"page.py": page_and_program}, runs=5)
