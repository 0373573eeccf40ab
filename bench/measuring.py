"""What the scripts have in common: the sections that they make of docs/MEASURED.md, the time of runs, and the programs and peers.

    bench/NAME.py [RUNS] [PART..] [PROGRAM] [page]

A script makes its data with a fixed seed, proves and builds what is not built, and makes RUNS runs of ours and of the peer in
turn. It prints the least processor time of each, for all of its parts or for those that are named. With `page` it also puts them
into docs/MEASURED.md, and draws that page's pictures anew. PROGRAM is the path of a `dagcar`, which is measured in place of the
repository's. The script leaves out what needs something that the machine does not have. Nothing here is a test."""

import collections
import datetime
import functools
import os
import re
import shutil
import subprocess
import sys
import tempfile
import time

ROOT = os.path.dirname(os.path.dirname(os.path.realpath(__file__)))
sys.dont_write_bytecode = True
sys.path += [f"{ROOT}/faults", f"{ROOT}/conformance"]

import bars
import building
import curves
from running import put, read

LANGUAGES = f"{ROOT}/bench/languages"
PYTHON = "/usr/bin/python3" if os.path.exists("/usr/bin/python3") else sys.executable
# The crate of the library in C, on which the packages for other languages stand.
FFI = f"{ROOT}/crates/dagcbor_ffi"
# Where Debian's packages put sources of Go, and packages of Node.
GO_SOURCES, NODE_PACKAGES = "/usr/share/gocode", "/usr/share/nodejs"


# ---- sections of the page


def machine():
    """Returns when and where this runs."""
    with open("/proc/cpuinfo", encoding="utf-8") as file:
        speeds = [float(line.rpartition(":")[2]) for line in file if line.startswith("cpu MHz")]
    clock = f", {speeds[0] / 1000:.1f} GHz" if speeds else ""
    return f"{datetime.date.today()}, {os.cpu_count()} cores{clock}"


def load():
    """Returns what the machine did in the minute before."""
    return f"load {os.getloadavg()[0]:.1f} in the minute before"


def digits(number):
    return f"{number:.3g}" if number < 100 else f"{number:.0f}" if number < 1e5 else f"{number:.2e}"


def ratio(one, other):
    return f"{one / other:.2f}" if one and other else ""


class Section:
    """What a script puts between two marks of a page: how many runs it makes, in which folder, and the lines that it prints."""

    def __init__(self, words, runs, folder):
        self.words, self.folder, self.lines, self.load = words, folder, [], load()
        self.runs = next((int(word) for word in words if word.isdigit()), runs)

    def tell(self, line):
        """Prints the line, and keeps it for the page."""
        print(line, flush=True)
        self.lines.append(line + "\n")

    def measured(self, what=""):
        self.tell(f"Measured {machine()}, {self.load}, {what}the least of {self.runs} runs.")

    def head(self, *columns):
        self.tell(f"\n| {' | '.join(columns)} |\n|{'---|' * len(columns)}")

    def row(self, *cells):
        self.tell(f"| {' | '.join(cells)} |")

    def table(self, first, columns, rows, pairs):
        """Rows of numbers by their names, and the ratios of pairs of columns. 0 stands for a number that is missing."""
        self.head(first, *columns, *(f"{columns[one]} / {columns[other]}" for one, other in pairs))
        for name, row in rows.items():
            self.row(name, *(digits(it) if it else "" for it in row), *(ratio(row[one], row[other]) for one, other in pairs))

    def dagcar(self):
        """The program at the path that is given, or the one of the repository."""
        return next((word for word in self.words if "/" in word and not word.endswith(".wasm")), None) or built("dagcar", 1)


def into_page(name, lines, page):
    """Puts the lines into a page, in place of those that stand there after the mark of the name, and draws the pictures that are
    made from them."""
    path = bars.ROOT / "docs" / page
    before, mark, rest = path.read_text(encoding="utf-8").partition(f"<!-- made by bench/{name} page -->\n")
    if not mark:
        sys.exit(f"docs/{page} has no mark of bench/{name}")
    path.write_text(before + mark + "".join(lines).lstrip("\n") + "\n" + rest[rest.index("<!-- so far") :], encoding="utf-8")
    bars.write(bars.made)
    bars.write(curves.made)


def measure(sections, runs=9, page="MEASURED.md"):
    """Makes the sections of a script by the calls of their names. If words after the script's name name some, it makes only those.
    With `page` it puts them into the page too. A section without lines leaves the page as it is."""
    words = sys.argv[1:]
    for name in [it for it in sections if set(it.split()[1:]) & set(words)] or sections:
        with tempfile.TemporaryDirectory(prefix="bench-") as folder:
            section = Section(words, runs, folder)
            sections[name](section)
        if "page" in words and section.lines:
            into_page(name, section.lines, page)


# ---- what runs take


# Seconds by the clock, and of the processor, the user's alone, the most KB of memory, and the most live bytes of heap.
Used = collections.namedtuple("Used", "clock processor user memory heap")


def used(words, given=os.devnull, out=os.devnull, library=None, statuses=(0,), **how):
    """Measures a run of the words over the file. The library counts its heap."""
    with open(given, "rb") as source, open(out, "wb") as sink, tempfile.NamedTemporaryFile(prefix="peak-") as peak:
        how["env"] = how.get("env", os.environ) | ({"LD_PRELOAD": library, "PEAK": peak.name} if library else {})
        began = time.monotonic()
        process = subprocess.Popen(words, stdin=source, stdout=sink, **how)
        _, status, usage = os.wait4(process.pid, 0)
        clock, heap = time.monotonic() - began, int(peak.read() or 0)
    process.returncode = os.waitstatus_to_exitcode(status)
    if process.returncode not in statuses:
        sys.exit(f"{' '.join(words)}: ended with status {process.returncode}")
    return Used(clock, usage.ru_utime + usage.ru_stime, usage.ru_utime, usage.ru_maxrss, heap)


def least(runs, *calls):
    """The least that each of the calls takes. They are made in turn, so what else the machine does falls on all of them."""
    columns = zip(*[[call() for call in calls] for _ in range(runs)])
    return [Used(*map(min, zip(*column))) for column in columns]


def answered(words, given, library=None):
    """Returns what was printed for the bytes, and what the run took."""
    with tempfile.TemporaryDirectory(prefix="bench-") as folder:
        took = used(words, put(f"{folder}/given", given), f"{folder}/printed", library)
        return read(f"{folder}/printed"), took


def called(program, call, times, block, right=None, library=None):
    """Measures this many calls over the block. All of them have to succeed, or as many as are right."""
    answer, took = answered([program, call, str(times)], block, library)
    if int(answer) != (times if right is None else right):
        sys.exit(f"{program}: of {times} calls of {call} {answer.decode().strip()} succeeded")
    return took


def seconds_of_calls(runs, calls, times, block, is_right=True):
    """The seconds of one of each of the calls: of many less those of none, because a run that calls nothing also prepares."""
    runner = lambda program, call, n: lambda: called(program, call, n, block, n * is_right)
    took = [it.processor for it in least(runs, *(runner(*call, n) for call in calls for n in (times, 0)))]
    return [(some - none) / times for some, none in zip(took[::2], took[1::2])]


def heap_of_call(program, call, block, library):
    """The heap of one call beyond that of a run that calls nothing."""
    return called(program, call, 1, block, library=library).heap - called(program, call, 0, block, library=library).heap


def instructions(words, times, given=b"", right=None, function=None):
    """The instructions of one call, by callgrind: those of a run of the first number of calls less those of the second. `right` says
    how many times each call succeeds. If a function is given, only instructions within it count."""
    within = [f"--toggle-collect={function}"] if function else []
    counts = []
    for n in times:
        counting = ["valgrind", "--tool=callgrind", "--callgrind-out-file=/dev/null", *within]
        ran = subprocess.run([*counting, *words, str(n)], input=given, check=True, capture_output=True)
        if right is not None and int(ran.stdout) != n * right:
            sys.exit(f"{' '.join(words)}: of {n} calls {ran.stdout.decode().strip()} succeeded")
        counts.append(int(re.search(rb"Collected : (\d+)", ran.stderr)[1]))
    return (counts[0] - counts[1]) // (times[0] - times[1])


# ---- programs and peers


@functools.cache
def built(crate, status=0):
    """The program of the crate. It is proved and built first if its sources changed, and ends on this `stdin`."""
    folder = f"{ROOT}/crates/{crate}"
    print(f"{crate}: proving and building, which takes some minutes if it is not built", file=sys.stderr)
    with open(f"{folder}/stdin", "rb") as given, open(f"{folder}/args", encoding="ascii") as args:
        words = ["rt", "run", "--", *args.read().split()]
        ran = subprocess.run(words, cwd=folder, stdin=given, capture_output=True, check=False)
    if ran.returncode != status:
        sys.exit(f"{crate}: not built\n{ran.stderr.decode(errors='replace')[-3000:]}")
    return f"{folder}/out/{crate}"


def in_c(folder, source, *more):
    """Compiles the program of the source into the folder, and returns it."""
    program = f"{folder}/{os.path.basename(source).partition('.')[0]}"
    subprocess.run([*building.c_compiler(), "-O2", "-Wall", f"{ROOT}/bench/{source}", *more, "-o", program], check=True)
    return program


def heap_counter(folder):
    """The library that counts the live heap, or None."""
    if building.c_compiler() is None:
        print("the heap is skipped, because there is no C compiler: cc, gcc or clang, or what CC names")
        return None
    return building.shared(f"{ROOT}/bench/preload.c", folder)


def in_cargo(folder, dependencies, programs, *sources):
    """The folder of the programs over these dependencies, whose sources Debian has; or None."""
    os.makedirs(folder, exist_ok=True)
    with open(f"{folder}/Cargo.toml", "w", encoding="utf-8") as file:
        file.write(f'[package]\nname = "peer"\nversion = "0.1.0"\nedition = "2021"\n[dependencies]\n{dependencies}\n')
        for name in programs:
            file.write(f'[[bin]]\nname = "{os.path.basename(name)}"\npath = "{ROOT}/bench/{name}.rs"\n')
    built_there = building.cargo_built(folder, *sources)
    if built_there is None:
        print(f"the peer in Rust is skipped: it needs cargo, and {', '.join(sources)} in {building.REGISTRY}\n")
    return built_there


def in_go(folder, source, library=None):
    """The program of the source, over the library in C if it is named; or None."""
    program, name = f"{folder}/{os.path.basename(source)}", os.path.basename(source)
    env = {**os.environ, "GO111MODULE": "off", "GOFLAGS": "", "GOPATH": GO_SOURCES, "GOCACHE": f"{folder}/cache"}
    env |= {"CGO_LDFLAGS": f"-L{os.path.dirname(library)}"} if library else {}
    words, folder = ["go", "build", "-o", program, f"{name}.go"], os.path.dirname(f"{ROOT}/bench/{source}")
    if shutil.which("go") and subprocess.run(words, cwd=folder, env=env, check=False).returncode == 0:
        return program
    print(f"what is in Go is skipped: it needs go, and fxamacker/cbor in {GO_SOURCES}\n")
    return None


@functools.cache
def ffi():
    """The library in C: the one that DAGCBOR_LIBRARY names, or the repository's, which is proved and built first if sources
    changed."""
    if "DAGCBOR_LIBRARY" not in os.environ:
        subprocess.run(["rt", "lib"], cwd=FFI, stdout=subprocess.DEVNULL, check=True)
    return os.path.abspath(os.environ.get("DAGCBOR_LIBRARY", f"{FFI}/out/libdagcbor_ffi.a"))


@functools.cache
def python_package(folder):
    """Builds the package for Python into the folder, and returns the environment that has it."""
    ffi()
    quiet = {"stdout": subprocess.DEVNULL, "cwd": folder, "check": True}
    pip, offline = [PYTHON, "-m", "pip", "--quiet"], ["--no-index", "--no-deps"]
    subprocess.run([*pip, "wheel", *offline, "--no-build-isolation", f"{ROOT}/callers/python"], **quiet)
    wheel = next(it for it in os.listdir(folder) if it.endswith(".whl"))
    subprocess.run([*pip, "install", "--root-user-action=ignore", "--target", "site", *offline, wheel], **quiet)
    return {**os.environ, "PYTHONPATH": f"{folder}/site"}


@functools.cache
def node_package():
    """Builds the package for Node, and returns its folder."""
    ffi()
    subprocess.run(["node", f"{ROOT}/callers/node/build.js"], check=True)
    return f"{ROOT}/callers/node"


def printed(*words, **how):
    """The numbers of each line that is printed."""
    ran = subprocess.run(list(map(str, words)), stdout=subprocess.PIPE, text=True, check=True, **how)
    return [[float(it) for it in line.split()] for line in ran.stdout.splitlines()]


def in_python(folder, script, *words):
    """Runs a script over the package for Python, and returns what it prints."""
    return printed(PYTHON, "-B", f"{LANGUAGES}/{script}", *words, env=python_package(folder))


def in_node(script, *words):
    """Runs a script over the package for Node, and returns what it prints."""
    return printed("node", f"{LANGUAGES}/{script}", node_package(), *words, env={**os.environ, "NODE_PATH": NODE_PACKAGES})
