#!/usr/bin/env python3
"""The definitions that each sentence of the claim stands on, in the order in which to read them.

    docs/definitions.py          prints the lists, with their files
    docs/definitions.py page     puts how many they are into docs/PROVED.md
    docs/definitions.py check    fails if the page has other numbers

It begins at the contracts of the calls that a sentence names, and follows each name to its definition in specs/. Names of
std and of Rust's own types are the toolchain's, and stand in no list."""

import pathlib
import re
import sys

ROOT = pathlib.Path(__file__).resolve().parent.parent
PAGE = ROOT / "docs" / "PROVED.md"
BEGIN, END = "<!-- made by docs/definitions.py page -->", "<!-- so far, of definitions -->"
WORD = re.compile(r"[A-Za-z_][A-Za-z0-9_]*")
START = re.compile(r"(?:abbrev |unfoldable )?(?:pub )?(?:record |data )?(?:mutual\b|module\b|[A-Za-z_]\w*(?: [:({]|$))")
NAMES = re.compile(r"^\s*(?:abbrev |unfoldable )*(?:pub )(?:record |data |abbrev |unfoldable )*([A-Za-z_]\w*)")
IMPORT = re.compile(r"^(?:ghost |pub )?use Rattle\.(\w+)\.specs\.(\w+)\.\{(.*)\};?$")

# What a row of fields or of items says of the tree that it is read from.
READ_BY_PARTS = [
    ("structs", ["shape", "meaning", "finish"]),
    ("row", ["shape", "meaning"]),
    ("group", ["own_shape", "own_meaning", "own_finish", "following", "shape_before", "shows", "finish_before",
               "shape", "meaning", "finish"]),
]

# A sentence of the claim, and the calls or types whose contracts say it; after a call, the one clause of it that does.
SENTENCES = [
    ("A slice decodes as one function says",
     ["dagcbor_decode/src/slices.rt fn check_slice decoded", "dagcbor_decode/src/slices.rt fn judge_slice decoded",
      "dagcbor_decode/src/links.rt fn links_from_slice decoded"]),
    ("`to_vec` answers the one spelling of the value's tree", ["dagcbor_write/src/whole.rt fn to_vec"]),
    ("`from_slice` reads exactly the spellings that the type accepts", ["dagcbor_read/src/whole.rt fn from_slice"]),
    ("No two trees share a spelling, and none begins another's", ["ipld_tree/src/laws.rt fn spelling_unique"]),
    ("The tree of each type that is written", ["dagcbor_write/src/types/*.rt ghost tree"]),
    ("What a tree shows to each type, and the steps that reading it takes",
     ["dagcbor_read/src/types/*.rt ghost shape", "dagcbor_read/src/types/*.rt ghost meaning"]),
    ("Readers whose bytes are known answer as `from_slice`",
     ["dagcbor_read/src/source.rt fn from_reader", "dagcbor_read/src/source.rt fn from_reader_once"]),
    ("A stream gives the values one by one, and then at most one refusal", ["dagcbor_read/src/laws.rt fn streams_exact"]),
    ("`to_writer` appends the same spelling to a device", ["dagcbor_write/src/whole.rt fn to_writer"]),
    ("What `check_slice` accepts is the spelling of a tree", ["dagcbor_decode/src/slices.rt fn check_slice kind"]),
    ("`any_from_slice` refuses as that function does", ["dagcbor_items/src/slices.rt fn any_from_slice"]),
    ("Readers whose bytes are known refuse items, keys and leaves as their function does",
     ["dagcbor_items/src/any.rt fn read_any", "dagcbor_items/src/walk.rt fn skip_any",
      "dagcbor_items/src/key.rt fn read_key", "dagcbor_items/src/link.rt fn pull_link",
      *(f"dagcbor_items/src/numbers.rt fn pull_{name}" for name in ["unsigned", "signed", "u128", "i128"]),
      *(f"dagcbor_items/src/strings.rt fn pull_{name}" for name in ["str", "char", "slice"]),
      "dagcbor_items/src/simple.rt fn pull_null", "dagcbor_items/src/simple.rt fn pull_bool"]),
    ("What stands in bytes is what these functions read", ["dagcbor_items/src/laws.rt fn reads_decoded"]),
    ("`find_slice` answers the item to which a path leads", ["ipld_paths/src/find.rt fn find_slice"]),
    ("The tree of a struct and of an enum that is written",
     ["dagcbor_write/src/structs.rt fn write_struct", "dagcbor_write/src/structs.rt fn write_struct_variant",
      *(f"dagcbor_write/src/row.rt ghost {name}" for name in ["pairs", "before"])]),
    ("What a tree shows to a struct, an enum and a tuple",
     ["dagcbor_read/src/access/structs.rt fn read_struct", "dagcbor_read/src/access/structs.rt fn read_struct_variant",
      "dagcbor_read/src/access/variants.rt fn read_enum", "dagcbor_read/src/access/row.rt fn read_tuple",
      *(f"dagcbor_read/src/access/{file}.rt ghost {name}" for file, names in READ_BY_PARTS for name in names)]),
    ("`dagcbor` answers each line", ["program_dagcbor/src/command.rt fn run_command"]),
    ("`cat` writes the bytes of a file of IPFS", ["program_parts/src/file.rt fn say_file"]),
    ("`dagcar` judges a CAR file", ["program_dagcar/src/command.rt fn run_command"]),
    ("A path is resolved over blocks, and a root and a path bind what is found",
     ["ipld_paths/src/resolution.rt fn resolve", "ipld_paths/src/item.rt fn item_bytes",
      "ipld_paths/src/laws.rt fn paths_bind"]),
    ("The store keeps blocks under their names",
     [f"dagcbor_blocks/src/blocks.rt fn {name}" for name in ["put", "get", "missing"]]),
    ("The store that lasts answers only bytes of the name", ["store_on_disk/src/store.rt fn get_block"]),
    ("A commit is verified from its event alone",
     ["atproto_events/src/frame.rt fn read_frame", "atproto_events/src/verify.rt fn verify_event"]),
    ("`dagcar event` says what frames tell, one after the other", ["program_events/src/command.rt fn run_events"]),
    ("A CAR file that is written is read back",
     ["files_car/src/laws.rt fn cars_are_written", "files_car/src/laws.rt fn cars_read_back"]),
    ("What one store writes as a file, an empty one reads as the same blocks",
     ["dagcbor_blocks/src/read_car.rt fn read_car", "dagcbor_blocks/src/write_car.rt fn write_car",
      "dagcbor_blocks/src/laws.rt fn written_then_read"]),
]


def imports_of(lines):
    """Where each imported name of the repository's crates stands."""
    found = {}
    for line in lines:
        match = IMPORT.match(line)
        if match:
            crate, file, names = match.groups()
            for name in names.split(","):
                words = name.split(" as ")
                found[words[-1].strip()] = (crate, file, words[0].strip())
    return found


class Specs:
    """A file of specs/: its definitions, and the names that it imports."""

    def __init__(self, path):
        self.path = path
        lines = path.read_text(encoding="utf-8").split("\n")
        self.imports = imports_of(lines)
        self.chunks = {}
        chunk, comment = [], []
        for line in lines + [""]:
            if line.startswith("--"):
                self.close(chunk)
                chunk, comment = [], [] if line.startswith("-- ----") else comment + [line]
            elif line.startswith("use "):
                self.close(chunk)
                chunk, comment = [], []
            elif line and not line[0].isspace() and START.match(line) and (NAMES.match(line) or "mutual" in line or "module" in line):
                self.close(chunk)
                chunk, comment = comment + [line], []
            elif line.strip():
                chunk.append(line)
        self.close(chunk)

    def close(self, chunk):
        """Keeps a definition under each name that it has."""
        code = [line for line in chunk if not line.lstrip().startswith("--")]
        names = [match.group(1) for line in code if (match := NAMES.match(line))]
        is_record = any("record " in line for line in code[:1])
        for name in names[:1] if is_record else names:
            self.chunks.setdefault(name, (names[0], chunk, code))


FILES = {}


def specs(crate, file):
    key = crate, file
    if key not in FILES:
        path = ROOT / "crates" / crate / "specs" / f"{file}.antt"
        FILES[key] = Specs(path) if path.is_file() else None
    return FILES[key]


def reach(words, imports, own, found):
    """Adds the definitions that these words stand on, and then those that have these names."""
    for word in words:
        crate, file, name = imports.get(word) or ((*own, word) if own else (None, None, None))
        at = specs(crate, file) if crate else None
        while at is not None and name not in at.chunks and name in at.imports:
            crate, file, name = at.imports[name]
            at = specs(crate, file)
        if at is None or name not in at.chunks:
            continue
        first, chunk, code = at.chunks[name]
        key = (crate, file, first)
        if key in found:
            continue
        found[key] = None
        reach(WORD.findall("\n".join(code)), at.imports, (crate, file), found)
        # Dependencies come first: the key moves after them.
        del found[key]
        found[key] = len(chunk)


def contract_words(call):
    """The words of a call's clauses, or of a ghost member in these files, with the imports there."""
    where, kind, name, *clauses = call.split()
    for path in sorted((ROOT / "crates").glob(where)):
        text = path.read_text(encoding="utf-8")
        imports = imports_of(text.split("\n"))
        if kind == "fn":
            start = re.search(rf"\bfn {name}\b", text).start()
            body = re.search(r"^\s*\{", text[start:], re.M)
            head = text[start:start + body.start()]
            for clause in clauses:
                head = re.search(rf"^\s*ensures {clause} \{{.*?(?=^\s*ensures |\Z)", head, re.M | re.S)[0]
            yield WORD.findall(head), imports, 0
        else:
            for match in re.finditer(rf"ghost {name} = \{{(.*?)\}};", text, re.S):
                yield WORD.findall(match.group(1)), imports, match.group(0).count("\n") + 1


def rows(keys, found):
    """A row for each run of definitions of one file."""
    runs = []
    for crate, file, name in keys:
        place = f"`{file}.antt` of `{crate}`"
        if not runs or runs[-1][0] != place:
            runs.append([place, [], 0])
        runs[-1][1].append(f"`{name}`")
        runs[-1][2] += found[crate, file, name]
    return [f"| {place} | {', '.join(names)} | {lines} |" for place, names, lines in runs]


def lists():
    """For each sentence its new definitions, how many lines they have, and how many ghost lines stand beside code, and where."""
    found = {}
    for sentence, calls in SENTENCES:
        before, ghosts, folders = set(found), 0, {}
        for call in calls:
            for words, imports, lines in contract_words(call):
                ghosts += lines
                if lines:
                    folders[f"`{call.split()[0].rpartition('/')[0]}`"] = None
                reach(words, imports, None, found)
        new = [key for key in found if key not in before]
        beside = f"{ghosts} ghost lines in {', '.join(folders)}" if ghosts else ""
        yield sentence, new, found, beside


def printed():
    """The lists, whole."""
    for sentence, new, found, beside in lists():
        table = ["| File | Definitions, in their order | Lines |", "|---|---|---|", *rows(new, found)]
        yield from [f"### {sentence}", "", *table, "", *([beside, ""] if beside else [])]


def page():
    """The page's part."""
    out = ["| Sentence | Definitions | Lines |", "|---|---|---|"]
    total, count = 0, 0
    for sentence, new, found, beside in lists():
        lines = sum(found[key] for key in new)
        ghosts = int(beside.split()[0]) if beside else 0
        total, count = total + lines + ghosts, count + len(new)
        out.append(f"| {sentence} | {len(new)} | {lines}{f'; and {beside}' if beside else ''} |")
    return "\n".join([*out, "", f"In all {count} definitions, {total} lines."])


def main(words):
    text = PAGE.read_text(encoding="utf-8")
    made = f"{BEGIN}\n\n{page()}\n\n{END}"
    if words == ["page"]:
        before, _, rest = text.partition(BEGIN)
        PAGE.write_text(before + made + rest.partition(END)[2], encoding="utf-8")
    elif words == ["check"]:
        if made not in text:
            sys.exit("docs/PROVED.md: the lists of definitions are not those of specs/: run docs/definitions.py page")
    else:
        print(*printed(), sep="\n")


if __name__ == "__main__":
    main(sys.argv[1:])
