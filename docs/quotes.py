#!/usr/bin/env python3
"""The quotations of the pages: contracts and definitions as they stand in the sources.

    docs/quotes.py page      puts each quotation into its page anew
    docs/quotes.py check     fails if a page has another text, or a block of Rust that stands in no source, or README
                             another logic than that of `rt version`; and if a page, or a line `//!` of a source, names a
                             file or a function that is not there

A quotation follows a line `<!-- quotes FILE NAME.. -->`: from src/ the heads of these functions, with their contracts; from specs/
these definitions, with their comments; from a schema in schemas/examples these types, with their comments."""

import pathlib
import re
import shutil
import subprocess
import sys

from definitions import ROOT, Specs

PAGES = [ROOT / "README.md", *sorted((ROOT / "docs").glob("*.md"))]
QUOTE = re.compile(r"(<!-- quotes (\S+)\s(.*?) -->\n\n```(\w+)\n)(.*?)(```\n)", re.S)
BLOCK = re.compile(r"```rust\n(.*?)```", re.S)
CODE = re.compile(r"`([^`\n]+)`")
FILE = re.compile(r"(?:\.\./)*[\w./-]+\.(?:rt|antt|py|md|ipldsch|edit)")
CALL = re.compile(r"[a-z]\w*_\w+")
# Words that a page says stand in a file: "`put_block`, `get_block`: `src/tests/mixed.rt`".
WORDS_IN_FILE = re.compile(r"((?:`\w+`,? (?:and )?)*`\w+`): `([\w./-]+\.rt)`")
# What a page tells its reader to make.
MADE = {"lib/music.py", "specs/Echo.antt"}


def dedented(lines):
    """The lines without the indent that all of them have."""
    room = min((len(line) - len(line.lstrip()) for line in lines if line.strip()), default=0)
    return [line[room:] for line in lines]


def head_of(text, name):
    """The head of a function, with its contract."""
    lines = text.split("\n")
    start = next(i for i, line in enumerate(lines) if re.search(rf"\bfn {name}\b", line))
    end = next(i for i in range(start, len(lines)) if re.fullmatch(r"\s*\{(\})?", lines[i]))
    return dedented(lines[start:end])


def quotation(file, names):
    if file.endswith(".ipldsch"):
        types = (ROOT / "schemas" / "examples" / file).read_text(encoding="utf-8").strip().split("\n\n")
        return "\n\n".join(one for name in names for one in types if re.search(rf"^type {name}\b", one, re.M)) + "\n"
    path = ROOT / "crates" / file
    if path.suffix == ".rt":
        text = path.read_text(encoding="utf-8")
        parts = [head_of(text, name) for name in names]
    else:
        chunks = Specs(path).chunks
        parts = [chunks[name][1] for name in names]
    return "\n\n".join("\n".join(part) for part in parts) + "\n"


def quoted(text):
    """The page's text with its quotations made anew."""
    return QUOTE.sub(lambda m: m.group(1) + quotation(m.group(2), m.group(3).split()) + m.group(6), text)


def sources():
    """The lines of all sources, each without its indent."""
    for path in [*(ROOT / "crates").rglob("*"), *(ROOT / "callers").rglob("*")]:
        if path.suffix in (".rt", ".antt", ".rs") and "/out/" not in str(path):
            yield "\n" + "\n".join(line.strip() for line in path.read_text(encoding="utf-8").split("\n")) + "\n"


def strangers(text, all_sources):
    """The paragraphs of the page's Rust that stand in no source."""
    for block in BLOCK.findall(text):
        # A blank line, or one of two dots, stands between what is quoted.
        for paragraph in re.split(r"\n(?:\s*\n|\s*\.\.\n)", block.strip("\n")):
            lines = "\n" + "\n".join(line.strip() for line in paragraph.split("\n")) + "\n"
            if not any(lines in source for source in all_sources):
                yield paragraph


def is_there(pointer, names):
    """Returns true if a file of the repository has this path, or one that ends so."""
    return any(f"/{name}".endswith(f"/{pointer}") for name in names)


def dead_pointers():
    """What a line `//!` of a source names in backquotes and is not there: a file, or a function or another word of snake case
    that no code has. For a page, its files."""
    listed = subprocess.run(["git", "ls-files"], cwd=ROOT, capture_output=True, text=True, check=True).stdout.split("\n")
    names = [name for name in listed if (ROOT / name).is_file()]
    code, heads = set(), []
    for name in names:
        if name.endswith((".rt", ".antt", ".rs", ".h")) or name == "crates.txt":
            lines = (ROOT / name).read_text(encoding="utf-8").split("\n")
            heads += [(name, line) for line in lines if name.endswith(".rt") and line.startswith("//!")]
            code.update(word for line in lines if not line.lstrip().startswith(("//", "--")) for word in re.findall(r"\w+", line))
    pages = [(str(page.relative_to(ROOT)), line) for page in PAGES for line in page.read_text(encoding="utf-8").split("\n")]
    for name, line in heads + pages:
        for pointer in CODE.findall(line):
            if FILE.fullmatch(pointer) and pointer not in MADE and not is_there(pointer.lstrip("./"), names):
                yield f"{name}: names {pointer}, which is not there"
            elif name.endswith(".rt") and CALL.fullmatch(pointer) and pointer not in code:
                yield f"{name}: names {pointer}, which no code has"
    for page in PAGES:
        for words, pointer in WORDS_IN_FILE.findall(page.read_text(encoding="utf-8")):
            texts = [(ROOT / name).read_text(encoding="utf-8") for name in names if is_there(pointer, [name])]
            for word in CODE.findall(words):
                if not any(re.search(rf"\b{word}\b", text) for text in texts):
                    yield f"{page.name}: {pointer} has no {word}"


def other_logic():
    """Returns the logic that README names, if `rt version` names another."""
    named = re.search(r"logic `(\w+)`", (ROOT / "README.md").read_text(encoding="utf-8"))[1]
    if not shutil.which("rt"):
        return None
    is_now = subprocess.run(["rt", "version"], capture_output=True, text=True, check=True).stdout.split()[-1]
    return None if named == is_now else named


def main(words):
    all_sources = list(sources())
    status = 0
    for page in PAGES:
        text = page.read_text(encoding="utf-8")
        made = quoted(text)
        if words == ["page"]:
            page.write_text(made, encoding="utf-8")
        elif made != text:
            print(f"{page.name}: a quotation is not as its source: run docs/quotes.py page")
            status = 1
        for paragraph in strangers(made, all_sources):
            print(f"{page.name}: stands in no source:\n{paragraph}\n")
            status = 1
    for pointer in dead_pointers():
        print(pointer)
        status = 1
    if logic := other_logic():
        print(f"README names the logic {logic}")
        status = 1
    return status


if __name__ == "__main__":
    sys.exit(main(sys.argv[1:]))
