#!/usr/bin/env python3
"""Man pages, and completions for bash, made from what `--help` of each program writes; and man pages of the C libraries, made from
their headers.

    docs/manual.py page      makes all of them anew
    docs/manual.py check     fails if one differs from what `--help` or the header says, if a word is missing in the tables of
                             docs/PROGRAMS.md, or if `--version` is not that of CHANGELOG.md

The texts of `dagcar` and `dagstore` stand in their sources; `dagcbor` has only its two words, and its text is here."""

import pathlib
import re
import sys

ROOT = pathlib.Path(__file__).resolve().parent.parent
PAGE = ROOT / "docs" / "PROGRAMS.md"
SOURCES = {"dagcar": "crates/program_dagcar/src/help.rt", "dagstore": "crates/program_dagstore/src/words.rt"}
DOES = {"dagcbor": "judge blocks of DAG-CBOR, a line each", "dagcar": "judge, show and make blocks, and CAR files",
        "dagstore": "keep blocks in a file that lasts"}
HEADERS = {"dagcbor": "crates/dagcbor_ffi/include/dagcbor.h", "dagcbor_memory": "crates/dagcbor_memory_ffi/include/dagcbor_memory.h"}
DECLARES = {"dagcbor": "judge, read and spell blocks of DAG-CBOR, in memory that is lent",
            "dagcbor_memory": "DAG-JSON, and repositories and events of the AT Protocol"}
# A comment at the start of a line, and the declarations that it is about, up to the next empty line.
DECLARED = re.compile(r"^/\* (.*?) \*/\n((?:[^\n]+\n)*)", re.M | re.S)
DAGCBOR = """usage: dagcbor check|links

For each block on standard input, one a line in hexadecimal, it writes:
  check    its kind, or why it is refused
  links    its links

For example: printf '1818\\n1817\\n' | dagcbor check

The status is 0 if all input was answered, 1 if input, output or memory failed, 2 for other
words.
"""


def constant(name, which):
    """Returns the text of a constant of the program."""
    source = (ROOT / SOURCES[name]).read_text(encoding="utf-8")
    return re.search(rf'const {which}: &str = "(.*?)";$', source, re.M | re.S)[1].replace("\\n", "\n")


def help_of(name):
    """Returns what `--help` of the program writes."""
    return constant(name, "HELP") if name in SOURCES else DAGCBOR


def words_of(text):
    """Each word, and what it does."""
    return [(word, " ".join(what.split())) for word, what in re.findall(r"^  ([\w-]+) {2,}(.*(?:\n {6,}.*)*)$", text, re.M)]


def roff(text):
    return re.sub(r"^([.'])", r"\\&\1", text.replace("\\", "\\e").replace("-", "\\-"), flags=re.M)


def man(name, text):
    calls, *parts = text.rstrip().split("\n\n")
    lines = [f'.TH {name.upper()} 1 "" Cafijolu', ".SH NAME", f"{name} \\- {DOES[name]}", ".SH SYNOPSIS", ".nf"]
    lines += [roff(line.replace("usage:", "").strip()) for line in calls.split("\n")] + [".fi", ".SH DESCRIPTION"]
    for part in parts:
        if part.startswith("The status"):
            lines += [".SH EXIT STATUS", roff(part)]
        elif part.startswith("For example"):
            lines += [".SH EXAMPLES", ".nf", roff(re.sub(r"^(For example:\s*|  )", "", part, flags=re.M)), ".fi"]
        else:
            lines += [".PP", roff(re.split(r"\n  \w", part)[0])]
            for word, what in words_of(part):
                lines += [".TP", f".B {word}", roff(what)]
    return "\n".join(lines) + "\n"


def paragraphs(comment):
    """The paragraphs of a comment; one with a list or a table keeps its lines."""
    for part in re.split(r"\n\s*\n", re.sub(r"^ {3}", "", comment, flags=re.M)):
        has_rows = re.search(r"^(- |[A-Z_, ]+ {3,}| {2})", part, re.M)
        yield from [".PP", ".nf", roff(part), ".fi"] if has_rows else [".PP", roff(part)]


def constants(declaration):
    """Each constant of an enumeration, its number, and what it means."""
    for name, number, what in re.findall(r"(\w+) = (-?\d+),?(?: *\/\* (.*?) \*\/)?", declaration, re.S):
        yield from [".TP", f".B {name} = {roff(number)}", roff(" ".join(what.split()))]


def inlined(text, comment):
    """The functions that a header defines itself, after their comment: what stands before the body of each."""
    after = text.partition(f"{comment} */\n")[2]
    return re.findall(r"^static inline (.*\)) \{$", re.split(r"^/\*", after, maxsplit=1, flags=re.M)[0], re.M)


def library(name):
    """The page of a header: what it says first, each function, and each enumeration."""
    text = (ROOT / HEADERS[name]).read_text(encoding="utf-8")
    (front, _), *declared = DECLARED.findall(text)
    lines = [f'.TH {name.upper()} 3 "" Cafijolu', ".SH NAME", f"{name} \\- {DECLARES[name]}"]
    lines += [".SH SYNOPSIS", f".B #include <{name}.h>", ".SH DESCRIPTION", *paragraphs(front)]
    for comment, declaration in declared:
        if found := re.match(r"typedef struct (\w+)", declaration):
            lines += [f".SS {found[1]}", ".nf", roff(declaration.strip()), ".fi", *paragraphs(comment)]
    lines.append(".SH FUNCTIONS")
    for comment, declaration in declared:
        if found := re.match(r"(?:int32_t|void) (dagcbor_\w+)\(", declaration):
            lines += [f".SS {found[1]}", ".nf", roff(declaration.strip()), ".fi", *paragraphs(comment)]
        elif declaration.startswith("static inline"):
            heads = inlined(text, comment)
            names = ", ".join(re.search(r"(dagcbor_\w+)\(", head)[1] for head in heads)
            lines += [f".SS {names}", ".nf", *(roff(f"{head};") for head in heads), ".fi", *paragraphs(comment)]
    lines.append(".SH CONSTANTS")
    for comment, declaration in declared:
        if declaration.startswith("enum"):
            lines += [*paragraphs(comment), *constants(declaration)]
    return "\n".join(lines) + "\n"


def completion(name, text):
    words = " ".join([*(word for word, _ in words_of(text)), *(["--help", "--version"] if name in SOURCES else [])])
    return f"""# Completion of `{name}` for bash: its words, and files. Source this file.
_{name}() {{
    local now=${{COMP_WORDS[COMP_CWORD]}}
    if [ "$COMP_CWORD" -eq {2 if name == "dagstore" else 1} ]; then
        mapfile -t COMPREPLY < <(compgen -W "{words}" -- "$now")
    else
        mapfile -t COMPREPLY < <(compgen -f -- "$now")
    fi
}}
complete -o filenames -F _{name} {name}
"""


def made():
    """Each file, and its text."""
    for name in DOES:
        text = help_of(name)
        yield ROOT / "docs" / "man" / f"{name}.1", man(name, text)
        yield ROOT / "docs" / "completions" / f"{name}.bash", completion(name, text)
    for name in HEADERS:
        yield ROOT / "docs" / "man" / f"{name}.3", library(name)


def wrong():
    """Yields what is not as it should be."""
    for path, text in made():
        if not path.exists() or path.read_text(encoding="utf-8") != text:
            yield f"{path.relative_to(ROOT)} is not what --help or the header says: docs/manual.py page"
    page = PAGE.read_text(encoding="utf-8")
    version = re.search(r"^## (\S+?),? ", (ROOT / "CHANGELOG.md").read_text(encoding="utf-8"), re.M)[1]
    for name in DOES:
        front = "" if name == "dagstore" else f"{name} "
        for word, _ in words_of(help_of(name)):
            if f"| `{front}{word}" not in page:
                yield f"docs/PROGRAMS.md has no `{front}{word}` in its tables"
        if name in SOURCES and constant(name, "VERSION").strip() != f"{name} {version}":
            yield f"`{name} --version` is not {version}"


def main(words):
    if words == ["check"]:
        found = list(wrong())
        print(*found, sep="\n", end="\n" if found else "")
        return 1 if found else 0
    if words != ["page"]:
        sys.exit(__doc__)
    for path, text in made():
        path.parent.mkdir(parents=True, exist_ok=True)
        path.write_text(text, encoding="utf-8")
    return 0


if __name__ == "__main__":
    sys.exit(main(sys.argv[1:]))
