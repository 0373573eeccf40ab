"""The files that are made from schemas: those of a crate, or those of another language in a folder."""

import pathlib
import re

from schemas.law import Schema, path_name
from schemas.layout import filled, in_order
from schemas.parsing import SchemaError, parse
from schemas.python import Python
from schemas.rattle import Module
from schemas.typescript import TypeScript

LANGUAGES = {"python": Python, "typescript": TypeScript}
MADE = ", by ./dagcbor-types."  # which the first line of each made file has
STANDS_ON = "serde_ipld_dagcbor types_schema dagcbor_read"


class CrateError(Exception):
    """The crate cannot be made."""


def made_of(path, make, is_proved):
    """What is made from a schema and from the name of its module. In Rattle it is proved."""
    if path.suffix != ".ipldsch" or not re.fullmatch(r"[a-z][a-z0-9]*(_[a-z0-9]+)*", path.stem):
        raise CrateError(f"{path}: a schema's file is named as a module is, and ends in .ipldsch")
    try:
        text = path.read_text(encoding="utf-8")
    except (OSError, UnicodeDecodeError) as error:
        raise CrateError(f"{path}: {error}") from error
    try:
        return make(Schema(parse(text), is_proved), path.stem)
    except SchemaError as error:
        raise CrateError(f"{path}:{error.place.line}:{error.place.column}: {error.message}") from error


def refuse_names(schemas, names):
    seen = {}
    for path in schemas:
        if path.stem in names:
            raise CrateError(f"{path}: no module can be named {path.stem}")
        if path.stem in seen:
            raise CrateError(f"{path}: {seen[path.stem]} makes the module {path.stem} already")
        seen[path.stem] = path


def files_of(schemas, folder, language=None):
    """Returns the folder, and the path and the text of each file: of Rattle, or of another language."""
    if language is None:
        return files_of_crate(schemas, folder)
    folder, maker = folder.resolve(), LANGUAGES[language]
    refuse_names(schemas, maker.closed_modules)

    def made(schema, name):
        return maker(schema).text(f"{name}.ipldsch")

    return folder, {folder / f"{path.stem}{maker.suffix}": made_of(path, made, is_proved=False) for path in schemas}


def files_of_crate(schemas, crate):
    crate = crate.resolve()
    if not re.fullmatch(r"[a-z][a-z0-9_]*", crate.name):
        raise CrateError(f"{crate.name}: a crate's name is lowercase letters, digits and _")
    refuse_names(schemas, ("lib", "main", "tests"))

    def module_of(schema, name):
        return Module(schema, crate.name, name)

    modules = sorted((made_of(path, module_of, is_proved=True) for path in schemas), key=lambda module: module.name)
    seen, paths = {}, {}
    for module in modules:
        if module.path in paths:
            raise CrateError(f"{paths[module.path]} and {module.name} have one name in specs: {module.path}")
        paths[module.path] = module.name
        for one in module.definitions:
            if one.name in seen:
                raise CrateError(f"`{one.name}` is a type both of {seen[one.name]} and of {module.name}")
            seen[one.name] = module.name
    made = {}
    for module in modules:
        made[crate / "src" / f"{module.name}.rt"] = module.source()
        made[crate / "specs" / f"{module.path}.antt"] = module.specs()
        for place, text in module.answers().items():
            made[crate / "proofs" / place / "Answers.antt"] = text
    made[crate / "src" / "lib.rt"] = lib_of(modules)
    made[crate / "specs" / "Lib.antt"] = specs_of(modules)
    return crate, made


def lib_of(modules):
    names = ", ".join(f"{module.name}.ipldsch" for module in modules)
    rows = [f"//! The types of {names}{MADE}", "#![tactic(auto)]", ""]
    rows += [f"mod {module.name};" for module in modules] + [""]
    by_name = {module.name: module for module in modules}
    for name in in_order(by_name):
        rows += filled(f"pub use {name}::", in_order(one.name for one in by_name[name].definitions), ";")
    return "\n".join(rows) + "\n"


def specs_of(modules):
    rows = [f"-- What a tree shows to each type{MADE}"]
    return "\n".join(rows + [f"pub mod {path_name(module.name)}" for module in modules]) + "\n"


def line_of(crate):
    return f"{crate.name}: {STANDS_ON}"


def left_over(crate, files):
    """Yields the files of the crate that were made from something that is no longer in the schemas."""
    found = [path for name in ("src", "specs", "proofs") for path in (crate / name).rglob("*")]
    for path in sorted(found):
        if path.suffix in (".rt", ".antt") and path not in files and is_made(text_of(path)):
            yield path


def text_of(path):
    """Returns the text of a file, which others may have written."""
    with path.open(encoding="utf-8", errors="replace", newline="") as file:
        return file.read()


def is_made(text):
    return MADE in text.split("\n", 1)[0]


def write(made, check, language=None):
    """Writes the files, and returns a line for each that differed. A crate is made from all of its schemas. In a folder of
    another language each file is by itself, and the files of other calls stay."""
    folder, files = made
    found = {path: text_of(path) for path in files if path.exists()}
    for path, text in found.items():
        if text != files[path] and not is_made(text):
            raise CrateError(f"{shown(path)} was not made by this tool: move it away first")
    told = []
    for path in left_over(folder, files) if language is None else ():
        told.append(f"{'left over' if check else 'removed'}: {shown(path)}")
        if not check:
            path.unlink()
    for path, text in files.items():
        if found.get(path) == text:
            continue
        told.append(f"{'differs' if check else 'written'}: {shown(path)}")
        if not check:
            path.parent.mkdir(parents=True, exist_ok=True)
            path.write_text(text, encoding="utf-8", newline="\n")
    return told + listed(folder, check) if language is None else told


def listed(crate, check):
    """Adds the crate's line to crates.txt if it has none, and returns what it did."""
    table = crate.parent.parent / "crates.txt"
    if not table.exists():
        return []
    text = table.read_text(encoding="utf-8")
    if re.search(rf"^{crate.name}( [^:\n]*)?:", text, re.MULTILINE):
        return []
    if not check:
        table.write_text(text.rstrip("\n") + f"\n{line_of(crate)}\n", encoding="utf-8")
    return [f"{'missing' if check else 'added'} in crates.txt: {line_of(crate)}"]


def shown(path):
    try:
        return path.relative_to(pathlib.Path.cwd())
    except ValueError:
        return path
