"""The file of Python that is made from a schema: dataclasses and enums over the package `dagcbor`, with `from_block` and `to_block`."""

import json
import keyword

from schemas.law import bounds, is_a, snake
from schemas.language import WAYS, WIDTH, Language, named, named_blocks, power_of_two
from schemas.parsing import WIDTHS, Alias, Enum, Member, Struct, Union, Unit

# Names of fields that would replace a type in the annotations after them, or a method, or the function that makes one.
RESERVED = {"bool", "bytes", "dict", "from_block", "int", "list", "staticmethod", "str", "to_block"}

DATACLASS = ["@dataclass(kw_only=True, slots=True)"]

# What a made file may import, in its order.
IMPORTS = (
    ("collections.abc", ("Callable",)),
    ("dataclasses", ("dataclass",)),
    ("enum", ("Enum",)),
    ("typing", ("Any", "TypeAlias", "TypeVar")),
)
PACKAGE = ("CID", "DagCborError", "dumps", "loads")

# Names that the types and functions use, in their order, and what defines each.
FRONT = '''
_Block: TypeAlias = bytes | bytearray | memoryview

_Place: TypeAlias = tuple[str | int, ...]

_T = TypeVar("_T")

_V = TypeVar("_V")

_E = TypeVar("_E", bound=Enum)

_Key = TypeVar("_Key", str, int)

_Conversion: TypeAlias = Callable[[Any, _Place], _T]

class Absent(Enum):
    """Stands for an entry that is left out, where None is null."""

    ABSENT = "absent"
'''

# Functions that these use, likewise.
BACK = '''
def _fields(value: Any, at: _Place, *keys: str) -> dict[str, Any]:
    """The entries of a map that has no other keys."""
    entries = _is(dict, value, at)
    for key in entries:
        if key not in keys:
            raise _refused("Msg", (*at, key), "unknown field")
    return entries

def _field(entries: dict[_Key, Any], key: _Key, at: _Place, read: _Conversion[_T]) -> _T:
    if key not in entries:
        raise _refused("Msg", (*at, key), "missing field")
    return read(entries[key], (*at, key))

def _optional(
    entries: dict[_Key, Any], key: _Key, at: _Place, read: _Conversion[_T]
) -> _T | None:
    return read(entries[key], (*at, key)) if key in entries else None

def _omissible(
    entries: dict[_Key, Any], key: _Key, at: _Place, read: _Conversion[_T]
) -> _T | Absent:
    return read(entries[key], (*at, key)) if key in entries else Absent.ABSENT

def _implied(
    entries: dict[_Key, Any], key: _Key, at: _Place, read: _Conversion[_T], value: _V
) -> _T | _V:
    """What stands under the key, which means the value where it is left out, and is no other then."""
    if key not in entries:
        return value
    found = read(entries[key], (*at, key))
    if found == value:
        raise _refused("Msg", (*at, key), "no such value")
    return found

def _put_implied(entries: dict[str, Any], key: str, item: Any, value: Any) -> None:
    """Adds an entry, where it is not what is meant without it."""
    if item != value:
        entries[key] = item

def _items(value: Any, at: _Place, least: int, most: int | None = None) -> list[Any]:
    """The items of a list that has so many."""
    items = _is(list, value, at)
    if not least <= len(items) <= (most or least):
        wanted = f"{least} to {most}" if most else str(least)
        why = f"a list of {wanted} is wanted, and not of {len(items)}"
        raise _refused("LengthMismatch", at, why)
    return items

def _pair(item: Any, at: _Place, key: str, read: _Conversion[_T]) -> _T:
    """The value of a pair of this key."""
    found, value = _items(item, at, 2)
    if _text(found, (*at, 0)) != key:
        raise _refused("Msg", (*at, 0), "unknown field")
    return read(value, (*at, 1))

def _pairs(value: Any, at: _Place, least: int, *keys: str) -> dict[str, tuple[Any, _Place]]:
    """The values of a list of pairs, with their places. The keys stand in this order."""
    found: dict[str, tuple[Any, _Place]] = {}
    left = iter(keys)
    for place, item in enumerate(_items(value, at, least, len(keys))):
        key, part = _items(item, (*at, place), 2)
        if _text(key, (*at, place, 0)) not in left:  # which takes those before it
            raise _refused("Msg", (*at, place, 0), "unknown field")
        found[key] = part, (*at, place, 1)
    return found

def _paired(
    pairs: dict[str, tuple[Any, _Place]], key: str, at: _Place, read: _Conversion[_T]
) -> _T:
    if key not in pairs:
        raise _refused("Msg", at, f"missing field {key}")
    return read(*pairs[key])

def _optional_paired(
    pairs: dict[str, tuple[Any, _Place]], key: str, read: _Conversion[_T]
) -> _T | None:
    return read(*pairs[key]) if key in pairs else None

def _omissible_paired(
    pairs: dict[str, tuple[Any, _Place]], key: str, read: _Conversion[_T]
) -> _T | Absent:
    return read(*pairs[key]) if key in pairs else Absent.ABSENT

def _pieces(value: Any, at: _Place, join: str, count: int) -> list[str]:
    """The pieces of a text, of which there are so many."""
    pieces = _text(value, at).split(join)
    if len(pieces) != count:
        raise _refused("Msg", at, f"{count} pieces are wanted, and not {len(pieces)}")
    return pieces

def _joined(at: _Place, join: str, *pieces: str) -> str:
    """The text of these pieces, which is parted into them again."""
    whole = join.join(pieces)
    if whole.split(join) != list(pieces):
        raise _refused("Msg", at, "what separates the pieces is in one")
    return whole

def _put(items: list[Any], place: int, at: _Place, item: Any) -> None:
    """Adds an item at its place, before which none is left out."""
    if len(items) != place:
        raise _refused("Msg", (*at, len(items)), "missing field")
    items.append(item)

def _entry(value: Any, at: _Place) -> tuple[str, Any]:
    """The key and the value of a map of one entry."""
    entries = _is(dict, value, at)
    if len(entries) != 1:
        raise _refused("Mismatch", at, f"a dict of one entry is wanted, and not of {len(entries)}")
    return next(iter(entries.items()))

def _told(value: Any, at: _Place, key: str) -> tuple[str, dict[str, Any]]:
    """What stands under the key, which tells the member of a union, and the other entries."""
    entries = dict(_is(dict, value, at))
    tag = _field(entries, key, at, _text)
    del entries[key]
    return tag, entries

def _enveloped(value: Any, at: _Place, tag: str, content: str) -> tuple[str, Any]:
    """What stands under the two keys of a map that has no others."""
    entries = _fields(value, at, tag, content)
    return _field(entries, tag, at, _text), _field(entries, content, at, _anything)

def _bounded(at: _Place) -> None:
    """Refuses what is in more lists and maps than a block has in each other, such as a value that holds itself."""
    if len(at) > 127:
        raise _refused("DepthOverflow", at[:127], "too deep")

def _unit(one: bool | None, value: Any, at: _Place) -> None:
    """Refuses what is not the one value of a unit."""
    if _is(type(one), value, at) is not one:
        raise _refused("Msg", at, "no such value")

def _member(kind: type[_E], data: str | int, at: _Place) -> _E:
    """The member of an Enum that stands for the data."""
    try:
        return kind(data)
    except ValueError:
        raise _refused("Msg", at, "unknown variant") from None

def _list_of(item: _Conversion[_T]) -> _Conversion[list[_T]]:
    def convert(value: Any, at: _Place) -> list[_T]:
        return [item(one, (*at, place)) for place, one in enumerate(_is(list, value, at))]

    return convert

def _map_of(part: _Conversion[_T]) -> _Conversion[dict[str, _T]]:
    def convert(value: Any, at: _Place) -> dict[str, _T]:
        entries = _is(dict, value, at)
        return {_text(key, at): part(one, (*at, key)) for key, one in entries.items()}

    return convert

def _nullable(part: _Conversion[_T]) -> _Conversion[_T | None]:
    def convert(value: Any, at: _Place) -> _T | None:
        return None if value is None else part(value, at)

    return convert

def _anything(value: Any, at: _Place) -> Any:
    return value

def _bool(value: Any, at: _Place) -> bool:
    return _is(bool, value, at)

def _text(value: Any, at: _Place) -> str:
    return _is(str, value, at)

def _bytes(value: Any, at: _Place) -> bytes:
    return _is(bytes, value, at)

def _link(value: Any, at: _Place) -> CID:
    return _is(CID, value, at)

def _integer(least: int, most: int) -> _Conversion[int]:
    def convert(value: Any, at: _Place) -> int:
        number = _is(int, value, at)
        if not least <= number <= most:
            raise _refused("CastOverflow", at, f"an int from {least} to {most} is wanted")
        return number

    return convert

def _is(kind: type[_T], value: Any, at: _Place) -> _T:
    """The value, where it is one of the class. A bool is no int."""
    if isinstance(value, kind) and (kind is bool or not isinstance(value, bool)):
        return value
    raise _other(kind.__name__, value, at)

def _other(wanted: str, value: Any, at: _Place) -> DagCborError:
    return _refused("Mismatch", at, f"{wanted} is wanted, and not {type(value).__name__}")

def _refused(kind: str, at: _Place, why: str) -> DagCborError:
    place = "/".join(str(step) for step in at)
    return DagCborError(f"{place}: {why}" if at else why, kind, at)
'''


class Python(Language):
    called = "Python"
    suffix = ".py"
    gap = 2
    # The kinds of data, and the class of each.
    kinds = {"bool": "bool", "int": "int", "string": "str", "bytes": "bytes", "list": "list", "map": "dict", "link": "CID", "null": "None"}
    taken = frozenset("CID Callable DagCborError Enum Absent TypeAlias TypeVar ValueError False None True".split())
    closed_modules = frozenset({*keyword.kwlist, "collections", "dagcbor", "dataclasses", "enum", "typing"})
    front, back = named_blocks(FRONT), named_blocks(BACK)

    scalars = {"String": "str", "Bytes": "bytes", "Bool": "bool", "Any": "Any"}
    map_type, null, data = "dict[str, {}]", "None", "Any"
    function_head = "def {}(value: Any, at: _Place) -> {}:"
    let, let_two, let_list = "{} = ", "{}, {} = ", "{}: list[Any] = "
    path_of, length, added = "(*at, {})", "len({})", "append"
    map_value = "_is(dict, value, at)"
    is_there, absent = "held.{} is not {}", ("None", "Absent.ABSENT")
    choice_by, choice_end = "match {}:", ["    {}"]
    refusal = 'raise _refused("Msg", {}, "{}")'
    member, member_pattern, no_member = ("return {union}{case}(", ["{value}"], ")"), "{}{}()", 'raise _other("{}", value, at)'
    map_of_data, tagged = ("return {", "}"), ("return {{", ["{key}: {tag}", "**{entries}"], "}}")
    prefixed = ("return {prefix} + {text}", [], "")
    tag_of, has_prefix, without_prefix = "_told(value, at, {})", "whole.startswith({})", "whole.removeprefix({})"

    # ---- names

    def type_names(self, one):
        has_cases = isinstance(one, Union) and not is_a(one, "union_kinded")
        return [one.name, *(case_class(one, case) for case in one.cases)] if has_cases else [one.name]

    def field_name(self, field):
        word = snake(field.name)
        return word + "_" if word in RESERVED or keyword.iskeyword(word) else word

    def helper(self, word):
        return f"_{word}"

    def function(self, way, name):
        return f"_{way}_{snake(name)}"

    # ---- the file

    def head(self, source, words):
        rows = [f'"""The types of {source}, by ./dagcbor-types. Change that file, and run it again."""', ""]
        rows += ["from __future__ import annotations", ""]
        for home, names in IMPORTS:
            used = [name for name in names if name in words]
            rows += [f"from {home} import {', '.join(used)}"] if used else []
        return [*rows, "", "from dagcbor import " + ", ".join(name for name in PACKAGE if name in words)]

    # ---- declared types

    def declared(self, one):
        if isinstance(one, Struct):
            return [self.declared_struct(one)]
        if isinstance(one, Unit):
            return [[*DATACLASS, f"class {one.name}:", *docstring(one.text), *methods(one)]]
        if isinstance(one, Enum):
            rows = [f"    {member_name(one, member)} = {self.literal(member.data)}" for member in one.members]
            return [[f"class {one.name}(Enum):", *docstring(one.text), *rows, "", *methods(one)]]
        if isinstance(one, Alias):
            return [self.alias(one, [self.annotation(one.of)])]
        if is_a(one, "union_kinded"):
            return [self.alias(one, [self.annotation(case.type) for case in one.cases])]
        classes = [self.declared_case(one, case) for case in one.cases]
        return [*classes, self.alias(one, [case_class(one, case) for case in one.cases])]

    def integer_type(self, width):
        return "int"

    def list_type(self, item):
        return f"list[{item}]"

    def is_text(self, one):
        """Returns true if a name of other types is in quotation marks: these may come after it, or one of them is such a name."""
        held = self.schema.held(one) if isinstance(one, Alias) or is_a(one, "union_kinded") else []
        return isinstance(one, (Alias, Union)) and (one.name in self.schema.recursive or any(map(self.is_text, held)))

    def alias(self, one, kinds):
        """A name of other types."""
        mark = '"' if self.is_text(one) else ""
        line = f"{one.name}: TypeAlias = {mark}{' | '.join(kinds)}{mark}"
        if len(line) <= WIDTH:
            return [*comments(one.text, 0), line]
        rows = [f"    {mark}{'| ' * bool(place)}{kind}{mark}" for place, kind in enumerate(kinds)]
        return [*comments(one.text, 0), f"{one.name}: TypeAlias = (", *rows, ")"]

    def declared_case(self, union, case):
        said = f"The entry {self.quoted(case.data)} of {union.name}."
        if union.representation == "stringprefix":
            said = f"{union.name}, where {self.quoted(case.data)} comes first."
        elif union.representation != "keyed":
            said = f"{union.name}, where {self.quoted(union.discriminant)} is {self.quoted(case.data)}."
        head = ["@dataclass(slots=True)", f"class {case_class(union, case)}:"]
        return [*head, f'    """{said}"""', "", f"    value: {self.annotation(case.type)}"]

    def declared_struct(self, struct):
        rows = [*DATACLASS, f"class {struct.name}:", *docstring(struct.text)]
        for field in struct.fields:
            kind = self.annotation(field.type)
            if field.optional:
                kind += " | Absent = Absent.ABSENT" if self.has_null(field.type) else " | None = None"
            elif field.implicit is not None:
                kind += f" = {self.meant(field)}"
            rows += [*comments(field.text, 4), f"    {self.field_name(field)}: {kind}"]
        return [*rows, *([""] if struct.fields else []), *methods(struct)]

    # ---- values

    def quoted(self, text):
        return json.dumps(text, ensure_ascii=False)

    def meant(self, field):
        value = field.implicit.value
        if not isinstance(value, Member):
            return self.literal(value)
        enum = self.schema.named(self.schema.implied_type(field))
        return f"{enum.name}.{member_name(enum, value)}"

    # ---- statements

    def struct_value(self, one):
        return f"_is({one.name}, value, at)", [], ""

    def guarded(self, test, head, items, close, level=1):
        return [self.row(f"if {test}:", level), *self.statement(head, items, close, level + 1)]

    # ---- functions

    def functions(self, one):
        made = super().functions(one)
        return [*self.block_functions(one), *made] if isinstance(one, (Alias, Union)) else made

    def block_functions(self, one):
        """The functions of a type that has no class: an alias, or a union."""
        word, kind = snake(one.name), one.name
        read, write = (self.conversion(named(one), way) for way in WAYS)
        return [
            [f"def {word}_from_block(block: _Block) -> {kind}:", f"    return {read}(loads(block), ())"],
            [f"def {word}_to_block(value: {kind}) -> bytes:", f"    return dumps({write}(value, ()))"],
        ]

    # -- structs

    def constructed(self, struct, parts):
        rows = []
        for part in parts:
            rows += self.call(8, f"{self.field_name(part.field)}={part.function}(", part.given, "),")
        return [f"    return {struct.name}(", *rows, "    )"] if rows else [f"    return {struct.name}()"]

    def part_of(self, word, field, key):
        """Fields that may be left out have other helpers: None stands for a field that is left out, or Absent if None is a value."""
        part = super().part_of(word, field, key)
        if field.optional:
            part.function = "_omissible" if self.has_null(field.type) else "_optional"
            if word == "paired":
                part.function += "_paired"
                part.given.remove("at")
        return part

    def written_map(self, struct):
        if not struct.fields:
            return [*self.held(struct, ""), "    return {}"]
        rows = [*self.held(struct), "    entries: dict[str, Any] = {}"]
        for field in struct.fields:
            rows += self.put_entry(field)
        return [*rows, "    return entries"]

    def read_tuple(self, struct):
        """If some may be left out, the items become entries by their places."""
        if not any(field.optional for field in struct.fields):
            return super().read_tuple(struct)
        parts = [self.part_of("field", field, str(place)) for place, field in enumerate(struct.fields)]
        return [f"    entries = dict(enumerate({self.items(struct)}))", *self.constructed(struct, parts)]

    # -- enums and units

    def enum(self, enum, data):
        read = [f"    return _member({enum.name}, {data}, at)"]
        return self.both(enum, read, [f"    return _is({enum.name}, value, at).value"])

    def unit(self, unit):
        one = unit.representation.replace("null", "none").capitalize()
        read = [f"    _unit({one}, value, at)", f"    return {unit.name}()"]
        return self.both(unit, read, [f"    _is({unit.name}, value, at)", f"    return {one}"])

    # -- unions

    def looked_at(self, field):
        return self.statement("_optional(", ["entries", self.quoted(field.key), "at", self.conversion(field.type, "read")], ")", 3)

    def kind_patterns(self, union):
        """A bool is an int to Python, so it comes first, or is excluded."""
        has_bool = any(case.data == "bool" for case in union.cases)
        for case in sorted(union.cases, key=lambda case: case.data != "bool"):
            kind = self.case_kind(case)
            guard = " if not isinstance(value, bool)" if case.data == "int" and not has_bool else ""
            pattern = self.kinds[case.data] + "()" * (case.data != "null")
            yield kind, pattern + guard, " | ".join(f"{name}()" for name in self.classes(kind)) + guard

    def classes(self, kind):
        """The classes of the values of a type that has one kind."""
        kind = self.schema.resolve(kind)
        one = self.schema.named(kind)
        if isinstance(one, Union):
            return [case_class(one, case) for case in one.cases]
        return [one.name if one else self.kinds[self.schema.kind_of(kind)]]


for width in WIDTHS:
    least, most = (power_of_two(number, "2**{}") for number in bounds(width))
    Python.back[f"_{width}"] = [f"_{width} = _integer({least}, {most})"]


def case_class(union, case):
    return union.name + case.name


def member_name(enum, member):
    """Its name, with a _ added if it would replace the class in the annotations after it."""
    return member.name + "_" if keyword.iskeyword(member.name) or member.name == enum.name else member.name


def comments(text, indent):
    return [(" " * indent + f"# {line}").rstrip() for line in text]


def docstring(text):
    if not text:
        return []
    lines = [line.replace("\\", "\\\\").replace('"', '\\"') for line in text]
    if len(lines) == 1:
        return [f'    """{lines[0]}"""', ""]
    return [f'    """{lines[0]}', *(f"    {line}".rstrip() for line in lines[1:]), '    """', ""]


def methods(one):
    word = snake(one.name)
    return [
        *["    @staticmethod", f"    def from_block(block: _Block) -> {one.name}:"],
        *[f"        return _read_{word}(loads(block), ())", ""],
        *["    def to_block(self) -> bytes:", f"        return dumps(_write_{word}(self, ()))"],
    ]
