"""What is made from a schema in Python and TypeScript: one walk over its types, with the templates of the language.

A method makes each representation, for example `struct_map`. A representation that has no method is refused by name. So is
anything that a wider parser says of a part and that no maker knows."""

import dataclasses
import re

from schemas.law import is_a, maker_name, once, parts
from schemas.parsing import DEFAULT_WIDTH, Alias, Case, Enum, Field, Int, Leaf, Link, ListOf, MapOf, Member, Named, Nullable, SchemaError, Struct, Union, Unit

WIDTH = 100  # of a line
COMMENTS = ("#", '"""', "//", "/*", "*")
TEXTS = re.compile(r"'(?:[^'\\\n]|\\.)*'" + "|" + r'"(?:[^"\\\n]|\\.)*"')
NAME = re.compile(r"(?:(?:export|def|class|function|const|type) )*(\w+)[\[(<: ]")

# What is known of each part of a schema, beside its place.
KNOWN = {
    Int: ("width",),
    Leaf: ("kind",),
    Link: ("to",),
    Named: ("name",),
    ListOf: ("item",),
    MapOf: ("value",),
    Nullable: ("part",),
    Alias: ("name", "of", "text"),
    Field: ("name", "type", "optional", "key", "text", "implicit"),
    Struct: ("name", "fields", "representation", "open", "text", "of_enum", "join"),
    Unit: ("name", "representation", "text"),
    Member: ("name", "data"),
    Enum: ("name", "members", "representation", "text"),
    Case: ("name", "type", "data"),
    Union: ("name", "cases", "representation", "text", "discriminant", "content"),
}

LEAVES = {"String": "text", "Bytes": "bytes", "Bool": "bool", "Any": "anything"}
WAYS = ("read", "write")


@dataclasses.dataclass
class Part:
    """What reads a field: a function, its arguments, and, if the field may be left out, the test of whether it is there."""

    field: Field
    function: str
    given: list
    test: str = ""


class Language:
    """What is made from one schema: one file. Each language is a subclass. It has the templates below, in which {} stands for the
    parts that are put in, and methods for what no template says: `head`, `declared`, `field_name`, `function`, `helper`,
    `integer_type`, `list_type`, `quoted`, `meant`, `struct_value`, `guarded`, `constructed`, `written_map`, `looked_at`, `enum`,
    `unit` and `kind_patterns`."""

    called = suffix = ""  # its name, and the ending of its files' names
    step, end, gap = 4, "", 1  # of an indent; of a statement; empty lines between two blocks
    kinds = ()  # of members of a kinded union
    taken = closed_modules = frozenset()  # names of types that the made code uses itself, and names that no file may have
    front, back = {}, {}  # the blocks of helpers by their names: before the types, and after everything

    scalars, map_type, null, data = {}, "", "", ""  # types: of leaves, maps, null and all data
    function_head, function_end = "", []  # of a function that reads or writes: the first row, and those after its body
    let, let_two, let_list = "", "", ""  # what sets a variable, two variables, and one that is a list of data
    number, path_of, length, added = "{}", "", "", ""  # a number, a place, how many items a list has, and what adds one
    map_value = ""  # the value, if it is a map
    is_there, absent = "", ("", "")  # whether a field is there; what stands for one that is not, and for one if null is a value
    has = {"entries": "", "pairs": "", "items": ""}  # whether the data has a field
    choice_by, choice_end = "", []  # the first row of a choice, and those of its last statement
    refusal = ""  # a statement that refuses what is at a place
    part, union = "held", "value"  # the variables of what a member holds: in reading, and of a union that is written
    told_by, kind = "value", "value"  # what tells which member a union is, and its kind
    member, member_pattern, no_member = ("", [], ""), "", ""  # what makes a member, its pattern, and what refuses others
    map_of_data, tagged, prefixed = ("", ""), ("", [], ""), ("", [], "")  # data: a map, one with a tag, a text with a prefix
    tag_of, has_prefix, without_prefix = "", "", ""  # the tag of a map and its other entries; and of a text

    def __init__(self, schema):
        self.schema = schema
        self.definitions = schema.ordered
        for one in schema.definitions:
            self.check(one)
        self.check_names()

    # ---- what is refused

    def refuse(self, place, what):
        raise SchemaError(place, f"{what} is not made in {self.called} yet")

    def check(self, node):
        """Refuses what is not known of a part of the schema, and of the parts within it."""
        kind = type(node)
        name = f"`{getattr(node, 'name', kind.__name__)}`"
        if kind not in KNOWN:
            self.refuse(node.place, f"{name}, of the form {kind.__name__.lower()},")
        for said in dataclasses.fields(node):
            if said.name not in KNOWN[kind] and said.name != "place" and getattr(node, said.name):
                self.refuse(node.place, f"`{said.name}` of {name}")
        if isinstance(node, (Struct, Enum, Union, Unit)) and not hasattr(self, maker_name(node)):
            self.refuse(node.place, f"the representation {node.representation} of {name}")
        for case in node.cases if is_a(node, "union_kinded") else ():
            if case.data not in self.kinds:
                self.refuse(case.place, f"the kind {case.data} of {name}")
        for part in parts_of(node):
            self.check(part)

    def check_names(self):
        names = {}
        for one in self.schema.definitions:
            for name in self.type_names(one):
                if name in self.taken:
                    raise SchemaError(one.place, f"`{name}` is a name that the made {self.called} uses: choose another")
                once(names, name, one.place, "two types have the name")
            fields = {}
            for field in getattr(one, "fields", []):
                self.check_field(field)
                once(fields, self.field_name(field), field.place, "two fields have the name")

    def check_field(self, field):
        """Refuses a field if the language has no name for it."""

    def type_names(self, one):
        """The names of the types that are made from a definition."""
        return [one.name]

    # ---- the file, in blocks of lines

    def text(self, source):
        declared = [block for one in self.definitions for block in self.declared(one)]
        made = declared + [block for one in self.definitions for block in self.functions(one)]
        front, back = self.used(made)
        parts = [part for part in (front, made, back) if part]
        rows = self.head(source, words_of(block for part in parts for block in part))
        for place, part in enumerate(parts):
            rows += [""] * (self.gap if place else 1) + self.joined(part)
        return "\n".join(rows) + "\n"

    def used(self, made):
        """The helpers that these blocks use, and in turn the helpers that those use."""
        used, found = {}, words_of(made)
        helpers = self.front | self.back
        while new := {name: block for name, block in helpers.items() if name in found and name not in used}:
            used |= new
            found |= words_of(new.values())
        return ([block for name, block in part.items() if name in used] for part in (self.front, self.back))

    def joined(self, blocks):
        """The lines of the blocks, with the language's gap between two; blocks of one line have no gap."""
        rows, before = [], []
        for block in blocks:
            rows += [""] * (0 if not before or len(before) == len(block) == 1 else self.gap)
            rows += block
            before = block
        return rows

    def functions(self, one):
        """The blocks of the functions that read the type and write it."""
        if not isinstance(one, Alias):
            return getattr(self, maker_name(one))(one)
        return self.recursive_alias(one) if self.schema.is_recursive_alias(named(one)) else []

    # ---- a type of a value

    def annotation(self, kind):
        """The type as it is written, in the schema's names."""
        if isinstance(kind, Int):
            return self.integer_type(kind.width)
        if isinstance(kind, Link):
            return "CID"
        if isinstance(kind, Leaf):
            return self.scalars[kind.kind]
        if isinstance(kind, Named):
            return kind.name
        part = self.annotation(parts(kind)[0])
        if isinstance(kind, Nullable):
            return part if self.has_null(kind.part) else f"{part} | {self.null}"
        return self.list_type(part) if isinstance(kind, ListOf) else self.map_type.format(part)

    def conversion(self, kind, way):
        """The function that checks a value of the type, and reads or writes it, if reading and writing differ."""
        if self.schema.is_recursive_alias(kind):
            return self.function(way, kind.name)
        kind = self.schema.resolve(kind)
        if isinstance(kind, Int):
            return self.helper(kind.width)
        if isinstance(kind, Link):
            return self.helper("link")
        if isinstance(kind, Leaf):
            return self.helper(LEAVES[kind.kind])
        if isinstance(kind, Named):
            return self.function(way, kind.name)
        word = {ListOf: "list_of", MapOf: "map_of", Nullable: "nullable"}[type(kind)]
        return f"{self.helper(word)}({self.conversion(parts(kind)[0], way)})"

    def others(self, union, case):
        """The fields of an inline union's other members that have one type in all: they are checked even if they are skipped."""
        struct = self.schema.case_struct(case)
        own = {field.key for field in struct.fields}
        others = [field for field in self.schema.row_of(union) if struct.open and field.key not in own]
        return [field for field in others if self.schema.has_one_type(union, field.key)]

    def case_kind(self, case):
        """What a member of a kinded union holds: if its type is Int, any int of the data."""
        kind = self.schema.resolve(case.type)
        return Int("i128", case.place) if isinstance(kind, Int) and kind.width == DEFAULT_WIDTH else case.type

    def has_null(self, kind):
        """Returns true if null is a value of the type: then null cannot stand for a field that is left out."""
        return self.schema.has_null(self.schema.resolve(kind))

    # ---- values

    def literal(self, data):
        """A text or a number of the data."""
        return self.quoted(data) if isinstance(data, str) else self.number.format(data)

    def property_name(self, key):
        """A key in a map that is written out."""
        return self.quoted(key)

    def meant_data(self, field):
        """The implicit value of a field, in the data."""
        value = field.implicit.value
        return self.literal(value.data) if isinstance(value, Member) else self.meant(field)

    def path(self, *steps):
        """The place of a part that is this many steps within the value."""
        return self.path_of.format(", ".join(map(str, steps))) if steps else "at"

    def read(self, case, value, *steps):
        """What is read from what a member holds, which is this many steps within the whole."""
        return f"{self.conversion(case.type, 'read')}({value}, {self.path(*steps)})"

    def written(self, part, *steps):
        """What is written for a field, or for what a member holds."""
        value = f"held.{self.field_name(part)}" if isinstance(part, Field) else f"{self.union}.value"
        return f"{self.conversion(part.type, 'write')}({value}, {self.path(*steps)})"

    # ---- statements

    def call(self, indent, head, items, close):
        """A call, or other items between brackets: on one line if they fit, else one item a line."""
        margin, inside = " " * indent, ", ".join(items)
        if not items or indent + len(head) + len(inside) + len(close) <= WIDTH:
            return [f"{margin}{head}{inside}{close}"]
        return [f"{margin}{head}", *(f"{margin}{' ' * self.step}{item}," for item in items), f"{margin}{close}"]

    def statement(self, head, items, close, level=1):
        """A statement that ends with a row of items between brackets."""
        return self.call(self.step * level, head, items, close + self.end)

    def row(self, statement, level=1):
        """A statement on one line."""
        return f"{' ' * self.step * level}{statement}{self.end}"

    def arm_row(self, head, items, close):
        """The statement of an arm of a choice, on one line."""
        return [self.row(head + ", ".join(items) + close, 3)]

    def held(self, one, let=None):
        """The rows that set a variable to the value, which is a struct, or tells which member of a union it is."""
        head, items, close = self.struct_value(one)
        return self.statement((self.let.format("held") if let is None else let) + head, items, close)

    def there(self, field):
        """Returns the test of whether a value has a field that may be left out."""
        return self.is_there.format(self.field_name(field), self.absent[self.has_null(field.type)])

    def choice(self, value, arms, last):
        """A choice by a value: the pattern and the rows of each arm, and the last statement, for any other value."""
        rows = [" " * self.step + self.choice_by.format(value)]
        for pattern, body in arms:
            rows += [f"{' ' * self.step * 2}case {pattern}:", *body]
        return rows + [row.format(last) for row in self.choice_end]

    # ---- functions

    def both(self, one, read, write):
        """The functions that read and write a type, from their bodies."""
        if one.name in self.schema.recursive:
            write = [self.row(f"{self.helper('bounded')}(at)"), *write]
        return [self.converter("read", one, one.name, read), self.converter("write", one, self.data, write)]

    def converter(self, way, one, kind, body):
        """The function that reads or writes a type, and makes what belongs to the type."""
        return [self.function_head.format(self.function(way, one.name), kind), *body, *self.function_end]

    def recursive_alias(self, one):
        """The functions of a list or a map that holds itself."""
        return self.both(one, *([self.row(f"return {self.conversion(one.of, way)}(value, at)")] for way in WAYS))

    # -- structs

    def part_of(self, word, field, key):
        """What reads a field under a key: from the entries by the helper `field`, and from pairs by `paired`."""
        source = "entries" if word == "field" else "pairs"
        given = [source, key, "at", self.conversion(field.type, "read")]
        return Part(field, self.helper(word), given, self.has[source].format(key))

    def struct_map(self, struct):
        return self.both(struct, self.read_map(struct), self.written_map(struct))

    def read_map(self, struct):
        keys = [self.quoted(field.key) for field in struct.fields]
        entries = self.let.format("entries") if keys else ""
        if struct.open:
            head = [self.row(entries + self.map_value)]
        else:
            head = self.statement(f"{entries}{self.helper('fields')}(", ["value", "at", *keys], ")")
        parts = []
        for field, key in zip(struct.fields, keys):
            part = self.part_of("field", field, key)
            if field.implicit is not None:
                part = Part(field, self.helper("implied"), [*part.given, self.meant(field)])
            parts.append(part)
        return head + self.constructed(struct, parts)

    def put_entry(self, field):
        """The rows that add the entry of a field."""
        key, write = self.quoted(field.key), self.conversion(field.type, "write")
        if field.implicit is not None:
            given = ["entries", key, self.written(field, key), self.meant_data(field)]
            return self.statement(f"{self.helper('put_implied')}(", given, ")")
        given = [f"held.{self.field_name(field)}", self.path(key)]
        return self.put(field, f"entries[{key}] = {write}(", given, ")")

    def put(self, field, *added):
        """The statement that adds a field, under a condition if the field may be left out."""
        return self.guarded(self.there(field), *added) if field.optional else self.statement(*added)

    def struct_tuple(self, struct):
        return self.both(struct, self.read_tuple(struct), self.written_tuple(struct))

    def items(self, struct):
        """The items of a list that has as many as a struct has fields."""
        least, most = count_needed(struct), len(struct.fields)
        return f"{self.helper('items')}(value, at, {most if least == most else f'{least}, {most}'})"

    def read_tuple(self, struct):
        parts = []
        for place, field in enumerate(struct.fields):
            read, given = self.conversion(field.type, "read"), [f"items[{place}]", self.path(place)]
            parts.append(Part(field, read, given, self.has["items"].format(place)))
        return [self.row(self.let.format("items") + self.items(struct)), *self.constructed(struct, parts)]

    def written_tuple(self, struct):
        rows, items = self.held(struct), [self.written(field, place) for place, field in enumerate(struct.fields)]
        least = count_needed(struct)
        if least == len(items):
            return rows + self.statement("return [", items, "]")
        rows += self.statement(self.let_list.format("items") + "[", items[:least], "]")
        for place in range(least, len(items)):
            rows += self.put(struct.fields[place], f"{self.helper('put')}(", ["items", str(place), "at", items[place]], ")")
        return [*rows, self.row("return items")]

    def struct_listpairs(self, struct):
        if count_needed(struct) < len(struct.fields):
            return self.both(struct, self.read_pairs(struct), self.written_pairs(struct))
        parts, pairs = [], []
        for place, field in enumerate(struct.fields):
            key = self.quoted(field.key)
            given = [f"items[{place}]", self.path(place), key, self.conversion(field.type, "read")]
            parts.append(Part(field, self.helper("pair"), given))
            pairs.append(f"[{key}, {self.written(field, place, 1)}]")
        items, held = (self.let.format(name) if parts else "" for name in ("items", "held"))
        read = [self.row(items + self.items(struct)), *self.constructed(struct, parts)]
        write = [*self.held(struct, held), *self.statement("return [", pairs, "]")]
        return self.both(struct, read, write)

    def read_pairs(self, struct):
        """The same for a list of pairs, some of which may be left out."""
        keys = [self.quoted(field.key) for field in struct.fields]
        head = f"{self.let.format('pairs')}{self.helper('pairs')}("
        parts = [self.part_of("paired", field, key) for field, key in zip(struct.fields, keys)]
        return self.statement(head, ["value", "at", str(count_needed(struct)), *keys], ")") + self.constructed(struct, parts)

    def written_pairs(self, struct):
        rows = [*self.held(struct), self.row(self.let_list.format("pairs") + "[]")]
        for field in struct.fields:
            pair = [self.quoted(field.key), self.written(field, self.length.format("pairs"), 1)]
            rows += self.put(field, f"pairs.{self.added}([", pair, "])")
        return [*rows, self.row("return pairs")]

    def struct_stringjoin(self, struct):
        join, parts = self.quoted(struct.join), []
        for place, field in enumerate(struct.fields):
            parts.append(Part(field, self.conversion(field.type, "read"), [f"pieces[{place}]", "at"]))
        pieces = f"{self.let.format('pieces')}{self.helper('pieces')}(value, at, {join}, {len(parts)})"
        joined = self.statement(f"return {self.helper('joined')}(", ["at", join, *map(self.written, struct.fields)], ")")
        return self.both(struct, [self.row(pieces), *self.constructed(struct, parts)], [*self.held(struct), *joined])

    # -- enums and units

    def enum_string(self, enum):
        return self.enum(enum, f"{self.helper('text')}(value, at)")

    def enum_int(self, enum):
        width = "i128" if any(member.data < 0 for member in enum.members) else "u64"
        return self.enum(enum, f"{self.helper(width)}(value, at)")

    def unit_null(self, unit):
        return self.unit(unit)

    unit_true = unit_false = unit_null

    # -- unions

    def union_keyed(self, union):
        """A map of one entry, whose key tells the member."""

        def read(case):
            return self.arm_row(*self.made_member(union, case, self.read(case, self.part, "key")))

        def write(case):
            return self.arm_row(*self.made_map({case.data: self.written(case, self.quoted(case.data))}))

        head = f"{self.let_two.format('key', self.part)}{self.helper('entry')}(value, at)"
        return self.told(union, head, "key", self.path("key"), read, write)

    def union_inline(self, union):
        """The member's map, with the entry that tells the member."""
        key = self.quoted(union.discriminant)

        def read(case):
            rows = [row for field in self.others(union, case) for row in self.looked_at(field)]
            return rows + self.arm_row(*self.made_member(union, case, self.read(case, "entries")))

        def write(case):
            words = {"key": key, "tag": self.quoted(case.data), "entries": self.written(case)}
            return self.statement(*filled(self.tagged, words), 3)

        head = self.let_two.format("tag", "entries") + self.tag_of.format(key)
        return self.told(union, head, "tag", self.path(key), read, write)

    def union_envelope(self, union):
        """A map of two entries: one tells the member, and the other is what the member holds."""
        tag, content = self.quoted(union.discriminant), self.quoted(union.content)

        def read(case):
            return self.statement(*self.made_member(union, case, self.read(case, self.part, content)), 3)

        def write(case):
            entries = {union.discriminant: self.quoted(case.data), union.content: self.written(case, content)}
            return self.statement(*self.made_map(entries), 3)

        head = f"{self.let_two.format('tag', self.part)}{self.helper('enveloped')}(value, at, {tag}, {content})"
        return self.told(union, head, "tag", self.path(tag), read, write)

    def union_stringprefix(self, union):
        """A text that begins with what tells the member."""
        read = [self.row(f"{self.let.format('whole')}{self.helper('text')}(value, at)")]
        for case in union.cases:
            prefix = self.quoted(case.data)
            value = self.read(case, self.without_prefix.format(prefix))
            read += self.guarded(self.has_prefix.format(prefix), *self.made_member(union, case, value))
        read.append(self.row(self.refusal.format("at", "unknown variant")))

        def write(case):
            return self.statement(*filled(self.prefixed, {"prefix": self.quoted(case.data), "text": self.written(case)}), 3)

        return self.both(union, read, self.written_member(union, write))

    def union_kinded(self, union):
        """Each value stands for itself."""
        arms = {way: [] for way in WAYS}
        for kind, *patterns in self.kind_patterns(union):
            for way, pattern in zip(WAYS, patterns):
                arms[way].append((pattern, [self.row(f"return {self.conversion(kind, way)}(value, at)", 3)]))
        last = self.refusal.format("at", "unknown kind")
        return self.both(union, *(self.choice(self.kind, some, last) for some in arms.values()))

    def told(self, union, head, tag, at, read, write):
        """The functions of a union in which a text at a place tells the member, from what reads and writes each member."""
        arms = [(self.quoted(case.data), read(case)) for case in union.cases]
        choice = self.choice(tag, arms, self.refusal.format(at, "unknown variant"))
        return self.both(union, [self.row(head), *choice], self.written_member(union, write))

    def written_member(self, union, write):
        """The rows that write the member that the value is, from those of each member."""
        arms = [(self.member_pattern.format(union.name, case.name), write(case)) for case in union.cases]
        held = self.held(union) if self.union == "held" else []
        return held + self.choice(self.told_by, arms, self.no_member.format(union.name))

    def made_member(self, union, case, value):
        """The statement that makes a member of what it holds."""
        return filled(self.member, {"union": union.name, "case": case.name, "value": value})

    def made_map(self, entries):
        """The statement that makes a map of data."""
        head, close = self.map_of_data
        return head, [f"{self.property_name(key)}: {value}" for key, value in entries.items()], close


def filled(template, words):
    """A row of items between brackets, with these words in it."""
    head, items, close = template
    return head.format(**words), [item.format(**words) for item in items], close.format(**words)


def count_needed(struct):
    """How many fields a struct always has."""
    return sum(not field.optional for field in struct.fields)


def power_of_two(number, power, suffix=""):
    """A bound of integers, as a power of two."""
    if number < 0:
        return f"-({power.format((-number).bit_length() - 1)})"
    return f"{power.format(number.bit_length())} - 1{suffix}" if number else f"0{suffix}"


def named(one):
    """Returns the type that a definition names."""
    return Named(one.name, one.place)


def parts_of(node):
    """The parts of a schema that stand within this one."""
    if isinstance(node, Alias):
        return [node.of]
    if isinstance(node, (Field, Case)):
        return [node.type]
    for name in ("fields", "members", "cases"):
        if hasattr(node, name):
            return getattr(node, name)
    return parts(node)


def words_of(blocks):
    """The words of the blocks, without comments and texts."""
    text = "\n".join(row for block in blocks for row in block if not row.strip().startswith(COMMENTS))
    return set(re.findall(r"\w+", TEXTS.sub("", text)))


def named_blocks(text):
    """The blocks of a text, by their names: each begins with comments, and then comes the line that declares its name."""
    blocks = [block.split("\n") for block in re.split(r"\n\n(?=\S)", text.strip("\n"))]
    return {next(NAME.match(row)[1] for row in rows if NAME.match(row)): rows for rows in blocks}


def camel(word):
    """list_of as listOf."""
    first, *others = word.split("_")
    return first + "".join(other.capitalize() for other in others)

