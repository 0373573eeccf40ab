"""What a schema must keep so that types can be made from it: its names, its keys, and no type that holds itself."""

import re

from schemas.parsing import (
    DEFAULT_WIDTH,
    Alias,
    Enum,
    Field,
    Int,
    Leaf,
    Link,
    ListOf,
    Literal,
    MapOf,
    Named,
    Nullable,
    SchemaError,
    Struct,
    Union,
)

MOST_FIELDS = 14  # of a row that is read or written as one
MOST_PAIRS = 3  # of the fields of a struct that is a list of pairs
MOST_STEPS = 16  # of such a row: one for a field, and one for each list, map, nullable and optional of its type
MOST_IN_GROUP = 8  # fields of a group, or groups of one, if a row is more than the prover takes at once
KINDS = ("bool", "int", "string", "bytes", "list", "map", "link")  # of the members of a kinded union

# The kind of all data of a representation, of a leaf and of other types.
KIND_OF = {Int: "int", Link: "link", ListOf: "list", MapOf: "map", "Bool": "bool", "String": "string", "Bytes": "bytes"}
KIND_OF |= {"int": "int", "true": "bool", "false": "bool", "null": "null", "tuple": "list", "listpairs": "list"}
KIND_OF |= {word: "string" for word in ("string", "stringjoin", "stringprefix")}
KIND_OF |= {word: "map" for word in ("map", "keyed", "inline", "envelope")}

# What a link may lead to, beside the types of the schema.
DATA_MODEL = ("Any", "Bool", "Bytes", "Float", "Int", "Link", "List", "Map", "String")

# Names of the data model, which no type may have; and names that made Rattle uses, or that Rust has.
OF_DATA_MODEL = {*DATA_MODEL, "Null", "Unit"}
TAKEN = OF_DATA_MODEL | set(
    """Box Clone Copy Debug Default Drop Eq Err From Hash Into Iterator Model Never None Ok Option Ord PartialEq PartialOrd Result Self
    Send Some Sync Vec BTreeMap Cid Ipld Global Closed DecodeError Deserialize DeserializeOwned Deserializer EnumAccessor Field FieldGroup Fields
    Accessor ByKind Enveloped FromParts InGroups NoKind Numbered Omissible OmissibleItem Optional Read ReadResult Required Serialize
    Serializer Shown Variants Write WriteResult WrittenGroup
    EnumShape Lib Numbered OneGroup OptionalPart Part Parts PartRow Prim R Shape Syntax TheOwn TheVariants Tree Type W""".split()
)
TAKEN_VARIANTS = {"Below", "Self", "Denot"}
RESERVED = set(
    """as async await break const continue crate deriving dyn else enum ensures extern false fn for ghost if impl in let loop match
    mod move mut pub ref requires result return row self static struct super trait true try type unsafe use where while yield alloc
    de ser names ground assumption""".split()
)


def snake(name):
    """createdAt and CreatedAt as created_at."""
    apart = re.sub(r"(?<=[a-z0-9])(?=[A-Z])|(?<=[A-Z])(?=[A-Z][a-z])", "_", name)
    return apart.lower()


def field_name(name):
    word = snake(name)
    return word + "_" if word in RESERVED else word


def path_name(module):
    return "".join(part.capitalize() for part in module.split("_"))


class Schema:
    """Definitions that keep the law. If their types are to be proved, they are no more than the prover takes and than Rattle has
    forms for."""

    def __init__(self, definitions, is_proved=True):
        self.by_name, self.is_proved = {}, is_proved
        for definition in definitions:
            self.check_name(definition)
        self.definitions = [self.plain(definition) for definition in definitions]
        self.by_name = {definition.name: definition for definition in self.definitions}
        for definition in self.definitions:
            for kind in held_by(definition):
                self.check_known(kind)
        self.ordered = self.in_order()
        if not is_proved:
            self.refuse_endless()
        self.recursive = {one.name for one in self.definitions if one.name in self.reached(one)}  # definitions that hold themselves
        checks = {Struct: self.check_struct, Enum: self.check_enum, Union: self.check_union}
        for definition in self.definitions:
            if type(definition) in checks:
                checks[type(definition)](definition)

    # -- names

    def check_name(self, definition):
        name, place = definition.name, definition.place
        self.check_capital("type", name, place)
        if name in (TAKEN if self.is_proved else OF_DATA_MODEL):
            of = "the data model, of Rust or of the library" if self.is_proved else "the data model"
            raise SchemaError(place, f"`{name}` is a name of {of}: choose another")
        for other in self.by_name.values():
            if snake(other.name) == snake(name):
                raise SchemaError(place, f"`{name}` and `{other.name}` (line {other.place.line}) are the same name in lower case")
            if self.is_proved:
                refuse_made_name(name, other, place)
        self.by_name[name] = definition

    def check_capital(self, what, name, place):
        """The name of a type, or of a member of an enum or a union. Rattle's are short."""
        most = 39 if self.is_proved else len(name)
        if not re.fullmatch(f"[A-Z][A-Za-z0-9]{{0,{most}}}", name):
            raise SchemaError(place, f"a {what}'s name is a capital and {'up to 39 ' * self.is_proved}letters and digits, and not `{name}`")

    def resolve(self, kind):
        """The type, with each alias replaced by what it stands for, and a nullable Any by Any, which has null already. If an alias
        stands for something that holds itself, it is replaced only if it is the whole type, and keeps its name within others."""
        if isinstance(kind, Named):
            definition = self.by_name[kind.name]
            return self.resolve(definition.of) if isinstance(definition, Alias) else kind
        if isinstance(kind, Nullable):
            part = self.resolved_part(kind.part)
            return part if isinstance(part, (Leaf, Nullable)) and self.has_null(part) else Nullable(part, kind.place)
        if isinstance(kind, ListOf):
            return ListOf(self.resolved_part(kind.item), kind.place)
        if isinstance(kind, MapOf):
            return MapOf(self.resolved_part(kind.value), kind.place)
        return kind

    def resolved_part(self, kind):
        one = self.named(kind)
        if isinstance(one, Alias) and isinstance(one.of, Named):
            return self.resolved_part(one.of)
        return kind if self.is_recursive_alias(kind) else self.resolve(kind)

    def named(self, kind):
        """The definition that a type names, or None."""
        return self.by_name.get(kind.name) if isinstance(kind, Named) else None

    def case_struct(self, case):
        """The struct that is a member of an inline union."""
        return self.named(self.resolve(case.type))

    def is_recursive_alias(self, kind):
        """Returns true if it is the name of a list or a map that holds itself."""
        one = self.named(kind)
        return isinstance(one, Alias) and isinstance(one.of, (ListOf, MapOf)) and one.name in self.recursive

    @staticmethod
    def has_null(kind):
        return isinstance(kind, Nullable) or is_leaf(kind, "Any")

    # -- other forms of a struct

    def plain(self, definition):
        """A map whose keys are an enum's texts, and the unit that is an empty map, become structs."""
        if is_a(definition, "unit_emptymap"):
            return Struct(definition.name, [], "map", False, definition.place, definition.text)
        of = definition.of if isinstance(definition, Alias) else None
        if not isinstance(of, MapOf) or of.key is None:
            return definition
        fields = [Field(member.name, of.value, True, member.data, member.place, []) for member in self.keys_of(of).members]
        return Struct(definition.name, fields, "map", False, definition.place, definition.text, of_enum=of.key.name)

    def keys_of(self, kind):
        """The enum whose texts are the keys of a map."""
        enum = self.by_name.get(kind.key.name)
        if enum is None:
            raise SchemaError(kind.key.place, f"unknown type `{kind.key.name}`")
        if not is_a(enum, "enum_string"):
            raise SchemaError(kind.key.place, f"a key's type is String or an enum of texts, and not `{kind.key.name}`")
        return enum

    # -- each definition

    def check_known(self, kind):
        if isinstance(kind, Named):
            if kind.name not in self.by_name:
                raise SchemaError(kind.place, f"unknown type `{kind.name}`")
        if isinstance(kind, MapOf) and kind.key is not None:
            self.keys_of(kind)
            raise SchemaError(kind.key.place, f"a map with an enum's keys needs a name of its own: `type X {{{kind.key.name}:..}}`")
        if isinstance(kind, Link) and kind.to not in self.by_name and kind.to not in DATA_MODEL:
            raise SchemaError(kind.place, f"unknown type `{kind.to}`")
        for part in parts(kind):
            self.check_known(part)

    def check_struct(self, struct):
        names, keys = {}, {}
        if struct.representation == "stringjoin":
            self.check_join(struct)
        for field in struct.fields:
            if field.implicit is not None:
                field.implicit = self.implied(struct, field)
            if not re.fullmatch(r"[A-Za-z][A-Za-z0-9_]*", field.name):
                raise SchemaError(field.place, f'a field\'s name begins with a letter here: `x T (rename "{field.name}")`')
            once(names, field_name(field.name), field.place, "two fields have the name")
            self.check_key(field.key, field.place)
            once(keys, field.key, field.place, "two fields have the key")
            if self.is_proved and len(snake(field.name)) > 40:
                raise SchemaError(field.place, f"a field's name has at most 40 letters here: `{field.name}`")
        if self.is_proved:
            self.check_size(struct)
        checks = {"tuple": self.check_tuple, "listpairs": self.check_pairs}
        if struct.representation in checks:
            checks[struct.representation](struct)

    def implied(self, struct, field):
        """The implicit value of a field, as a value of its type."""
        kind, value, place = self.implied_type(field), field.implicit.value, field.implicit.place
        if struct.representation != "map":
            raise SchemaError(place, f"a field of a {struct.representation} cannot have an implicit value: `{field.name}`")
        if field.optional:
            raise SchemaError(place, f"`{field.name}` is optional, and so cannot have an implicit value")
        enum = self.named(kind)
        if isinstance(enum, Enum):
            for member in enum.members:
                is_number = enum.representation == "int" and value == str(member.data)
                if (value == member.data or is_number) and not isinstance(value, bool):
                    return Literal(member, place)
            raise SchemaError(place, f"{value} is not a member of `{enum.name}`: `{field.name}`")
        if isinstance(kind, Int) and re.fullmatch(r"0|-?[1-9][0-9]*", str(value)):
            least, most = bounds(kind.width)
            if least <= int(value) <= most:
                return Literal(int(value), place)
            raise SchemaError(place, f"{value} is not a value of {kind.width}: `{field.name}`")
        if is_leaf(kind, "Bool") and (isinstance(value, bool) or value in ("true", "false")):
            return Literal(value in (True, "true"), place)
        if is_leaf(kind, "String") and isinstance(value, str) and not self.is_proved:
            return Literal(value, place)
        others = "a Bool, an Int" if self.is_proved else "a Bool, an Int, a String"
        raise SchemaError(place, f"the type of a field with an implicit value is {others} or an enum here: `{field.name}`")

    def implied_type(self, field):
        """The type of the implicit value of a field. If nothing is proved, the field may be nullable."""
        kind = self.resolve(field.type)
        return self.resolve(kind.part) if isinstance(kind, Nullable) and not self.is_proved else kind

    def check_size(self, struct):
        """The prover has a limit for one statement. A row that is not read in groups may pass it, and so may one field alone."""
        if not in_groups(struct) and len(struct.fields) > MOST_FIELDS:
            raise SchemaError(
                struct.fields[MOST_FIELDS].place,
                f"a struct that is a tuple, or has a field with an implicit value, has at most {MOST_FIELDS} fields here, which the"
                f" prover can take: move some of `{struct.name}` into a struct of their own",
            )
        for group in self.row_groups(struct):
            steps = 0
            for field in group:
                steps += self.steps(field)
                if steps > MOST_STEPS:
                    raise SchemaError(
                        field.place,
                        f"`{struct.name}` is more than the prover takes at once: {MOST_STEPS} steps, one for each field and for each list, map, `nullable`"
                        " and `optional` of its type. Move some fields into a struct of their own",
                    )

    def steps(self, field):
        return depth(self.resolve(field.type)) + field.optional

    def row_groups(self, struct):
        """The fields in groups that the prover takes at once: one group, if it takes them all."""
        steps = [self.steps(field) for field in struct.fields]
        if not in_groups(struct) or (len(steps) <= MOST_FIELDS and sum(steps) <= MOST_STEPS):
            return [struct.fields]
        made, left = [[]], MOST_STEPS
        for field, wanted in zip(struct.fields, steps):
            if made[-1] and (len(made[-1]) == MOST_IN_GROUP or wanted > left):
                made.append([])
                left = MOST_STEPS
            made[-1].append(field)
            left -= wanted
        return made

    @staticmethod
    def check_tuple(struct):
        absent = None
        for field in struct.fields:
            if absent and not field.optional:
                raise SchemaError(field.place, f"after `{absent.name}`, which is optional, each field of a tuple is too: `{field.name}`")
            absent = field if field.optional else None
            if field.key != field.name:
                raise SchemaError(field.place, f"a field of a tuple has no name in the data: `{field.name}`")
        if struct.open:
            raise SchemaError(struct.place, f"a tuple has no other keys to skip: `{struct.name}`")

    def check_join(self, struct):
        """The fields are pieces of a text, and splitting it at its separator gives them again."""
        self.refuse_text(struct)
        if not struct.join or not struct.fields or struct.open:
            raise SchemaError(struct.place, f"a stringjoin has fields, a text between them, and no other keys to skip: `{struct.name}`")
        for field in struct.fields:
            self.check_text(field, field.type)
            if field.optional or field.key != field.name:
                raise SchemaError(field.place, f"a field of a stringjoin is always there, and has no name in the data: `{field.name}`")

    def check_prefixes(self, union):
        self.refuse_text(union)
        for case in union.cases:
            self.check_text(case, case.type)
            for other in union.cases:
                if other is not case and other.data.startswith(case.data):
                    raise SchemaError(other.place, f"the prefix `{other.data}` begins with `{case.data}`, which is another's")

    def refuse_text(self, definition):
        """Refuses what is not made in Rattle because the pieces of a text would take memory; and a text within itself, whose depth
        nothing bounds."""
        if self.is_proved:
            raise SchemaError(definition.place, f"{definition.representation} is not supported yet: `{definition.name}`")
        if definition.name in self.recursive:
            raise SchemaError(definition.place, f"`{definition.name}` is a text that holds itself")

    def check_text(self, part, kind):
        if self.kind_of(self.resolve(kind)) != "string":
            raise SchemaError(part.place, f"`{part.name}` is not a text")

    def check_pairs(self, struct):
        """The pairs stand in the schema's order, so each struct has one spelling."""
        for field in struct.fields:
            if field.optional and self.is_proved:
                raise SchemaError(field.place, f"a list of pairs has all of its fields here: `{field.name}` is optional")
        if self.is_proved and len(struct.fields) > MOST_PAIRS:
            raise SchemaError(
                struct.fields[MOST_PAIRS].place,
                f"a list of pairs has at most {MOST_PAIRS} fields here, which the prover can take at once: `{struct.name}`",
            )
        if struct.open:
            raise SchemaError(struct.place, f"a list of pairs has no other keys to skip: `{struct.name}`")

    def check_key(self, key, place):
        if self.is_proved and (not re.fullmatch(r"[ -~]{0,40}", key) or '"' in key or "\\" in key):
            raise SchemaError(place, f"names in the data are up to 40 printable characters of ASCII here, without \" and \\: {key!r}")

    def check_members(self, one, members, data, check):
        """Checks the members of an enum or a union, whose data has this name: each by itself too."""
        names, seen = {}, {}
        if not members:
            raise SchemaError(one.place, f"`{one.name}` has no members")
        for member in members:
            self.check_capital("member", member.name, member.place)
            if self.is_proved and member.name in TAKEN_VARIANTS:
                raise SchemaError(member.place, f"`{member.name}` is a name of Rust or of the library: choose another")
            once(names, member.name.lower(), member.place, "two members have the name")
            once(seen, member.data, member.place, f"two members have the {data}")
            check(member)

    def check_enum(self, enum):
        check = self.check_text_key if enum.representation == "string" else self.check_number
        self.check_members(enum, enum.members, "representation", check)

    def check_text_key(self, member):
        self.check_key(member.data, member.place)

    def check_number(self, member):
        if self.is_proved and member.data < 0:
            raise SchemaError(member.place, f"{member.data} is not supported: a number from 0 to 2^64 - 1")

    def check_union(self, union):
        if union.representation == "kinded":
            self.check_members(union, union.cases, "kind", self.check_kind)
        else:
            self.check_members(union, union.cases, "key", self.check_text_key)
        checks = {"stringprefix": self.check_prefixes, "inline": self.check_inline, "envelope": self.check_envelope}
        if union.representation in checks:
            checks[union.representation](union)

    def check_inline(self, union):
        """The members are structs that are maps, without the field that tells the member."""
        self.check_key(union.discriminant, union.place)
        for case in union.cases:
            struct = self.case_struct(case)
            if not is_a(struct, "struct_map"):
                raise SchemaError(case.place, f"a member of an inline union is a struct that is a map: `{case.name}`")
            if union.discriminant in (field.key for field in struct.fields):
                raise SchemaError(case.place, f"`{struct.name}` has a field `{union.discriminant}`, which tells the members of `{union.name}`")
        if self.is_proved:
            self.check_row(union)

    def check_row(self, union):
        """The members are read as one row: first the field that tells the member, and then all their fields, which may be absent."""
        seen, first = {}, None
        for case in union.cases:
            struct = self.case_struct(case)
            first = first or struct
            if struct.open != first.open:
                raise SchemaError(case.place, f"the members of an inline union are all open or none: `{first.name}` and `{struct.name}`")
            for field in struct.fields:
                if field.implicit is not None:
                    raise SchemaError(case.place, f"`{struct.name}` has a field with an implicit value, and is a member of an inline union: `{field.name}`")
                other = seen.setdefault(field.key, field)
                if unplaced(self.resolve(field.type)) != unplaced(self.resolve(other.type)):
                    raise SchemaError(
                        case.place,
                        f"the key `{field.key}` is of two types in the members of `{union.name}`: lines {other.place.line} and {field.place.line}",
                    )
        if len(seen) >= MOST_FIELDS:
            raise SchemaError(
                union.place, f"the members of an inline union have at most {MOST_FIELDS - 1} fields in all, and those of `{union.name}` {len(seen)}"
            )

    def row_of(self, union):
        """The fields of an inline union's members, each key once, and if all members that have it are open."""
        seen = {}
        for case in union.cases:
            for field in self.case_struct(case).fields:
                seen.setdefault(field.key, field)
        return list(seen.values())

    def has_one_type(self, union, key):
        """Returns true if the key has the same type in all members of an inline union that have it."""
        fields = [field for case in union.cases for field in self.case_struct(case).fields if field.key == key]
        return len({unplaced(self.resolve(field.type)) for field in fields}) == 1

    def check_envelope(self, union):
        """In Rattle the tag comes before the content, in the order of their keys, so that it tells how to read the content."""
        tag, content = union.discriminant, union.content
        for key in (tag, content):
            self.check_key(key, union.place)
        if tag == content or self.is_proved and (len(tag), tag) > (len(content), content):
            raise SchemaError(
                union.place,
                f"the tag of `{union.name}` comes after its content, and has to tell what that is: in the order of keys `{content}` comes"
                f" {'before' if tag != content else 'with'} `{tag}`",
            )

    def check_kind(self, case):
        kinds = KINDS if self.is_proved else (*KINDS, "null")
        if case.data not in kinds:
            raise SchemaError(case.place, f"the kind {case.data} is not supported: the members of a kinded union are {', '.join(kinds)}")
        kind = self.resolve(case.type)
        if self.kind_of(kind) != case.data:
            raise SchemaError(case.place, f"the kind of `{case.name}` is not {case.data}")
        if self.is_proved and isinstance(kind, Int) and kind.width not in (DEFAULT_WIDTH, "i128"):
            raise SchemaError(case.place, "an int of a kinded union is any int of the data model: it is kept as i128")

    def kind_of(self, kind):
        """The kind of all data of a type, or None if it has several."""
        if isinstance(kind, Named):
            return KIND_OF.get(self.by_name[kind.name].representation)
        return KIND_OF.get(kind.kind if isinstance(kind, Leaf) else type(kind))

    # -- recursion

    def refuse_endless(self):
        """Refuses a type if each of its values holds another value of it, so that none is finite."""
        finite = set()
        while new := {one.name for one in self.definitions if one.name not in finite and is_finite(one, finite)}:
            finite |= new
        for definition in self.definitions:
            if definition.name not in finite:
                raise SchemaError(definition.place, f"`{definition.name}` has no finite value: each value holds another")

    def held(self, definition):
        """The definitions that this one names. A link's target does not count: it is another block."""
        return [self.by_name[name] for kind in held_by(definition) for name in names_in(kind)]

    def reached(self, definition):
        """The names of all types that a value of this one may hold."""
        found, left = set(), [definition]
        while left:
            new = [one for one in self.held(left.pop()) if one.name not in found]
            found |= {one.name for one in new}
            left += new
        return found

    def in_order(self):
        """The definitions, each after those that it holds, unless they hold it too: no proved type does."""
        found = {}

        def visit(definition, path):
            if definition.name in path and self.is_proved:
                refuse_circle(definition, path)
            if definition.name not in path and definition.name not in found:
                for one in self.held(definition):
                    visit(one, [*path, definition.name])
                found[definition.name] = definition

        for definition in self.definitions:
            visit(definition, [])
        return list(found.values())


def refuse_circle(definition, path):
    """Refuses a type that holds itself, with the names that lead back to it."""
    around = path[path.index(definition.name) :] + [definition.name]
    raise SchemaError(
        definition.place,
        f"`{definition.name}` holds itself ({' -> '.join(around)}): a type's view is made of those of its parts."
        " A link, as `&Any`, may lead to it",
    )


def bounds(width):
    """The least and the greatest integer of a width. Integers of 128 bits are all those of the data."""
    bits = int(width[1:])
    if width == "i128":
        return -(2**64), 2**64 - 1
    return (0, 2**bits - 1) if width[0] == "u" else (-(2 ** (bits - 1)), 2 ** (bits - 1) - 1)


def maker_name(one):
    """The name of the method that makes a definition, from its form and representation: for example `struct_map`."""
    return f"{type(one).__name__.lower()}_{getattr(one, 'representation', '')}"


def is_a(one, *names):
    """Returns true if a definition has one of these forms and representations."""
    return maker_name(one) in names


def may_lack(field):
    """Returns true if the data may lack the field: it is optional, or has an implicit value."""
    return field.optional or field.implicit is not None


def in_groups(struct):
    """Returns true if a struct of many fields is read and written in groups."""
    return struct.representation == "map" and all(field.implicit is None for field in struct.fields)


def in_parts(row, most):
    """A row in the fewest parts of at most this size: of one size, or of two that differ by one."""
    count = -(-len(row) // most)
    places = [at * len(row) // count for at in range(count + 1)]
    return [row[begin:end] for begin, end in zip(places, places[1:])]


def is_leaf(kind, word):
    return isinstance(kind, Leaf) and kind.kind == word


def depth(kind):
    return 1 + sum(map(depth, parts(kind)))


def parts(kind):
    if isinstance(kind, ListOf):
        return [kind.item]
    if isinstance(kind, MapOf):
        return [kind.value]
    if isinstance(kind, Nullable):
        return [kind.part]
    return []


def names_in(kind):
    """The names in a type."""
    return [kind.name] if isinstance(kind, Named) else [name for part in parts(kind) for name in names_in(part)]


def held_by(definition):
    if isinstance(definition, Alias):
        return [definition.of]
    if isinstance(definition, Struct):
        return [field.type for field in definition.fields]
    if isinstance(definition, Union):
        return [case.type for case in definition.cases]
    return []


def is_finite(definition, finite):
    """Returns true if it has a finite value, given types that have one. A list or a map may be empty, and a nullable may be null."""

    def has(kind):
        return not isinstance(kind, Named) or kind.name in finite

    if isinstance(definition, Struct):
        return all(has(field.type) for field in definition.fields if not may_lack(field))
    return any(map(has, held_by(definition))) if isinstance(definition, Union) else all(map(has, held_by(definition)))


def refuse_made_name(name, other, place):
    """Refuses a type whose name is made from another one, or the other way round."""
    if name in (other.name + "View",) or other.name == name + "View":
        raise SchemaError(place, f"`{name}` and `{other.name}`: the type that the one is read as has the other's name")
    for one, part in ((name, other.name), (other.name, name)):
        if re.fullmatch(one + "(Group|Row|Own|Written)[0-9]+", part):
            raise SchemaError(place, f"`{name}` and `{other.name}`: a group of the one may have the other's name")


def unplaced(kind):
    """The type, wherever it stands."""
    words = [type(kind).__name__] + [getattr(kind, name, None) for name in ("name", "kind", "width")]
    return (*words, *map(unplaced, parts(kind)))


def once(seen, word, place, what):
    if word in seen:
        raise SchemaError(place, f"{what} `{word}`: this and line {seen[word].line}")
    seen[word] = place
