"""How a struct of many fields is read: in groups. Each group is a struct that the schema's module keeps to itself, because the
prover takes few fields at once."""

from typing import NamedTuple

from schemas.law import MOST_IN_GROUP, field_name, in_parts, may_lack
from schemas.layout import INSIDE_STRUCT, Group, function, ghost, impl, lines, pairs_of, typed

# The ghost members of a group, in order; a member that has no rows of its own is as in the group's row.
MEMBERS = """OwnState own_state own_unread own_shape following OwnView own_meaning own_finish Held held shape_before joins Shows shows
    finish_before finishes own_refuses""".split()


class Part(NamedTuple):
    """What a group holds: its name and type, what it is in the row that is read and during reading, what it means, and how it is
    taken out of the row."""

    word: str
    code: str
    row: str
    own: str
    meaning: str
    pattern: str


def groups_of(module, struct, few):
    """All groups of a struct with these few fields, innermost first, and the groups that its row is made of."""
    row = [of_fields(module, struct, place + 1, fields) for place, fields in enumerate(few)]
    groups = row[:]
    while len(row) > MOST_IN_GROUP:
        row = [of_groups(struct, len(groups) + at + 1, part) for at, part in enumerate(in_parts(row, MOST_IN_GROUP))]
        groups += row
    return groups, row


def of_fields(module, struct, number, fields, pub=""):
    """A group of fields."""
    parts = []
    for field in fields:
        kind, name = module.schema.resolve(field.type), field_name(field.name)
        code, meaning = module.code(kind), module.optional_meaning(kind, field.optional, f"v.{name}")
        held = f"Option<{code}>" if field.optional else code
        parts.append(Part(name, held, f"{form(field)}<{code}>", f"Option<{code}>", meaning, f"{form(field)}({name})"))
    return FieldGroup(struct, number, parts, f"The fields of `{struct.name}` from `{parts[0].word}` on.", pub)


def of_groups(struct, number, groups):
    """A group of groups."""
    parts = []
    for group in groups:
        meaning = f"⟦<{group.name} as FieldGroup<'de>>⟧.own_meaning v.{group.word}"
        parts.append(Part(group.word, group.name, group.name, group.own, meaning, group.word))
    return FieldGroup(struct, number, parts, f"The groups of fields of `{struct.name}` from `{groups[0].name}` on.")


def group_word(struct):
    """The name of a group that stands in a variable: no field's name begins so."""
    word, taken = "group", [field_name(field.name) for field in struct.fields]
    while any(name.startswith(word) for name in taken):
        word += "_"
    return word


class FieldGroup:
    """A group: what it holds, as a struct, and its impl by the row of that."""

    def __init__(self, struct, number, parts, about, pub=""):
        self.parts, self.about, self.pub = parts, about, pub  # pub comes before the structs and their fields
        self.name, self.row, self.own = (f"{struct.name}{word}{number}" for word in ("Group", "Row", "Own"))
        self.word = f"{group_word(struct)}{number}"

    def items(self):
        return [*self.declared(), *self.group_impl()]

    def declared(self):
        return [
            "",
            f"/// {self.about}",
            "#[derive(Drop)]",
            f"{self.pub}struct {self.name} {{",
            *(line for part in self.parts for line in typed(f"{self.pub}{part.word}: ", part.code, 4, ",")),
            "}",
            "",
            *typed(f"type {self.row} = ", joined([part.row for part in self.parts]), 0, ";"),
            "",
            "#[derive(Drop)]",
            f"{self.pub}struct {self.own} {{",
            *typed(f"{self.pub}row: ", joined([part.own for part in self.parts]), 4, ","),
            "}",
        ]

    def apart(self):
        """The lines that take it apart."""
        return lines(Group(f"let {self.name} {{", [part.word for part in self.parts], "}", INSIDE_STRUCT), 8, f" = {self.word};")

    def group_impl(self):
        row, own = f"<{self.row} as FieldGroup<'de>>", self.own
        members = {word: [f"⟦{row}⟧.{word}"] for word in MEMBERS}
        members["own_state"] = [f"λ p. ⟦{row}⟧.own_state p.row"]
        *meanings, last = [part.meaning for part in self.parts]
        members["own_meaning"] = pairs_of(meanings, last)
        unread = Group(f"{own} {{", [Group(f"row: {row}::unread_own(", ["alloc"], ")")], "}", INSIDE_STRUCT)
        held, names, de = f"own: &mut {own}", "names: &[&str]", "de: &mut Deserializer<'de, R>"
        refusal = "refusal: &mut Option<DecodeError<R::Error>>"
        finished = [
            *lines(Group(f"let row = {row}::finish_own(", ["own.row"], ")?"), 8, ";"),
            *(f"        let ({part.pattern}, row) = row;" for part in self.parts[:-1]),
            f"        let {self.parts[-1].pattern} = row;",
            *lines(Group(f"Some({self.name} {{", [part.word for part in self.parts], "})", INSIDE_STRUCT), 8),
        ]
        return impl(
            f"<'de> FieldGroup<'de> for {self.name}",
            [f"    type Own = {own};"],
            *(ghost(word, members[word]) for word in MEMBERS),
            function("unread_own", ["alloc: Global"], own, lines(unread, 8)),
            function("skip_names<'n, 'm>", ["names: &'n [&'m str]"], "&'n [&'m str]", [f"        {row}::skip_names(names)"]),
            function(
                "read_own<R: Read>",
                [held, "alloc: Global", names, "key: &str", de],
                "Option<ReadResult<(), R>>",
                lines(Group(f"{row}::read_own(", ["&mut own.row", "alloc", "names", "key", "de"], ")"), 8),
            ),
            function(
                "read_own_named<R: Read>",
                [held, "alloc: Global", names, "entries: &mut Accessor<'de>", de, refusal],
                "bool",
                lines(Group(f"{row}::read_own_named(", ["&mut own.row", "alloc", "names", "entries", "de", "refusal"], ")"), 8),
            ),
            function("finish_own", [f"own: {own}"], f"Option<{self.name}>", finished),
        )


def form(field):
    """What holds a field in a row: a field that must be there, or one that may be absent."""
    return "Omissible" if may_lack(field) else "Required"


def joined(kinds):
    """A type of pairs, each within the one before; nothing comes after the last."""
    *before, made = kinds
    for kind in reversed(before):
        made = f"({kind}, {made})"
    return made
