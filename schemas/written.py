"""How a struct of many fields is written: as a row of groups, each with a name, so that no function sees the types of all fields."""

from schemas.law import MOST_FIELDS, field_name, in_parts, may_lack
from schemas.layout import Group, function, ghost, impl, lines, typed


# What a field is in the map, before the fields after it.
BEFORE = ("field_before {} (", "optional_before {} (")


def entry(field, value):
    """What is written for a field of a map."""
    return Group(f"{entry_form(field)}(", [f'"{field.key}"', f"&{value}"], ")")


def entry_form(field):
    return "Optional" if may_lack(field) else "Field"


class Written:
    """Some of a struct's fields, in the order of their keys."""

    def __init__(self, module, struct, number, kinds):
        self.module, self.struct, self.kinds = module, struct, kinds
        self.name = f"{struct.name}Written{number}"

    def items(self):
        """The group, with its impl."""
        struct, types, row, pairs = self.struct, [], [], []
        for field, kind in self.kinds:
            name = field_name(field.name)
            types.append(f"{entry_form(field)}<'a, {self.module.code(kind)}>")
            row.append(entry(field, f"whole.{name}"))
            pairs.append(f"        {self.module.entry_tree(field, kind, f'v.now.{name}', BEFORE)}")
        return [
            "",
            f"/// The fields of `{struct.name}` that are written from `{field_name(self.kinds[0][0].name)}` on.",
            "#[derive(Clone, Copy)]",
            f"struct {self.name};",
            *impl(
                f"<'a> WrittenGroup<&'a {struct.name}> for {self.name}",
                typed("type Row = ", halved(types, lambda pair: f"({', '.join(pair)})"), 4, ";"),
                ghost("fields", ["λ v.", *pairs, f"        none_before{')' * len(pairs)}"]),
                function("row", ["self", f"whole: &'a {struct.name}"], "Self::Row", lines(halves(row), 8)),
            ),
        ]


def written_groups(module, struct, kinds):
    """The groups of a struct's fields."""
    return [Written(module, struct, at + 1, part) for at, part in enumerate(in_parts(kinds, MOST_FIELDS))]


def all_groups(groups):
    """All groups, in halves."""
    made = halves([Group("OneGroup(", [group.name], ")") for group in groups])
    return Group("let groups = (", made.items, ")")


def halved(rows, joined):
    """The two halves of a row, joined, and the same for each half."""
    middle = len(rows) // 2
    return joined([halved(part, joined) for part in (rows[:middle], rows[middle:])]) if middle else rows[0]


def halves(rows):
    return halved(rows, lambda pair: Group("(", pair, ")"))
