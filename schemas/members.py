"""How the members of an inline union are made from a row of all their fields. The row of a wide union is read in groups. A member
first tests the others' fields, a few at once, while its own are still in the groups: if it gives up, it drops the groups whole."""

from dataclasses import dataclass, replace

from schemas.groups import of_fields
from schemas.law import field_name, in_parts
from schemas.layout import INSIDE_STRUCT, WIDTH, Group, lines, taken
from schemas.parsing import Field, Struct

MOST_AT_ONCE = 6  # fields of the row, if it is not read in groups
MOST_IN_READ = 5  # fields of a group
MOST_IN_TEST = 4  # fields that one test covers: whether any of them is there


@dataclass
class Place:
    """A field of the row."""

    field: Field
    kind: object
    local: str  # its name in code
    path: str  # what shows it in specs
    group: str = ""  # the group that holds it, in code


def packed(parts, most):
    """Parts of a row, each joined with those after it as long as they are not larger together."""
    made = []
    for part in parts:
        if made and len(made[-1]) + len(part) <= most:
            made[-1] += part
        else:
            made.append(part[:])
    return made


def members_of(module, union):
    """The members of an inline union."""
    is_wide = len(module.schema.row_of(union)) > MOST_AT_ONCE
    return WideMembers(module, union) if is_wide else Members(module, union)


class Members:
    """The members of an inline union, and the row of all their fields."""

    is_wide = False

    def __init__(self, module, union):
        self.module, self.union, self.schema = module, union, module.schema
        self.open = self.schema.case_struct(union.cases[0]).open
        self.row = []
        for field in self.fields():
            local = field_name(field.name)
            while local in ("tag", "row", "parts", *(one.local for one in self.row)):
                local += "_"
            self.row.append(Place(field, self.schema.resolve(field.type), local, f"row.1{'.1' * len(self.row)}.0"))

    def fields(self):
        return self.schema.row_of(self.union)

    def keys(self, case):
        return {field.key: field for field in self.schema.case_struct(case).fields}

    def is_needed(self, case, one):
        """Returns true if a member must have a field of the row."""
        field = self.keys(case).get(one.field.key)
        return field is not None and not field.optional

    def is_other(self, case, one):
        """Returns true if a member must not have a field of the row."""
        return not self.open and one.field.key not in self.keys(case)

    def spec(self, case, member):
        """The lines that make the member from a row."""
        rows = []
        for one in self.row:
            if self.is_needed(case, one):
                rows.append(f"    there {one.path} (λ {one.local}'.")
            elif self.is_other(case, one):
                rows.append(f"    absent {one.path} (")
        return [*rows, f"    Some ({member}){')' * len(rows)}"]

    def items(self):
        """The lines of what is declared for the row."""
        return []

    def types(self):
        """What is read after the tag."""
        return [f"Omissible<{self.module.code(one.kind)}>" for one in self.row]

    def words(self):
        """How that is taken out of the row."""
        return [f"Omissible({one.local})" for one in self.row]

    def shown(self):
        """What each field means in the parts `v` that were read."""
        return [self.module.optional_meaning(one.kind, True, f"v.1{'.1' * place}.0.0") for place, one in enumerate(self.row)]

    def made(self, case):
        """The lines of its arm that take its fields out of the parts."""
        made = []
        for one in self.row:
            if self.is_needed(case, one):
                made += taken(one.local)
            elif self.is_other(case, one):
                made += given_up(f"{one.local}.is_some()")
        return made


class WideMembers(Members):
    """The same, if the row is read in groups."""

    is_wide = True

    def __init__(self, module, union):
        super().__init__(module, union)
        left = iter(self.row)
        self.parts = [[next(left) for _ in part] for part in self.by_owners()]
        fields = [replace(one.field, name=one.local, optional=True) for one in self.row]
        whole, self.groups = Struct(union.name, fields, "map", self.open, union.place), []
        for some in packed(self.parts, MOST_IN_READ):
            group = of_fields(module, whole, len(self.groups) + 1, fields[: len(some)], "pub ")  # as everything in an impl of `FromParts`
            self.groups.append((group, some))
            fields = fields[len(some) :]
            for one in some:
                one.group = group.word

    def by_owners(self):
        """The fields, grouped by the members that have them, in parts of a few."""
        keys, found = [self.keys(case) for case in self.union.cases], {}
        for field in super().fields():
            found.setdefault(tuple(field.key in some for some in keys), []).append(field)
        return [part for row in found.values() for part in in_parts(row, MOST_IN_TEST)]

    def fields(self):
        return [field for part in self.by_owners() for field in part]

    def others(self, case):
        """The fields that it must not have, a few at once."""
        return packed([part for part in self.parts if self.is_other(case, part[0])], MOST_IN_TEST)

    def needed(self, case):
        """What a member takes from the row and must have."""
        return [one for one in self.row if self.is_needed(case, one)]

    def spec(self, case, member):
        others, needed = self.others(case), self.needed(case)
        rows = [line for some in others for line in in_rows("    if ", [f"is_some {one.path}" for one in some], "||", " then None else (", 4)]
        rows += [f"    there {one.path} (λ {one.local}'." for one in needed]
        return [*rows, f"    Some ({member}){')' * (len(others) + len(needed))}"]

    def items(self):
        return [line for group, _ in self.groups for line in group.items()]

    def types(self):
        return [group.name for group, _ in self.groups]

    def words(self):
        return [group.word for group, _ in self.groups]

    def shown(self):
        return [
            self.module.optional_meaning(one.kind, True, f"v.1{'.1' * place}.0.{one.local}")
            for place, (_, some) in enumerate(self.groups)
            for one in some
        ]

    def made(self, case):
        made, keys = [], self.keys(case)
        for some in self.others(case):
            tests = [f"{one.group}.{one.local}.is_some()" for one in some]
            if len(tests) > 1:
                made += in_rows("                let others = ", tests, "|", ";", 20)
            made += given_up("others" if len(tests) > 1 else tests[0])
        for group, some in self.groups:
            own = [one.local for one in some if one.field.key in keys]
            if own:
                rest = [".."] if len(own) < len(some) else []
                made += lines(Group(f"let {group.name} {{", own + rest, "}", INSIDE_STRUCT), 16, f" = {group.word};")
        return made + [line for one in self.needed(case) for line in taken(one.local)]


def given_up(test):
    """The lines of an arm that give up under a condition."""
    return [f"                if {test} {{", "                    return None;", "                }"]


def in_rows(head, words, sign, end, indent):
    """Words with a sign between them: on one line, or each on its own."""
    one = head + f" {sign} ".join(words) + end
    margin = " " * indent + sign + " "
    return [one] if len(one) <= WIDTH else [head + words[0], *(margin + word for word in words[1:-1]), margin + words[-1] + end]
