"""The files of Rattle that are made from a schema: the types with their impls, and what a tree shows to each type."""

import re
from typing import NamedTuple

from schemas.groups import form, groups_of, joined
from schemas.law import MOST_FIELDS, RESERVED, field_name, held_by, is_a, is_leaf, maker_name, may_lack, parts, path_name, snake
from schemas.layout import INSIDE_STRUCT, SHORT_IF, WIDTH, Group, arm, block_arm, filled, function, ghost, impl, lines, pairs_of, row_of, split, typed
from schemas.members import members_of
from schemas.parsing import Alias, Enum, Int, Leaf, Link, ListOf, MapOf, Member, Named, Nullable, Struct, Union, Unit
from schemas.written import all_groups, entry, written_groups


class Scalar(NamedTuple):
    """A scalar: its code, what it is read as, its shape, and, for a value, its tree and its meaning."""

    code: str
    view: str
    shape: str
    tree: str
    meaning: str


SCALARS = {
    "String": Scalar("String", "List ℕ", "owned_leaf view_text", "Some (text (string_bytes {}))", "string_bytes {}"),
    "Bytes": Scalar("Bytes", "List ℕ", "owned_leaf view_bytes", "Some (bytes {}.0.items)", "{}.0.items"),
    "Bool": Scalar("bool", "Bool", "leaf view_bool", "Some (boolean {})", "{}"),
    "Link": Scalar("Cid", "List ℕ", "leaf view_link", "Some (link (cid_bytes {}))", "cid_bytes {}"),
}

# The other types: their code, what they are read as, and their shapes. A leaf is Any.
CODE = {Leaf: "Ipld", ListOf: "Vec<{}>", MapOf: "BTreeMap<String, {}>", Nullable: "Option<{}>"}
VIEWS = {Leaf: "Tree", ListOf: "List {}", MapOf: "List (List ℕ × {})", Nullable: "Option {}"}
SHAPES = {Leaf: "any_tree", ListOf: "list_of (all_of {})", MapOf: "map_of {}", Nullable: "option_of {}"}

# Where each word of the specs comes from.
LIBRARY = "Rattle.serde_ipld_dagcbor.specs."
WORDS = {
    "Rattle.std.specs.Prelude": "◌≡◌ ℕ ℤ ◌^◌ Bool ◌||◌ List [] ◌∷◌ Option Some None is_some option_map if◌then◌else◌ codes pos neg_ℤ string_bytes nat_eq true false refl",
    "Rattle.std.specs.Str": "bytes_eq",
    "Rattle.std.specs.Ordering": "int_eq",
    "Rattle.std.specs.Bool": "beq",
    LIBRARY + "Cid": "cid_bytes",
    LIBRARY + "Tree": "Tree null text bytes boolean integer link list_tree entries_tree",
    LIBRARY + "Trees": "field optional variant_tree",
    LIBRARY + "Shapes": "Shape leaf owned_leaf option_of any_tree view_null view_text view_bytes view_bool view_link view_unsigned view_signed takes_none takes_some",
    LIBRARY + "Collections": "finishing list_of all_of map_of first_then optional_then no_more",
    LIBRARY + "Structs": "required_field omissible_field no_fields no_other_fields struct_shape",
    LIBRARY + "EnumViews": "EnumShape enum_of",
    "Rattle.types_schema.specs.ToldValues": "told_by_number",
    "Rattle.types_schema.specs.Kinds": "by_kind no_kind",
    "Rattle.types_schema.specs.declared.by_kind.ByKind": "ByKind",
    "Rattle.types_schema.specs.Envelopes": "envelope_of",
    "Rattle.types_schema.specs.Implicit": "or_implicit unless_implicit",
    "Rattle.types_schema.specs.Pairs": "text_and_value named",
    "Rattle.types_schema.specs.Parts": "optional_part",
    "Rattle.types_schema.specs.Members": "there absent",
    "Rattle.types_schema.specs.WrittenGroups": "field_before optional_before none_before",
}

# Where each word of the code comes from.
HOMES = {
    "types_schema": """ByKind Enveloped FromParts InGroups NoKind Numbered OneGroup OptionalPart Part WrittenGroup of_name omit_implicit
        read_enveloped read_from_parts read_numbered write_parts""",
    "serde_ipld_dagcbor": """Accessor Bytes Cid Closed DecodeError Deserialize DeserializeOwned Deserializer EnumAccessor Field FieldGroup
        Ipld Omissible OmissibleItem Optional Read ReadResult Required Serialize Serializer Shown Variants Write WriteResult read_enum
        read_struct read_tuple write_struct""",
    "std::alloc": "Global",
    "std::collections": "BTreeMap",
}
KINDS_PATH = "Rattle.types_schema.specs.declared.by_kind.ByKind.TheVariants as kinds"
LETTERS = {"ℕ": "ℕ", "ℤ": "ℤ", "^": "◌^◌", "[]": "[]", "∷": "◌∷◌", "if": "if◌then◌else◌"}
PUNCTUATION = str.maketrans({char: " " for char in "();,={}⟦⟧<>|[].λ:"})


# What the data of a type is, in words.
SAID = {
    "map": "a map of ",
    "tuple": "a list of ",
    "listpairs": "a list of pairs, of ",
    "string": "a name",
    "int": "a number",
    "kinded": "told by its kind",
    "inline": "a map, told by one of its fields",
    "keyed": "a map of one entry, from a name",
    "envelope": "a map of a tag and of what it tells",
}

# Lines of the code.
PLAIN = ["#[derive(Clone, Copy, Debug, PartialEq, Eq)]"]
UNKNOWN = '            _ => Err(DecodeError::custom("unknown variant")),'
NONE = "            _ => None,"
DE = "de: &mut Deserializer<'de, R>"


def wrapped(text):
    """In parentheses, if it is more than a word."""
    return f"({text})" if " " in text else text


class Module:
    """What is made from one schema, as a module of a crate."""

    def __init__(self, schema, crate, name):
        self.schema, self.crate, self.name = schema, crate, name
        self.path, self.file = path_name(name), f"{name}.ipldsch"
        self.definitions = schema.ordered
        self.types = [one for one in self.definitions if not isinstance(one, Alias)]
        structs = [one for one in self.types if isinstance(one, Struct)]
        implied = [kind for one in structs for field, kind in self.fields(one) if field.implicit is not None]
        self.implied = {kind.name for kind in implied if isinstance(kind, Named)}  # the enums with a member that some field implies

    def fields(self, struct):
        """The fields of a struct, with their resolved types."""
        return [(field, self.schema.resolve(field.type)) for field in struct.fields]

    def cases(self, union):
        """The members of a union, with what they hold."""
        return [(case, self.case_kind(union, case)) for case in union.cases]

    def case_kind(self, union, case):
        kind = self.schema.resolve(case.type)
        if union.representation == "kinded" and isinstance(kind, Int):
            return Int("i128", kind.place)
        return kind

    # ---- a type of a value: in code, in ghost lines, in specs

    def scalar(self, kind):
        """The forms of a scalar, or None for Any and for what is not a scalar."""
        if isinstance(kind, Int):
            bits = int(kind.width[1:])
            if kind.width[0] == "u":
                return Scalar(kind.width, "ℕ", f"leaf (view_unsigned (2 ^ {bits}))", "Some (integer (pos {}))", "{}")
            return Scalar(kind.width, "ℤ", f"leaf (view_signed (2 ^ {bits - 1}))", "Some (integer {})", "{}")
        return SCALARS.get("Link" if isinstance(kind, Link) else getattr(kind, "kind", None))

    def code(self, kind, aliases=False):
        """Its code. With aliases it is a type as the schema has it, and otherwise a resolved one."""
        if isinstance(kind, Named):
            return kind.name
        scalar = self.scalar(kind)
        if scalar:
            return scalar.code
        inner = [self.code(part, aliases) for part in parts(kind)]
        if aliases and isinstance(kind, Nullable) and not isinstance(self.schema.resolve(kind), Nullable):
            return inner[0]
        return CODE[type(kind)].format(*inner)

    def view(self, kind):
        """What it is read as."""
        if isinstance(kind, Named):
            return view_name(self.schema.by_name[kind.name])
        scalar = self.scalar(kind)
        return scalar.view if scalar else VIEWS[type(kind)].format(*(wrapped(self.view(part)) for part in parts(kind)))

    def optional_view(self, kind, may_lack):
        """The same for what may be left out."""
        return f"Option {wrapped(self.view(kind))}" if may_lack else self.view(kind)

    def shape(self, kind):
        """What a tree shows to the type."""
        if isinstance(kind, Named):
            return f"{snake(kind.name)}_shape"
        scalar = self.scalar(kind)
        return scalar.shape if scalar else SHAPES[type(kind)].format(*(wrapped(self.shape(part)) for part in parts(kind)))

    def tree(self, kind, value):
        """The tree of a value."""
        scalar = self.scalar(kind)
        return scalar.tree.format(value) if scalar else f"{self.tree_of(kind)} {value}"

    def tree_of(self, kind):
        """The same, as a function."""
        scalar = self.scalar(kind)
        return f"(λ x. {scalar.tree.format('x')})" if scalar else f"⟦<{self.code(kind)} as Serialize>⟧.tree"

    def meaning(self, kind, value):
        """What a value means."""
        scalar = self.scalar(kind)
        if scalar:
            return scalar.meaning.format(value)
        if shows_itself(self.schema.named(kind)):
            return value
        return f"⟦<{self.code(kind)} as Shown>⟧.meaning {value}"

    def optional_meaning(self, kind, may_lack, value):
        """The same for what may be left out."""
        return self.meaning(Nullable(kind, kind.place) if may_lack else kind, value)

    # ---- imports

    def imports(self, text, ghost):
        """The lines that import the words of the text: in code by `ghost use`, in specs by `use`."""
        head, close = ("ghost use ", ";") if ghost else ("use ", "")
        text = re.sub(r'"[^"]*"|kinds\.\w+', "", text)
        words = set(text.translate(PUNCTUATION).split())
        words |= {name for sign, name in LETTERS.items() if sign in words}
        words |= {name for sign, name in (("[]", "[]"), ("|| ", "◌||◌")) if sign in text}
        if ghost and "≡" in words:
            words.add("◌≡◌")
        made = []
        for home, there in WORDS.items():
            used = [word for word in there.split() if word in words]
            if used:
                made += split(f"{head}{home}.", used, close)
        return made

    def spec_words(self, one):
        """What the specs say of a type."""
        words = ["shape"]
        if is_a(one, "union_inline", "union_kinded") or isinstance(one, Struct) and is_made(one):
            words = ["row", "row_shape", "of_row", "shape"]
        elif is_a(one, "enum_string", "union_keyed", "union_envelope"):
            words = ["variants", "shape"]
        elif is_a(one, "enum_int", "unit_true", "unit_false"):
            words = ["of_number" if isinstance(one, Enum) else "of_bool", "shape"]
        if one.name in self.implied:
            words.insert(0, "eq")
        views = [] if shows_itself(one) else [view_name(one), *(case_word(one, case) for case in getattr(one, "cases", []))]
        return [*views, *(f"{snake(one.name)}_{word}" for word in words)]

    def variants_import(self, one, ghost):
        head, close = ("ghost use ", ";") if ghost else ("use ", "")
        path = f"Rattle.{self.crate}.specs.declared.{self.name}.{one.name}"
        made = [f"{head}{path}.TheVariants as {alias(one)}{close}"]
        if shows_itself(one):
            made.insert(0, f"{head}{path}.{{{one.name}}}{close}")
        return made

    # ---- the specs

    def specs(self):
        rows = [row for one in self.types for block in self.spec(one) for row in ("", *block)]
        text = "\n".join(row for row in rows if not row.startswith("--"))
        head = [f"-- What a tree shows to the types of {self.file}, by ./dagcbor-types."]
        head += self.imports(text, ghost=False)
        if "(kinds." in text:
            head.append(f"use {KINDS_PATH}")
        for one in self.types:
            if shows_itself(one):
                head += self.variants_import(one, ghost=False)
        return "\n".join(head + rows) + "\n"

    def spec(self, one):
        """What the specs say of a type, in blocks."""
        specs = {Struct: self.struct_spec, Enum: self.enum_spec, Unit: self.unit_spec, Union: self.union_spec}
        first, *others = specs[type(one)](one)
        return [[f"-- {one.name}: {self.said(one)}", *first], *others]

    def said(self, one):
        """What the data of a type is, in words."""
        if isinstance(one, Struct):
            return SAID[one.representation] + listed([field.name for field in one.fields])
        return f"{one.representation} alone" if isinstance(one, Unit) else SAID[one.representation]

    @staticmethod
    def finished_spec(name, view, row, shape, of_row):
        """A shape that is finished: what is read first, the shape of that, and what is made from it."""
        return [
            [f"abbrev pub {name}_row : Type 0", *row],
            [f"abbrev pub {name}_row_shape : Shape Tree {name}_row", *shape],
            [f"abbrev pub {name}_of_row : {name}_row → Option {view}", *of_row],
            [f"abbrev pub {name}_shape : Shape Tree {view}", f"{name}_shape = finishing {name}_of_row {name}_row_shape"],
        ]

    def struct_spec(self, struct):
        name, view = snake(struct.name), view_name(struct)
        shown = [self.optional_view(kind, field.optional) for field, kind in self.fields(struct)]
        declared = [f"abbrev pub {view} : Type 0", *view_rows(view, shown)]
        if not is_made(struct):
            return [declared, [f"abbrev pub {name}_shape : Shape Tree {view}", *self.struct_shape(struct, name)]]
        held = [self.optional_view(kind, may_lack(field)) for field, kind in self.fields(struct)]
        if struct.representation == "listpairs":
            held = [f"(List ℕ × ({wrapped(one)} × Unit {{0}}))" for one in held]
        shape = self.struct_shape(struct, f"{name}_row")
        of_row = [f"{name}_of_row row =", *self.struct_of_row(struct)]
        return [declared, *self.finished_spec(name, view, view_rows(f"{name}_row", held), shape, of_row)]

    def struct_shape(self, struct, name):
        """The shape of what is read of a struct, step by step."""
        steps = [self.struct_step(struct, field, wrapped(self.shape(kind))) for field, kind in self.fields(struct)]
        if struct.representation == "map":
            return shape_rows(f"{name}_shape = struct_shape (", steps, "no_fields" if struct.open else "no_other_fields")
        return shape_rows(f"{name}_shape = list_of (", steps, "no_more")

    @staticmethod
    def struct_step(struct, field, shape):
        """What a field adds to the shape of its struct."""
        if struct.representation == "tuple":
            return f"{'optional' if field.optional else 'first'}_then {shape} ("
        if struct.representation == "listpairs":
            return f"first_then (text_and_value {shape}) ("
        return f'{"omissible" if may_lack(field) else "required"}_field (codes "{field.key}") {shape} ('

    def struct_of_row(self, struct):
        """The rows that make a struct from what was read: from pairs with the right names, or with implicit values of fields left out."""
        made, values = [], []
        for place, (field, kind) in enumerate(self.fields(struct)):
            path, local = "row" + ".1" * place + ".0", local_name(field_name(field.name))
            if struct.representation == "listpairs":
                made.append(f'    named (codes "{field.key}") {path} (λ {local}.')
            elif field.implicit is not None:
                made.append(f"    or_implicit {equal_to(kind, field.implicit.value)} {path} (λ {local}.")
            else:
                local = path
            values.append(local)
        return [*made, f"    Some {row_of(values)}{')' * len(made)}"]

    def writing_takes_memory(self, kind):
        """Returns true if writing it may take memory, if the writer takes none."""
        one = self.schema.named(kind)
        is_map = isinstance(kind, MapOf) or is_a(one, "struct_map", "union_envelope")
        return is_map or is_leaf(kind, "Any") or any(map(self.writing_takes_memory, held_by(one) if one else parts(kind)))

    def reading_takes_memory(self, kind):
        """Returns true if reading it may take memory, as far as the specs say."""
        return not (isinstance(kind, (Int, Link)) or is_leaf(kind, "Bool") or is_a(self.schema.named(kind), "enum_int"))

    def enum_spec(self, enum):
        name, is_text = snake(enum.name), enum.representation == "string"
        test = 'bytes_eq name (codes "{}")' if is_text else "nat_eq n {}"
        rows = [*choice((test.format(member.data), f"Some {alias(enum)}.{member.name}") for member in enum.members), "    else None"]
        same = self.enum_equality(enum) if enum.name in self.implied else []
        if is_text:
            unit = [f"abbrev pub {name}_unit : List ℕ → Option {enum.name}", f"{name}_unit name =", *rows]
            return [unit, *self.variants_spec(enum, enum.name, "λ name t. None", "λ name t. 0", False), *same]
        of_number = [f"abbrev pub {name}_of_number : ℕ → Option {enum.name}", f"{name}_of_number n =", *rows]
        shape = [f"abbrev pub {name}_shape : Shape Tree {enum.name}", f"{name}_shape = told_by_number {name}_of_number"]
        return [of_number, shape, *same]

    @staticmethod
    def enum_equality(enum):
        name = snake(enum.name)
        places = [f"{name}_place {alias(enum)}.{member.name} = {place}" for place, member in enumerate(enum.members)]
        return [
            [f"abbrev pub {name}_place : {enum.name} → ℕ", *places],
            [
                f"abbrev pub {name}_eq : {enum.name} → {enum.name} → Bool",
                f"{name}_eq x y = nat_eq ({name}_place x) ({name}_place y)",
            ],
        ]

    def variants_spec(self, one, view, part, need, memory):
        name = snake(one.name)
        form = "enum_of"
        if one.representation == "envelope":
            form = f'envelope_of (codes "{one.discriminant}") (codes "{one.content}")'
        variants = [
            f"abbrev pub {name}_variants : EnumShape {view}",
            f"{name}_variants = record {{",
            f"  unit = {name + '_unit' if isinstance(one, Enum) else 'λ name. None'};",
            f"  part = {part};",
            f"  need = {need};",
            "  wants_loan = false;",
            f"  memory = {'takes_some' if memory else 'takes_none'};",
            "}",
        ]
        return [variants, [f"abbrev pub {name}_shape : Shape Tree {view}", f"{name}_shape = {form} {name}_variants"]]

    def union_spec(self, union):
        view, rows = view_name(union), []
        for case, kind in self.cases(union):
            held = self.view(kind)
            rows.append(f"  {case_word(union, case)} : {wrapped(held) if ' × ' in held else held} → {view}")
        forms = {"kinded": self.kinded_spec, "inline": self.inline_spec}
        return [[f"pub data {view} : Type 0 where", *rows], *forms.get(union.representation, self.told_spec)(union)]

    def told_spec(self, union):
        """A union whose members a name or a tag tells."""
        name, view = snake(union.name), view_name(union)
        parts, needs = [], []
        for case, kind in self.cases(union):
            test, shape = f'bytes_eq name (codes "{case.data}")', wrapped(self.shape(kind))
            parts.append((test, f"option_map {case_word(union, case)} ({shape}.view t)"))
            needs.append((test, f"{shape}.need t"))
        return [
            [f"abbrev pub {name}_part : List ℕ → Tree → Option {view}", f"{name}_part name t =", *choice(parts), "    else None"],
            [f"abbrev pub {name}_need : List ℕ → Tree → ℕ", f"{name}_need name t =", *choice(needs), "    else 0"],
            *self.variants_spec(union, view, f"{name}_part", f"{name}_need", self.takes_memory(union)),
        ]

    def kinded_spec(self, union):
        name = snake(union.name)
        held = {case.data: kind for case, kind in self.cases(union)}
        views = [wrapped(self.view(held[kind]) if kind in held else "Unit {0}") for kind in KINDS]
        shapes = [f"  of_{word} = {self.shape(held[kind]) if kind in held else 'no_kind'};" for kind, word in KINDS.items()]
        of_row = [f"{name}_of_row (kinds.{KINDS[case.data].capitalize()} x) = Some ({case_word(union, case)} x)" for case in union.cases]
        if len(held) < len(KINDS):
            of_row.append(f"{name}_of_row _ = None")
        shape = [f"{name}_row_shape = by_kind (record {{", *shapes, "})"]
        return self.finished_spec(name, view_name(union), applied(f"{name}_row = ByKind", views), shape, of_row)

    def unit_spec(self, unit):
        name, view = snake(unit.name), view_name(unit)
        declared = [f"abbrev pub {view} : Type 0", f"{view} = Unit {{0}}"]
        shape = [f"abbrev pub {name}_shape : Shape Tree {view}"]
        if unit.representation == "null":
            return [declared, [*shape, f"{name}_shape = leaf view_null"]]
        true, false = in_order_of(unit, "Some tt", "None")
        of_bool = [f"abbrev pub {name}_of_bool : Bool → Option {view}", f"{name}_of_bool b = if b then {true} else {false}"]
        return [declared, of_bool, [*shape, f"{name}_shape = finishing {name}_of_bool (leaf view_bool)"]]

    def inline_spec(self, union):
        name, members = snake(union.name), members_of(self, union)
        shown = ["List ℕ", *(self.optional_view(one.kind, True) for one in members.row)]
        steps = [f'required_field (codes "{union.discriminant}") (owned_leaf view_text) (']
        steps += [f'omissible_field (codes "{one.field.key}") {wrapped(self.shape(one.kind))} (' for one in members.row]
        of_row, places = [f"{name}_of_row row ="], {one.field.key: one for one in members.row}
        for place, case in enumerate(union.cases):
            of_row.append(f'    {"else " if place else ""}if bytes_eq row.0 (codes "{case.data}") then')
            values = []
            for key, field in members.keys(case).items():
                values.append(places[key].path if field.optional else local_name(places[key].local))
            of_row += members.spec(case, f"{case_word(union, case)} {row_of(values)}")
        shape = shape_rows(f"{name}_row_shape = struct_shape (", steps, "no_fields" if members.open else "no_other_fields")
        return self.finished_spec(name, view_name(union), view_rows(f"{name}_row", shown), shape, [*of_row, "    else None"])

    # ---- the code

    def source(self):
        body = []
        for one in self.definitions:
            body += ["", *self.declared(one)]
        for one in self.types:
            body += getattr(self, maker_name(one))(one)
            body += impl(f"<'de> DeserializeOwned<'de> for {one.name}", ghost("owned", ["refl"]))
        head = [f"//! The types of {self.file}, by ./dagcbor-types. Change that file, and run it again.", ""]
        head += self.imports("\n".join(self.ghost_lines(body)), ghost=True)
        for one in self.types:
            head += split(f"ghost use Rattle.{self.crate}.specs.{self.path}.", self.spec_words(one), ";")
            if isinstance(one, (Enum, Union)):
                head += self.variants_import(one, ghost=True)
        return "\n".join([*head, "", *self.code_imports("\n".join(body)), *body]) + "\n"

    @staticmethod
    def ghost_lines(body):
        """The lines of ghost members, each of which may take several, and of contracts."""
        inside = False
        for line in body:
            inside = inside or line.startswith("    ghost ")
            if inside or line.startswith("    ensures "):
                yield line.replace("ghost View =", "").replace("ghost", "")
            inside = inside and not line.endswith("};")

    @staticmethod
    def code_imports(text):
        text = "\n".join(line for line in text.split("\n") if "///" not in line)
        text = re.sub(r'"[^"]*"|ByKind::[A-Z]\w*', "ByKind" if "ByKind::" in text else "", text)
        words = {"Global", *re.findall(r"\w+", text)}
        made = []
        for home, there in HOMES.items():
            used = [word for word in there.split() if word in words]
            if used:
                made += filled(f"use {home}::", used, ";")
        return made

    def declared(self, one):
        """The lines that declare the type, with its text."""
        text = documented(one.text, 0)
        if isinstance(one, Alias):
            return text + typed(f"pub type {one.name} = ", self.code(one.of, aliases=True), 0, ";")
        if isinstance(one, Enum):
            return [*text, *PLAIN, f"pub enum {one.name} {{", *(f"    {member.name}," for member in one.members), "}"]
        if isinstance(one, Unit):
            return [*text, *PLAIN, f"pub struct {one.name};"]
        rows = []
        if isinstance(one, Union):
            for case, kind in self.cases(one):
                is_whole = one.representation == "kinded" and isinstance(kind, Int)
                rows.append(f"    {case.name}({self.code(kind if is_whole else case.type, aliases=True)}),")
            return [*text, "#[derive(Debug, Drop)]", f"pub enum {one.name} {{", *rows, "}"]
        for field in one.fields:
            kind = self.code(field.type, aliases=True)
            rows += documented(field.text, 4)
            rows += typed(f"pub {field_name(field.name)}: ", f"Option<{kind}>" if field.optional else kind, 4, ",")
        body = [f"pub struct {one.name} {{", *rows, "}"] if rows else [f"pub struct {one.name} {{}}"]
        return [*text, "#[derive(Debug, Drop)]", *body]

    # -- structs

    def struct_map(self, struct):
        kinds = self.fields(struct)
        by_key = sorted(kinds, key=lambda row: key_order(row[0].key))
        tree = [self.entry_tree(field, kind, self.written_value(field, kind)) for field, kind in by_key]
        groups = written_groups(self, struct, by_key) if len(kinds) > MOST_FIELDS else []
        made = [line for group in groups for line in group.items()]
        write = self.map_written(kinds, by_key, groups)
        made += self.written_impls(struct, nested("λ v. entries_tree (", tree, "[]"), write, self.struct_meaning(struct))
        return made + (self.implied_impls(struct) if has_implied(struct) else self.map_read(struct))

    def map_read(self, struct):
        """The impl that reads a struct that is a map, after the groups in which it is read, if there are several."""
        read = read_by(struct, "read_struct", [field.key for field in struct.fields], is_row=True)
        end, few, made = end_of(struct), self.schema.row_groups(struct), []
        if len(few) == 1:
            read += apart(row_patterns(self.fields(struct)), end)
        else:
            groups, row = groups_of(self, struct, few)
            made = [line for group in groups for line in group.items()]
            read += apart([f"({group.word}, {{}})" for group in row], end)
            read += [line for group in reversed(groups) for line in group.apart()]
        return made + self.deserialize_impl(struct, [*read, *construct("Ok(", struct, ")")])

    def entry_tree(self, field, kind, value, forms=("field {} ∷", "optional {} (")):
        """What a field is in the tree of its map: in the first form, or in the second if it may be absent."""
        held = f"{self.tree_of(kind)} {value}" if may_lack(field) else f"({self.tree(kind, value)})"
        return forms[may_lack(field)].format(f'(codes "{field.key}") {held}')

    @staticmethod
    def written_value(field, kind):
        """In specs, what is written for a field of `v`."""
        value = f"v.{field_name(field.name)}"
        return value if field.implicit is None else f"(unless_implicit {equal_to(kind, field.implicit.value)} {value})"

    def map_written(self, kinds, by_key, groups):
        """The lines that write a struct that is a map: in groups, if it has any."""
        made = []
        for field, kind in kinds:
            if field.implicit is not None:
                made += self.omitted(field, kind)
        if groups:
            made += [*lines(all_groups(groups), 8, ";"), "        let row = InGroups(self, groups);"]
        else:
            holders = ["self." if field.implicit is None else "" for field, _ in by_key]
            made += written_row([entry(field, holder + field_name(field.name)) for holder, (field, _) in zip(holders, by_key)], 8)
        return [*made, "        write_struct(alloc, row, ser)"]

    @staticmethod
    def omitted(field, kind):
        """What is written for a field that is left out if it has its implicit value."""
        name = field_name(field.name)
        return lines(Group(f"let {name} = {omit(kind)}(", [f"&self.{name}", meant(kind, field.implicit.value)], ")"), 8, ";")

    def implied_impls(self, struct):
        """A struct that is made from a row in which fields with implicit values may be left out."""
        kinds, end = self.fields(struct), end_of(struct)
        of = apart(row_patterns(kinds), end, "parts")
        for field, kind in kinds:
            if field.implicit is not None:
                value = meant(kind, field.implicit.value)
                of += matched(field_name(field.name), [f"None => {value},", f"Some({value}) => return None,", "Some(x) => x,"])
        parts = joined([*(f"{form(field)}<{self.code(kind)}>" for field, kind in kinds), end])
        seen = [self.optional_meaning(kind, may_lack(field), f"v{'.1' * place}.0.0") for place, (field, kind) in enumerate(kinds)]
        of += construct("Some(", struct, ")")
        read = read_by(struct, "read_struct", [field.key for field in struct.fields])
        return self.made_impls(struct, parts, pairs_of(seen), self.struct_meaning(struct), read, of)

    def struct_meaning(self, struct):
        rows = []
        for field, kind in self.fields(struct):
            rows.append(self.optional_meaning(kind, field.optional, f"v.{field_name(field.name)}"))
        return pairs_of(rows)

    def struct_tuple(self, struct):
        tree, write = [], []
        for field, kind in self.fields(struct):
            name = field_name(field.name)
            if field.optional:
                tree.append(f"optional_part {self.tree_of(kind)} v.{name} (")
            else:
                tree.append(f"{self.tree(kind, f'v.{name}')} ∷")
            write.append(Group("OptionalPart(" if field.optional else "Part(", [f"&self.{name}"], ")"))
        count = len(write)
        read = [f"        let row = read_tuple(alloc, {count}, de)?;", *apart(item_patterns(struct), "()")]
        read += construct("Ok(", struct, ")")
        write = [*written_row(write, 8), f"        write_parts(alloc, {count}, row, ser)"]
        return [
            *self.written_impls(struct, nested("λ v. list_tree (", tree, "[]"), write, self.struct_meaning(struct)),
            *self.deserialize_impl(struct, read),
        ]

    def struct_listpairs(self, struct):
        kinds = self.fields(struct)
        names = [field_name(field.name) for field in struct.fields]
        tree, write, seen = [], [], []
        of = apart(item_patterns(struct), "()", "parts")
        for place, (name, (field, kind)) in enumerate(zip(names, kinds)):
            tree.append(f'list_tree (Some (text (codes "{field.key}")) ∷ {self.tree(kind, f"v.{name}")} ∷ []) ∷')
            write += lines(Group(f"let {name} = (", [f'"{field.key}"', f"&self.{name}"], ")"), 8, ";")
            of += lines(Group(f"let {name} = of_name(", [name, f'"{field.key}"'], ")?"), 8, ";")
            seen.append(f"⟦<(String, {self.code(kind)}) as Shown>⟧.meaning v{'.1' * place}.0")
        parts = joined([*(f"(String, {self.code(kind)})" for _, kind in kinds), "()"])
        write += [*written_row([f"Part(&{name})" for name in names], 8), f"        write_parts(alloc, {len(kinds)}, row, ser)"]
        read, meaning = [f"        read_tuple(alloc, {len(kinds)}, de)"], self.struct_meaning(struct)
        return [
            *self.written_impls(struct, nested("λ v. list_tree (", tree, "[]"), write, meaning),
            *self.made_impls(struct, parts, pairs_of(seen), meaning, read, [*of, *construct("Some(", struct, ")")]),
        ]

    # -- enums

    def omit_enum(self, enum):
        """What is written for a field of the enum that is left out if it has its implicit value."""
        if enum.name not in self.implied:
            return []
        name = snake(enum.name)
        head = Group(f"fn omit_{name}(", [f"value: &{enum.name}", f"implicit: {enum.name}"], f") -> Option<{enum.name}>", WIDTH)
        ensures = f"    ensures {{ result ≡ unless_implicit {name}_eq implicit value.now }}"
        return ["", *lines(head, 0), ensures, "{", "    omit_implicit(value, implicit)", "}"]

    def enum_impls(self, enum, tree, write):
        """The impls that write a member: by what makes its tree, and by the call that writes it."""
        trees = [f"{alias(enum)}.{member.name} ↦ Some ({tree.format(member.data)})" for member in enum.members]
        arms = [line for place, member in enumerate(enum.members) for line in arm(f"{enum.name}::{member.name}", write(place, member), 12)]
        return self.written_impls(enum, cases_of(trees), match("self", arms), ["λ v. v"], alloc="_alloc")

    def enum_string(self, enum):
        def write(place, member):
            return Group("ser.serialize_unit_variant(", [f'"{enum.name}"', str(place), f'"{member.data}"'], ")")

        read = []
        for member in enum.members:
            made = lines(Group("Ok(", [f"{enum.name}::{member.name}"], ")", WIDTH), 16)
            read += text_arm(member.data, "                variant.unit_variant(de)?;", *made)
        return [
            *self.enum_impls(enum, 'text (codes "{}")', write),
            *self.variants_impl(enum, ["λ v. v"], match("name", [*read, UNKNOWN]), alloc="_alloc"),
            *self.deserialize_impl(enum, read_by(enum, "read_enum", [member.data for member in enum.members])),
            *self.omit_enum(enum),
        ]

    def enum_int(self, enum):
        def write(place, member):
            return Group("ser.serialize_u64(", [str(member.data)], ")")

        of = []
        for member in enum.members:
            of += arm(str(member.data), Group("Some(", [f"{enum.name}::{member.name}"], ")", WIDTH), 12)
        told = [ghost("View", [view_name(enum)]), ghost("meaning", ["λ v. v"]), ghost("told", [f"{snake(enum.name)}_of_number"])]
        of_number = function("of_number", ["number: u64"], f"Option<{enum.name}>", match("number", [*of, NONE]))
        return [
            *self.enum_impls(enum, "integer (pos {})", write),
            *impl(f" Numbered for {enum.name}", *told, of_number),
            *self.deserialize_impl(enum, ["        read_numbered(alloc, de)"]),
            *self.omit_enum(enum),
        ]

    # -- units

    def unit_impls(self, unit, tree, call):
        return self.written_impls(unit, [f"λ v. Some {tree}"], [f"        ser.{call}"], ["λ v. tt"], alloc="_alloc")

    def unit_null(self, unit):
        read = ["        let () = Deserialize::deserialize(alloc, de)?;", f"        Ok({unit.name})"]
        return self.unit_impls(unit, "null", "serialize_unit()") + self.deserialize_impl(unit, read)

    def unit_true(self, unit):
        word = unit.representation
        true, false = in_order_of(unit, f"Some({unit.name})", "None")
        of = [f"        if parts {{ {true} }} else {{ {false} }}"]
        if len(of[0].strip()) > SHORT_IF:
            of = ["        if parts {", f"            {true}", "        } else {", f"            {false}", "        }"]
        read, seen = ["        bool::deserialize(alloc, de)"], ("Bool", "leaf view_bool", f"{snake(unit.name)}_of_bool")
        return [
            *self.unit_impls(unit, f"(boolean {word})", f"serialize_bool({word})"),
            *self.made_impls(unit, "bool", ["λ b. b"], ["λ v. tt"], read, of, seen),
        ]

    unit_false = unit_true

    # -- unions

    def union_impls(self, union, trees, write):
        """The impls that write a member: by the trees of the members, and by the lines of each member's arm."""
        trees = [f"{alias(union)}.{case.name} x ↦ {tree}" for case, tree in zip(union.cases, trees)]
        arms = [line for place, case in enumerate(union.cases) for line in write(place, case)]
        return self.written_impls(union, cases_of(trees), match("self", arms), self.union_meaning(union))

    def union_meaning(self, union):
        rows = []
        for case, kind in self.cases(union):
            rows.append(f"{alias(union)}.{case.name} x ↦ {case_word(union, case)} {wrapped(self.meaning(kind, 'x'))}")
        return cases_of(rows)

    def union_inline(self, union):
        members = members_of(self, union)
        parts = joined(["Required<String>", *members.types(), end_of(members)])
        of = apart([f"({word}, {{}})" for word in ("Required(tag)", *members.words())], end_of(members), "parts")
        arms = [line for case in union.cases for line in self.inline_made(union, case, members)]
        of += match("tag.as_str()", [*arms, NONE])
        read = read_by(union, "read_struct", [union.discriminant, *(one.field.key for one in members.row)])
        trees = [self.inline_tree(union, case) for case in union.cases]

        def write(place, case):
            return block_arm(f"{union.name}::{case.name}(x)", lambda at: self.inline_written(union, case, at), 12)

        seen, meaning = pairs_of(["string_bytes v.0.0", *members.shown()]), self.union_meaning(union)
        return [
            *members.items(),
            *self.union_impls(union, trees, write),
            *self.made_impls(union, parts, seen, meaning, read, of),
        ]

    def inline_tree(self, union, case):
        rows = []
        for field, kind in self.inline_order(union, case):
            if field is None:
                rows.append(f'field (codes "{union.discriminant}") (Some (text (codes "{case.data}"))) ∷')
            else:
                rows.append(self.entry_tree(field, kind, f"x.{field_name(field.name)}"))
        return "\n".join(nested("entries_tree (", rows, "[]", 10))

    def inline_order(self, union, case):
        """The fields of a member in the order of their keys, with None for the entry that tells the member."""
        fields = [*self.fields(self.schema.case_struct(case)), (None, None)]
        return sorted(fields, key=lambda row: key_order(row[0].key if row[0] else union.discriminant))

    def inline_written(self, union, case, at):
        parts = []
        for field, _ in self.inline_order(union, case):
            tag = Group("Field(", [f'"{union.discriminant}"', "&tag"], ")")
            parts.append(entry(field, f"x.{field_name(field.name)}") if field else tag)
        return tagged_row(case, parts, at)

    @staticmethod
    def inline_made(union, case, members):
        """The arm that makes a member from what was read."""
        locals_by_key, words = {one.field.key: one.local for one in members.row}, []
        for key, field in members.keys(case).items():
            word, local = field_name(field.name), locals_by_key[key]
            words.append(word if word == local else f"{word}: {local}")
        struct = lines(struct_of("let x = ", members.schema.case_struct(case).name, words, ""), 16, ";")
        return text_arm(case.data, *members.made(case), *struct, *lines(made_case("Some(", union, case), 16))

    def union_keyed(self, union):
        trees = [f'variant_tree (codes "{case.data}") ({self.tree(kind, "x")})' for case, kind in self.cases(union)]

        def write(place, case):
            given = ["alloc", f'"{union.name}"', str(place), f'"{case.data}"', "x"]
            return arm(f"{union.name}::{case.name}(x)", Group("ser.serialize_newtype_variant(", given, ")"), 12)

        return [
            *self.union_impls(union, trees, write),
            *self.variants_impl(union, self.union_meaning(union), told_arms(union, "name", "variant.newtype_variant(alloc, de)?")),
            *self.deserialize_impl(union, read_by(union, "read_enum", [case.data for case in union.cases])),
        ]

    def union_kinded(self, union):
        kinds, of = {case.data: self.code(kind) for case, kind in self.cases(union)}, []
        for case in union.cases:
            of += arm(f"ByKind::{KINDS[case.data].capitalize()}(x)", made_case("Some(", union, case), 12)
        of += [f"            ByKind::{word.capitalize()}(_) => None," for kind, word in KINDS.items() if kind not in kinds]
        parts = f"ByKind<{', '.join(kinds.get(kind, 'NoKind') for kind in KINDS)}>"

        def write(place, case):
            return arm(f"{union.name}::{case.name}(x)", Group("x.serialize(", ["alloc", "ser"], ")"), 12)

        return [
            *self.union_impls(union, [self.tree(kind, "x") for _, kind in self.cases(union)], write),
            *self.made_impls(union, parts, [f"⟦<{parts} as Shown>⟧.meaning"], self.union_meaning(union),
                             ["        ByKind::deserialize(alloc, de)"], match("parts", of)),
        ]

    def union_envelope(self, union):
        trees = []
        for case, kind in self.cases(union):
            tag = f'field (codes "{union.discriminant}") (Some (text (codes "{case.data}")))'
            trees.append(f'entries_tree ({tag} ∷\n          field (codes "{union.content}") ({self.tree(kind, "x")}) ∷ [])')
        entries = [Group("Field(", [f'"{key}"', value], ")") for key, value in ((union.discriminant, "&tag"), (union.content, "x"))]

        def write(place, case):
            return block_arm(f"{union.name}::{case.name}(x)", lambda at: tagged_row(case, entries, at), 12)

        keys = [f'"{union.discriminant}"', f'"{union.content}"']
        return [
            *self.union_impls(union, trees, write),
            *self.enveloped_impl(union, told_arms(union, "tag", "entries.next_value(alloc, de)?")),
            *self.deserialize_impl(union, lines(Group("read_enveloped(", ["alloc", *keys, "de"], ")"), 8)),
        ]

    # -- the forms of an impl

    def written_impls(self, one, tree, write, meaning, alloc="alloc"):
        """The impls that write a type and say what it means: its tree, and the lines that write it."""
        takes = "true" if self.writing_takes_memory(Named(one.name, one.place)) else "false"
        parameters = ["&self", f"{alloc}: Global", "ser: &mut Serializer<W>"]
        serialize = function("serialize<W: Write>", parameters, "WriteResult<(), W>", write)
        return [
            *impl(f" Serialize for {one.name}", ghost("tree", tree), ghost("takes_memory", [takes]), serialize),
            *impl(f" Shown for {one.name}", *seen_as(one, meaning, "shape")),
        ]

    @staticmethod
    def deserialize_impl(one, body):
        read = function("deserialize<R: Read>", ["alloc: Global", DE], "ReadResult<Self, R>", body)
        return impl(f"<'de> Deserialize<'de> for {one.name}", read)

    @staticmethod
    def variants_impl(one, meaning, body, alloc="alloc"):
        parameters = [f"{alloc}: Global", "name: &str", "variant: EnumAccessor", DE]
        tactic = ["    #[tactic(auto, using(dagcbor_read::proofs::NamedVariants::held_refused))]"] if alloc == "alloc" else []
        read = function("read_variant<R: Read>", parameters, f"ReadResult<{one.name}, R>", body)
        return impl(f"<'de> Variants<'de> for {one.name}", *seen_as(one, meaning, "variants"), [*tactic, *read])

    def enveloped_impl(self, one, body):
        parameters = ["alloc: Global", "tag: &str", "entries: &mut Accessor<'de>", DE]
        tactic = "    #[tactic(auto, using(types_schema::proofs::EnvelopeFronts::content_not_read))]"
        read = function("read_content<R: Read>", parameters, f"ReadResult<{one.name}, R>", body)
        return impl(f"<'de> Enveloped<'de> for {one.name}", *seen_as(one, self.union_meaning(one), "variants"), [tactic, *read])

    def made_impls(self, one, parts, parts_meaning, meaning, read, of, seen=None):
        """The impls that read a type in parts: what these are and mean, the lines that read them, and those that make the value."""
        name = snake(one.name)
        view, shape, made = seen or (f"{name}_row", f"{name}_row_shape", f"{name}_of_row")
        return [
            *impl(
                f"<'de> FromParts<'de> for {one.name}",
                typed("type Parts = ", parts, 4, ";"),
                ghost("PartsView", [view]),
                ghost("parts_meaning", parts_meaning),
                ghost("parts_shape", [shape]),
                ghost("View", [view_name(one)]),
                ghost("meaning", meaning),
                ghost("made", [made]),
                function("read_parts<R: Read>", ["alloc: Global", DE], "ReadResult<Self::Parts, R>", read),
                function("from_parts", ["parts: Self::Parts"], f"Option<{one.name}>", of),
            ),
            *self.deserialize_impl(one, ["        read_from_parts(alloc, de)"]),
        ]

    # ---- proofs

    def answers(self):
        """The answers that the search does not find, for each function, by the folder of its proof."""
        answers = {
            "struct_map": [self.implied_answers],
            "struct_listpairs": [self.pairs_answers],
            "enum_string": [self.enum_answers],
            "union_keyed": [self.variant_answers, self.one_member_answers, self.arm_answers],
            "union_inline": [self.text_answers, self.one_member_answers, self.arm_answers],
            "union_envelope": [self.content_answers, self.arm_answers],
        }
        made = {}
        for one in self.types:
            for answer in answers.get(maker_name(one), []):
                made |= answer(one)
        return made

    def file_of(self, one, function, about, uses, rows):
        """The file of a function's answers, by its folder, or None if there are none."""
        place = f"{self.name}.{one.name}{function}"
        head = [f"-- {about}, of {self.file}, by ./dagcbor-types.", *uses, f"use Rattle.{self.crate}.proofs.{place}.Goals as goal"]
        return {place.replace(".", "/"): "\n".join([*head, *rows]) + "\n"} if rows else {}

    def implied_answers(self, struct):
        """The answers for writing a struct in which a field has an implicit value."""
        if not has_implied(struct):
            return {}
        calls = [f"c.{omit(kind)}-{field_name(field.name)}.ensures" for field, kind in self.fields(struct) if field.implicit is not None]
        steps, rows = "".join(f"rw (sym {call}) (" for call in calls), []
        for clause in ("written", "well_formed") if len(struct.fields) > SEARCHED_FIELDS else ("written",):
            rows += answer(f"returns-clause-{clause}", f"{steps}c.write_struct.ensures.{clause}{')' * len(calls)}")
        uses = ["use Rattle.std.proofs.Common.{sym}"]
        return self.file_of(struct, "Serialize.serialize", f"What writes {struct.name}", uses, rows)

    def arm_answers(self, union):
        """The arms that write a union that is told by a tag. Also those of a keyed union with a long text, or with a member that is a
        link or bytes, which the search takes apart."""
        taken_apart = any(self.code(kind) in ("Cid", "Bytes") for _, kind in self.cases(union))
        is_searched = not taken_apart and all(len(case.data) <= LONG_TEXT for case in union.cases)
        is_keyed = union.representation == "keyed"
        if len(union.cases) < 2 or (is_keyed and is_searched):
            return {}
        rows = arm_rows(union.cases, union.cases, "serialize_newtype_variant" if is_keyed else "write_struct")
        return self.file_of(union, "Serialize.serialize", f"The arms that write {union.name}", [], rows)

    def enum_answers(self, enum):
        """The arms that write a long text."""
        long = [member for member in enum.members if len(member.data) > LONG_TEXT and len(enum.members) > 1]
        rows = arm_rows(enum.members, long, "serialize_unit_variant")
        return self.file_of(enum, "Serialize.serialize", f"The arms that write long texts of {enum.name}", [], rows)

    def pairs_answers(self, struct):
        """The result of reading a list of pairs with a link, which the search takes apart: each pair has its field's name and its value."""
        kinds = [self.code(kind) for _, kind in self.fields(struct)]
        if len(kinds) < 2 or not any("Cid" in kind for kind in kinds):
            return {}
        signed = any(re.search(r"\bi[0-9]", kind) for kind in kinds)  # which the goal takes through the machine's words
        end, word = ("(search rules)", "rules") if signed else ("refl", "refl")
        steps, opened = [], ""
        for number, field in enumerate(struct.fields, 1):
            call = f"c.of_name{f'-{number}' if number > 1 else ''}.ensures"
            steps.append(f"    let taken{number} = taken_under _ _ _ (sym {call} ∙ c.in_ok-{field_name(field.name)}.was) in")
            opened += f"rw (taken{number}.0, taken{number}.1) ("
        uses = [f"use Rattle.std.proofs.Common.{{◌∙◌, {word}, sym}}", "use Rattle.types_schema.proofs.PairNames.{taken_under}"]
        rows = ["", "pub returns : goal.returns", "returns c =", *steps, f"    {opened}{end}{')' * len(steps)}"]
        return self.file_of(struct, "FromParts.from_parts", f"What the pairs of {struct.name} make", uses, rows)

    @staticmethod
    def arm_words(union):
        """The prover's names for the arms of a match on the members' texts, or None if two could have the same name."""
        words, others = [], 0
        for case in union.cases:
            if re.fullmatch(r"[A-Za-z]\w*", case.data, re.ASCII):
                words.append(case.data)
            elif not case.data:
                words.append("empty")
            else:
                others += 1
                words.append("text" if others == 1 else f"text-{others}")
        return words if len(set(words)) == len(words) else None

    def text_answers(self, union):
        """For a union of many fields, or with a list of lists or the like: the arm of texts that are not a member's. The search
        unfolds the row first."""
        words, members = self.arm_words(union), members_of(self, union)
        if words is None or not (members.is_wide or any(is_deep(one.kind) for one in members.row)):
            return {}
        steps = [
            f'    rw (other_name {{name = codes "{case.data}"}} (λ e. c.in_default.not-{word} (c.as_str.ensures.value ∙ e))) ('
            for case, word in zip(union.cases, words)
        ]
        uses = ["use Rattle.std.proofs.Common.{◌∙◌, refl, codes}", "use Rattle.dagcbor_read.proofs.FieldPlaces.{other_name}"]
        rows = ["", "pub returns : goal.returns", "returns c =", *steps, f"    refl{')' * len(steps)}"]
        return self.file_of(union, "FromParts.from_parts", f"A text that tells no member of {union.name}", uses, rows)

    def content_answers(self, union):
        """The proofs that what a member holds is refused. If its tag is a word, or there are many members, also that it is read. If
        there are many, or one has a long row, also those of other tags. The search finds the rest."""
        words, tags = self.arm_words(union), [case.data for case in union.cases]
        many = len(union.cases) > SEARCHED_MEMBERS and words is not None
        untold = words is not None and (many or any(map(self.has_long_row, union.cases)))
        plain = [case for case in union.cases if many or re.fullmatch(r"[a-z][a-z_]*", case.data) and case.data not in RESERVED]
        cases = plain if words is None else union.cases
        words = dict(zip(tags, words or tags))
        rows = []
        for case in cases:
            # An integer the goal takes through the machine's words: the search finds it.
            if case in plain and not isinstance(self.case_kind(union, case), Int):
                rows += self.content_read(union, case, words[case.data])
            rows += self.content_refused(union, case, words[case.data])
        if untold:
            rows += self.untold_rows(union, words)
        uses = self.union_uses(union, rows, [f"{snake(union.name)}_part"] if untold else [], cases)
        lemmas = [word for word in ("content_shown", "content_handed_on") if any(word in row for row in rows)]
        uses += split("use Rattle.types_schema.proofs.EnvelopeFronts.", lemmas, "")
        if untold:
            uses += ["use Rattle.dagcbor_read.proofs.FieldPlaces.{other_name}", *UNTOLD_USES]
        return self.file_of(union, "Enveloped.read_content", f"The members of {union.name}", uses, rows)

    def union_uses(self, union, rows, words, cases):
        """What the answers of a union use of the specs: of the library, and of its own."""
        text, name = "\n".join(rows), snake(union.name)
        shapes = sorted(set(re.findall(r"\w+_shape", text)))
        own = [f"{name}_variants", *words, *(case_word(union, case) for case in cases), *shapes]
        return self.imports(text, ghost=False) + split(f"use Rattle.{self.crate}.specs.{self.path}.", own, "")

    def member_words(self, union, case):
        """What a lemma is given of a member: how it is made, and what a tree shows to what it holds."""
        shape = wrapped(self.shape(self.case_kind(union, case)))
        return f"{snake(union.name)}_variants (λ x. {case_word(union, case)} x) {shape} g.row.R-Error.Denot _"

    def takes_memory(self, union):
        """Returns true if reading a member may take memory."""
        return any(self.reading_takes_memory(kind) for _, kind in self.cases(union))

    def content_read(self, union, case, word):
        """The proof that what a member holds is read."""
        head, told = self.member_words(union, case), f'(codes "{case.data}")'
        shown = f"    content_shown {head} _ _ {told} _ _ c.in-{word}.is (λ t. refl) (λ t. refl) sound c.in_ok-x-in-{word}.ensures.value"
        return answer(f"returns-in_ok-x-in-{word}-clause-value", "λ sound.", shown)

    def content_refused(self, union, case, word):
        """The proof that what a member holds is refused."""
        head, told = self.member_words(union, case), f'(codes "{case.data}")'
        behind = residual(union, case, word)
        lacks = "refl" if self.takes_memory(union) else "h"
        handed_on = (
            f"    content_handed_on {head} _ _ _ _ {told} _ _ c.from_residual{behind}.ensures.1 c.in-{word}.is (λ t. refl) (λ t. refl)"
            f" (λ h. h) (λ lends h. {lacks}) sound c.in_err-x-in-{word}.ensures.value"
        )
        return answer(f"returns-in_err-x-in-{word}-clause-value", "λ sound.", handed_on)

    def has_long_row(self, case):
        """Returns true if the member is an inline union of many fields."""
        one = self.schema.named(self.schema.resolve(case.type))
        return is_a(one, "union_inline") and len(self.schema.row_of(one)) > LONG_ROW

    def variant_answers(self, union):
        """For a keyed union, the proof that what a member holds was refused. The search finds the rest."""
        words = self.arm_words(union)
        if words is None:
            return {}
        lacks, rows = "refl" if self.takes_memory(union) else "h", []
        for case, word in zip(union.cases, words):
            behind = residual(union, case, word)
            rows += answer(
                f"returns-in_err-x-in-{word}-clause-variant",
                "",
                f"    held_handed_on {self.member_words(union, case)} _ _ (enum_state c.args.variant) _ _"
                f' (codes "{case.data}") _ _ c.from_residual{behind}.ensures.1 c.in-{word}.is',
                f"    refl (λ t. refl) (λ t. refl) (λ h. h) (λ lends h. {lacks}) c.requires.sound c.in_err-x-in-{word}.ensures.part",
            )
        uses = self.union_uses(union, rows, [], union.cases)
        uses += ["use Rattle.dagcbor_read.specs.Enums.{enum_state}", "use Rattle.types_schema.proofs.VariantFronts.{held_handed_on}"]
        return self.file_of(union, "Variants.read_variant", f"The members of {union.name} whose values are refused", uses, rows)

    def one_member_answers(self, union):
        """The answers for writing a union of one member, by its name or inside its map: no arm says that the value is that member."""
        if len(union.cases) != 1:
            return {}
        keyed = union.representation == "keyed"
        variant = f"{alias(union)}.{union.cases[0].name}"
        rows = [
            "",
            f"held : (v : {union.name}) → (x : _) × (v ≡ {variant} x)",
            f"held ({variant} x) = (x, refl)",
            "",
            "of : {H G : Type 0} → H → (H → G) → G",
            "of h g = g h",
        ]
        call = "serialize_newtype_variant" if keyed else "write_struct"
        for clause in ("written", "well_formed") if keyed else ("written",):
            rows += answer(f"returns-clause-{clause}", f"of c.{call}.ensures.{clause} (rw (held c.args.self.now).1 (λ h. h))")
        declared = f"use Rattle.{self.crate}.specs.declared.{self.name}.{union.name}"
        uses = [
            "use Rattle.std.proofs.Common.{◌≡◌, refl}",
            f"{declared}.{{{union.name}}}",
            f"{declared}.TheVariants as {alias(union)}",
        ]
        return self.file_of(union, "Serialize.serialize", f"What writes the one member of {union.name}", uses, rows)

    @staticmethod
    def untold_rows(union, words):
        """The proof that no content is read after a tag that is no member's."""
        name = snake(union.name)
        tests = [f'(k ≡ codes "{tag}" → ⊥)' for tag in words]
        places = " ".join(f"n{place}" for place in range(len(words)))
        steps = "".join(f'rw (other_name {{name = codes "{tag}"}} n{place}) (' for place, tag in enumerate(words))
        others = " ".join(f"c.in_default.not-{word}" for word in words.values())
        return [
            "",
            f"untold : (k : List ℕ) → {' → '.join(tests)} → (t : Tree) → {name}_part k t ≡ None",
            f"untold k {places} t = {steps}refl{')' * len(words)}",
            *REFUSED,
            *answer(
                "returns-in_default-clause-value",
                "λ sound. refused _ _ _ _ _ _ c.custom.ensures.1",
                f"    (λ h. absurd (cc (subst (λ o. is_some o ≡ true) (untold c.args.tag.now {others} h.tree) h.accepted)))",
            ),
        ]


# The kinds of data, as for a kinded union, in the words of specs. With a capital they are the variants of `ByKind`.
KINDS = {"bool": "bool", "int": "integer", "string": "text", "bytes": "bytes", "list": "list", "map": "map", "link": "link"}

SEARCHED_MEMBERS = 3  # of an envelope: how many arms the search proves
UNTOLD_USES = [
    "use Rattle.std.proofs.Common.{◌≡◌, subst, sym}",
    "use Rattle.std.specs.Prelude.{is_some}",
    "use Rattle.serde_ipld_dagcbor.specs.Reading.{Reading}",
    "use Rattle.serde_ipld_dagcbor.specs.Refusals.{Refuses}",
    "use Rattle.serde_ipld_dagcbor.specs.DecodeError.{DecodeError}",
    "use Rattle.serde_ipld_dagcbor.specs.DecodeError.TheVariants.{Msg}",
    "use Rattle.serde_ipld_dagcbor.specs.declared.Name.{Name}",
    "use Rattle.serde_ipld_dagcbor.specs.TypedReads.{Anything}",
]
REFUSED = [
    "",
    "refused : {E : Type 0} (could L B : Type 0) (r : Reading) (message : Name) (e : DecodeError E) → e ≡ Msg message → (could → ⊥) → Refuses could L B Anything r e r",
    "refused {E} could L B r message e is never = subst (λ x. Refuses {E = E} could L B Anything r x r) (sym is) (refl, never, λ b l. tt)",
]
SEARCHED_FIELDS = 6  # of a struct with implicit fields: how many the search proves well formed
LONG_ROW = 5  # an inline member's row: if it is longer, the search does not find that other tags are refused
LONG_TEXT = 7  # a member's text: if it is longer, the search does not find what writes it


def is_deep(kind):
    """Returns true if it has a list or a map of nullables, lists or maps."""
    inner = parts(kind)
    holds = isinstance(kind, (ListOf, MapOf)) and any(isinstance(part, (ListOf, MapOf, Nullable)) for part in inner)
    return holds or any(map(is_deep, inner))


def is_made(struct):
    """Returns true if the struct is made from a row that is read in another form."""
    return has_implied(struct) or struct.representation == "listpairs"


def has_implied(struct):
    return any(field.implicit is not None for field in struct.fields)


def meant(kind, value):
    """In code, the implicit value of a field."""
    if isinstance(value, Member):
        return f"{kind.name}::{value.name}"
    return str(value).lower() if isinstance(value, bool) else str(value)


def omit(kind):
    """The function that leaves out the implicit value."""
    return f"omit_{snake(kind.name)}" if isinstance(kind, Named) else "omit_implicit"


def equal_to(kind, value):
    """In specs, the equality of a type, and an implicit value."""
    if isinstance(value, Member):
        return f"{snake(kind.name)}_eq in_{snake(kind.name)}.{value.name}"
    if not isinstance(kind, Int):
        return f"beq {meant(kind, value)}"
    if kind.width[0] == "u":
        return f"nat_eq {value}"
    return f"int_eq (pos {value})" if value >= 0 else f"int_eq (neg_ℤ (pos {-value}))"


def applied(head, words):
    """A type with these parameters, on as many lines as it takes."""
    made, line = [], head
    for word in words:
        if len(f"{line} {word}") > WIDTH:
            made.append(line)
            line = "   "
        line += f" {word}"
    return [*made, line]


def shows_itself(one):
    return isinstance(one, Enum)


def view_name(one):
    return one.name if shows_itself(one) else f"{one.name}View"


def alias(one):
    """The name of an enum's variants in ghost lines and specs."""
    return f"in_{snake(one.name)}"


def case_word(union, case):
    return f"{snake(union.name)}_is_{snake(case.name)}"


def local_name(word):
    """A local name in specs: the sign keeps it from being antt's own word."""
    return word + "'"


def in_order_of(unit, this, other):
    """What stands for true, and for false: this, if it is the unit's value."""
    return (this, other) if unit.representation == "true" else (other, this)


def key_order(key):
    return len(key), key


def nested(head, rows, end, indent=8):
    """A row of parts, some of which open a parenthesis, as does the head. The end closes them all."""
    if not rows:
        return [f"{head}{end})"]
    *before, last = (" " * indent + row for row in rows)
    opened = 1 + sum(row.endswith("(") for row in before)
    return [head, *before, f"{last.removesuffix(' (')} {end}{')' * opened}"]


def shape_rows(head, steps, end):
    """The steps of a shape."""
    return nested(head, steps, end, 4) if steps else [head, f"    {end})"]


def choice(rows):
    """A choice in specs by tests, each with its result. The result for all else comes after it."""
    return [f"    {'else ' if place else ''}if {test} then {made}" for place, (test, made) in enumerate(rows)]


def answer(goal, first, *others):
    """The answer of a goal, if it is one of a row."""
    return ["", f"pub {goal} : goal.{goal}", f"{goal} g c = {first}".rstrip(), *others]


def arm_rows(members, some, call):
    """The answers of the arms that write some of the members, each by a call."""
    rows = []
    for one in some:
        behind = "" if one is members[0] else f"-in-{one.name}"
        rows += answer(f"returns-in-{one.name}-clause-written", f"rw c.in-{one.name}.is c.{call}{behind}.ensures.written")
    return rows


def residual(union, case, word):
    """The prover's name for what makes a member's error: that of the first has no word after it."""
    return "" if case is union.cases[0] else f"-in_err-x-in-{word}"


def match(value, arms):
    return [f"        match {value} {{", *arms, "        }"]


def text_arm(text, *rows):
    """An arm of a `match` on a text."""
    return [f'            "{text}" => {{', *rows, "            }"]


def told_arms(union, value, read):
    """A `match` on what tells the member. Each arm makes a member from what is read."""
    arms = []
    for case in union.cases:
        arms += text_arm(case.data, f"                let x = {read};", *lines(made_case("Ok(", union, case), 16))
    return match(value, [*arms, UNKNOWN])


def made_case(head, union, case):
    """A member of `x`, in a call with it."""
    return Group(head, [Group(f"{union.name}::{case.name}(", ["x"], ")")], ")", WIDTH)


def struct_of(before, name, words, behind):
    """A struct that is made from its fields, and what stands around it."""
    return Group(f"{before}{name} {{", words, f"}}{behind}", INSIDE_STRUCT) if words else f"{before}{name} {{}}{behind}"


def read_by(one, call, names, is_row=False):
    """The lines that read a type by a call with the names of its entries or members; or a row, which is kept."""
    names = lines(Group("let names = &[", [f'"{name}"' for name in names], "]"), 8, ";")
    given = ["alloc", f'"{one.name}"', "names", "de"]
    if is_row:
        return names + lines(Group(f"let row = {call}(", given, ")?"), 8, ";")
    return names + lines(Group(f"{call}(", given, ")"), 8)


def construct(before, struct, behind):
    """The lines that make a struct from variables that have its fields' names."""
    return lines(struct_of(before, struct.name, [field_name(field.name) for field in struct.fields], behind), 8)


def written_row(parts, indent):
    """The lines that make the row that is written, part by part."""
    made = [" " * indent + "let row = ();"]
    for part in reversed(parts):
        made += lines(Group("let row = (", [part, "row"], ")"), indent, ";")
    return made


def tagged_row(case, parts, indent):
    """The lines that write a map with the text that tells the member."""
    margin = " " * indent
    return [f'{margin}let tag = "{case.data}";', *written_row(parts, indent), f"{margin}write_struct(alloc, row, ser)"]


def end_of(struct):
    """What stands after the last field of a row: nothing, if other keys are skipped."""
    return "()" if struct.open else "Closed"


def row_patterns(kinds):
    """The patterns of the fields in a row, each with a place for the rest."""
    return [f"({form(field)}({field_name(field.name)}), {{}})" for field, _ in kinds]


def item_patterns(struct):
    """The same for the items of a list."""
    return [f"{'OmissibleItem' * field.optional}({field_name(field.name)}, {{}})" for field in struct.fields]


def apart(patterns, end, row="row"):
    """The lines that take a row apart, whose end comes after the last of these."""
    made = []
    for place, pattern in enumerate(patterns):
        rest = "row" if place < len(patterns) - 1 else end
        made.append(f"        let {pattern.format(rest)} = {'row' if place else row};")
    return made or [f"        let {end} = {row};"]


def seen_as(one, meaning, shape):
    """The ghost members of a type that is shown."""
    return ghost("View", [view_name(one)]), ghost("meaning", meaning), ghost("shape", [f"{snake(one.name)}_{shape}"])


def matched(word, arms):
    """A value that a `match` of itself makes."""
    head, margin = [f"        let {word} = match {word} {{"], " " * 8
    if len(head[0]) > WIDTH:
        head, margin = [f"        let {word} =", f"            match {word} {{"], " " * 12
    return [*head, *(f"{margin}    {arm}" for arm in arms), f"{margin}}};"]


def cases_of(rows):
    return ["λ v. elim v [", *(f"      | {row}" for row in rows), "    ]"]


def view_rows(view, shown):
    """What a row of values is read as: on one line if it fits."""
    if not shown:
        return [f"{view} = Unit {{0}}"]
    rows = [f"{row} × (" for row in shown[:-1]]
    last = f"{shown[-1]} × Unit {{0}}{')' * len(rows)}"
    whole = f"{view} = {''.join(rows)}{last}"
    return [whole] if len(whole) <= WIDTH else [f"{view} =", *(f"    {row}" for row in (*rows, last))]


def documented(text, indent):
    return [(" " * indent + f"/// {line}").rstrip() for line in text]


def listed(words):
    if len(words) < 2:
        return "".join(words) or "nothing"
    return ", ".join(words[:-1]) + " and " + words[-1]
