"""Reads the DSL of IPLD Schemas (https://ipld.io/docs/schemas/) into definitions: a scanner and a plain recursive descent.

Two notes may stand in a comment after what they apply to, because the DSL has no words for them. `# as u32` after a field or a
named type says which integers of Rattle hold its Ints. `# open` after `type X struct {` says that other keys of the map are
skipped. Comments above a type or a field go into the code as its text."""

import re
from dataclasses import dataclass, field

WIDTHS = ("u8", "u16", "u32", "u64", "i8", "i16", "i32", "i64", "i128")
DEFAULT_WIDTH = "i64"
STRUCTS = {"map": (), "tuple": (), "listpairs": (), "stringjoin": ("join",)}
ENUMS = {"string": (), "int": ()}
UNIONS = {
    "keyed": (),
    "kinded": (),
    "stringprefix": (),
    "inline": ("discriminantKey",),
    "envelope": ("discriminantKey", "contentKey"),
}
UNITS = {"null": (), "true": (), "false": (), "emptymap": ()}
WORD = re.compile(r"(?P<mark>[][{}()|&:=,])|(?P<number>-?[0-9]+)|(?P<name>[A-Za-z_][A-Za-z0-9_]*)")


class SchemaError(Exception):
    """A schema is refused, at a line and a column."""

    def __init__(self, place, message):
        super().__init__(message)
        self.place = place
        self.message = message


@dataclass(frozen=True)
class Place:
    line: int
    column: int


@dataclass(frozen=True)
class Token:
    kind: str  # name, text, number, mark, end
    word: str
    place: Place


# ---- types of values


@dataclass(frozen=True)
class Int:
    width: str
    place: Place


@dataclass(frozen=True)
class Leaf:
    kind: str  # String, Bytes, Bool, Any
    place: Place


@dataclass(frozen=True)
class Link:
    to: str
    place: Place


@dataclass(frozen=True)
class Named:
    name: str
    place: Place


@dataclass(frozen=True)
class ListOf:
    item: object
    place: Place


@dataclass(frozen=True)
class MapOf:
    value: object
    place: Place
    key: object = None  # None, if keys are String; else the Named enum whose texts they are


@dataclass(frozen=True)
class Nullable:
    part: object
    place: Place


# ---- definitions


@dataclass
class Alias:
    name: str
    of: object
    place: Place
    text: list = field(default_factory=list)


@dataclass
class Field:
    name: str
    type: object
    optional: bool
    key: str
    place: Place
    text: list
    implicit: object = None  # None, or the Literal that is meant if the field is left out


@dataclass(frozen=True)
class Literal:
    """A scalar in a schema."""

    value: object  # bool, int, str; or the Member of an enum that it stands for
    place: Place


@dataclass
class Struct:
    name: str
    fields: list
    representation: str  # map, tuple, listpairs, stringjoin
    open: bool
    place: Place
    text: list = field(default_factory=list)
    join: str = ""  # of stringjoin: what stands between the fields
    of_enum: str = ""  # of a map whose keys are an enum's texts: that enum


@dataclass
class Unit:
    """A type of one value."""

    name: str
    representation: str  # null, true, false, emptymap
    place: Place
    text: list = field(default_factory=list)


@dataclass
class Member:
    """Of an enum: its name, and what stands for it in the data."""

    name: str
    data: object
    place: Place


@dataclass
class Enum:
    name: str
    members: list
    representation: str  # string, int
    place: Place
    text: list = field(default_factory=list)


@dataclass
class Case:
    """Of a union: what it holds, and its key or its kind."""

    name: str
    type: object
    data: str
    place: Place


@dataclass
class Union:
    name: str
    cases: list
    representation: str  # keyed, kinded, stringprefix, inline, envelope
    place: Place
    text: list = field(default_factory=list)
    discriminant: str = ""  # of inline and envelope: the key whose text tells the member
    content: str = ""  # of envelope: the key of what the member holds


# ---- the scanner


class Scanner:
    """The tokens of a schema. Comments are kept by their lines."""

    def __init__(self, text):
        self.tokens = []
        self.comments = {}  # of each line: the comment's text, and whether it stands alone
        number, line = 1, ""
        for number, line in enumerate(text.split("\n"), 1):
            self.scan_line(number, line)
        self.tokens.append(Token("end", "the end of the file", Place(number, len(line) + 1)))

    def scan_line(self, number, line):
        at = 0
        while at < len(line):
            place = Place(number, at + 1)
            char = line[at]
            if char in " \t\r":
                at += 1
            elif char == "#":
                self.comments[number] = (line[at + 1 :].strip(), not line[:at].strip(), place)
                return
            elif char == '"':
                word, at = scan_text(line, at, place)
                self.tokens.append(Token("text", word, place))
            else:
                found = WORD.match(line, at)
                if not found:
                    raise SchemaError(place, f"no word begins with {char!r}")
                self.tokens.append(Token(found.lastgroup, found.group(), place))
                at = found.end()


def scan_text(line, at, place):
    """The text between quotation marks that begins here, and where the line goes on after it."""
    word, at = "", at + 1
    while at < len(line) and line[at] != '"':
        if line[at] == "\\":
            at += 1
            if at == len(line) or line[at] not in '"\\':
                raise SchemaError(Place(place.line, at), 'only " or \\ may come after \\')
        word += line[at]
        at += 1
    if at == len(line):
        raise SchemaError(place, "this text does not end on its line")
    return word, at + 1


# ---- the parser


class Parser:
    def __init__(self, text):
        scanner = Scanner(text)
        self.tokens, self.comments = scanner.tokens, scanner.comments
        self.at = 0
        self.noted = set()  # the lines whose notes have been used
        self.begins = {token.place.line: token.place for token in reversed(self.tokens)}  # what stands first on each line

    # -- tokens

    def peek(self):
        return self.tokens[self.at]

    def take(self):
        token = self.tokens[self.at]
        self.at = min(self.at + 1, len(self.tokens) - 1)
        return token

    def is_next(self, *words):
        token = self.peek()
        return token.kind in ("name", "mark") and token.word in words

    def take_if(self, word):
        return self.take() if self.is_next(word) else None

    def expect(self, word):
        token = self.take()
        if token.kind == "text" or token.word != word:
            raise unwanted(token, f"`{word}`")
        return token

    def expect_kind(self, kind, what, form):
        token = self.take()
        if token.kind != kind:
            raise unwanted(token, what, form)
        return token

    def expect_name(self, what):
        return self.expect_kind("name", what, ",")

    def expect_text(self, what):
        return self.expect_kind("text", what, ', such as "a",')

    def until(self, close, part):
        """Returns the parts before a mark, and takes the mark too."""
        found = []
        while not self.take_if(close):
            found.append(part())
        return found

    def members(self, part):
        """The parts of an enum or a union, each after a `|`."""

        def member():
            self.expect("|")
            return part()

        self.expect("{")
        return self.until("}", member)

    # -- comments

    def text_above(self, place):
        """The comments that stand alone on the lines right above what begins a line."""
        above, line = [], place.line
        is_first = self.begins[line] == place
        while is_first and line - 1 in self.comments and self.comments[line - 1][1]:
            line -= 1
            above.insert(0, self.comments[line][0])
        return above

    def note(self, line):
        """The comment after what stands on the line, and where the comment begins."""
        text, alone, place = self.comments.get(line, ("", True, None))
        return ("", None) if alone else (text, place)

    def width_on(self, line, default=DEFAULT_WIDTH):
        text, place = self.note(line)
        found = re.fullmatch(r"as ([ui][0-9]+)", text)
        if not found:
            return default
        if found.group(1) not in WIDTHS:
            raise SchemaError(place, f"no integers are kept as {found.group(1)}, but as one of {', '.join(WIDTHS)}")
        self.noted.add(line)
        return found.group(1)

    # -- definitions

    def schema(self):
        definitions = []
        while not definitions or self.peek().kind != "end":
            if self.is_next("advanced"):
                raise SchemaError(self.peek().place, "advanced data layouts are not supported")
            definitions.append(self.definition(self.expect("type").place))
        self.refuse_idle_notes()
        return definitions

    def refuse_idle_notes(self):
        for line, (text, alone, place) in self.comments.items():
            if not alone and line not in self.noted and re.fullmatch(r"as [ui][0-9]+|open", text):
                raise SchemaError(place, f"`# {text}` applies to nothing on this line")

    def definition(self, place):
        name = self.expect_name("the name of a type")
        text = self.text_above(place)
        forms = {"struct": self.struct, "enum": self.enum, "union": self.union, "unit": self.unit}
        make = forms[self.take().word] if self.is_next(*forms) else self.alias
        made = make(name)
        made.text = text
        return made

    def unit(self, name):
        return Unit(name.word, self.representation_of(UNITS, name, "null")[0], name.place)

    def alias(self, name):
        """A type that refers to others. A list or map has one representation here, a scalar none."""
        self.take_if("=")
        made = Alias(name.word, self.value_type(lower=True), name.place)
        if self.take_if("representation"):
            token = self.expect_name("a representation")
            if token.word != {ListOf: "list", MapOf: "map"}.get(type(made.of)):
                raise SchemaError(token.place, f"the representation {token.word} of `{name.word}` is not supported")
        return made

    def value_type(self, lower=False):
        token = self.take()
        place = token.place
        if token.kind == "mark" and token.word == "&":
            return Link(self.expect_name("the type that is linked to").word, place)
        if token.kind == "mark" and token.word == "[":
            item = self.maybe_null()
            self.expect("]")
            return ListOf(item, place)
        if token.kind == "mark" and token.word == "{":
            key = self.expect_name("the type of the keys")
            self.expect(":")
            value = self.maybe_null()
            self.expect("}")
            return MapOf(value, place, None if key.word == "String" else Named(key.word, key.place))
        if token.kind != "name":
            raise unwanted(token, "a type")
        return self.scalar(token, lower)

    def scalar(self, token, lower):
        word = token.word
        if lower and word in ("int", "string", "bytes", "bool", "float", "any", "link"):
            word = word.capitalize()
        if word == "Int":
            return Int(self.width_on(token.place.line), token.place)
        if word in ("String", "Bytes", "Bool", "Any"):
            return Leaf(word, token.place)
        if word == "Link":
            return Link("Any", token.place)
        if word == "Float":
            raise SchemaError(token.place, "this library has no floats, and neither has the data that it reads")
        if word in ("optional", "nullable"):
            raise SchemaError(token.place, "a field is `optional`, `nullable`, or `optional nullable`, before its type")
        if word in ("Null", "Unit"):
            raise SchemaError(token.place, f"{token.word} is not supported: a value that may be null is `nullable`")
        return Named(word, token.place)

    def maybe_null(self):
        token = self.take_if("nullable")
        part = self.value_type()
        return Nullable(part, token.place) if token else part

    # -- structs

    def struct(self, name):
        brace = self.expect("{")
        is_open = self.note(brace.place.line)[0] == "open"
        if is_open:
            self.noted.add(brace.place.line)
        fields = self.until("}", self.field)
        representation, options = self.representation_of(STRUCTS, name, "map")
        return Struct(name.word, fields, representation, is_open, name.place, join=options.get("join", ""))

    def representation_of(self, known, name, default=None):
        """The representation, and its options by their names."""
        token = self.peek()
        if not self.take_if("representation"):
            if default is None:
                raise SchemaError(token.place, f"the union `{name.word}` needs a representation: {', '.join(known)}")
            return default, {}
        token = self.expect_name("a representation")
        if token.word not in known:
            raise SchemaError(token.place, f"the representation {token.word} of `{name.word}` is not supported: {', '.join(known)} are")
        return token.word, self.options(token, known[token.word])

    def options(self, representation, wanted):
        """The texts after a representation, such as `{ discriminantKey "tag" }`."""
        found = {}
        brace = self.take_if("{")
        while brace and not self.take_if("}"):
            token = self.expect_name("an option")
            refuse_again(found, token)
            if token.word not in wanted:
                raise SchemaError(token.place, f"`{token.word}` is not an option of {representation.word} here"
                                  + (': a field is renamed by `(rename "a")` after its type' if token.word == "fields" else ""))
            found[token.word] = self.expect_text(f"the text of {token.word}").word
        for word in wanted:
            if word not in found:
                raise SchemaError(representation.place, f'{representation.word} needs `{{ {word} "a" }}` after it')
        return found

    def field(self):
        name = self.expect_name("the name of a field")
        optional = bool(self.take_if("optional"))
        kind = self.maybe_null()
        said = {}
        if self.take_if("("):
            while not self.take_if(")"):
                word = self.expect_name("`rename` or `implicit`")
                refuse_again(said, word)
                if word.word == "rename":
                    said["rename"] = self.expect_text("the name in the data").word
                elif word.word == "implicit":
                    said["implicit"] = self.literal()
                else:
                    raise SchemaError(word.place, f"`{word.word}` is not supported: `rename` and `implicit` are")
        text = self.text_above(name.place)
        return Field(name.word, kind, optional, said.get("rename", name.word), name.place, text, said.get("implicit"))

    def literal(self):
        token = self.take()
        if token.kind == "number":
            return Literal(int(token.word), token.place)
        if token.kind == "name" and token.word in ("true", "false"):
            return Literal(token.word == "true", token.place)
        if token.kind == "text":
            return Literal(token.word, token.place)
        raise unwanted(token, "a text, a number, `true` or `false`")

    # -- enums

    def enum(self, name):
        rows = self.members(self.member)
        representation, _ = self.representation_of(ENUMS, name, "string")
        members = [Member(token.word, self.member_data(representation, token, data), token.place) for token, data in rows]
        return Enum(name.word, members, representation, name.place)

    def member(self):
        """The name of an enum's member, and the text that stands for it, if any."""
        token, data = self.expect_name("the name of a member"), None
        if self.take_if("("):
            data = self.expect_text("what stands for the member")
            self.expect(")")
        return token, data

    @staticmethod
    def member_data(representation, token, data):
        if representation == "string":
            return data.word if data else token.word
        if data is None:
            raise SchemaError(token.place, f'`{token.word}` needs a number, such as `| {token.word} ("1")`')
        if not re.fullmatch(r"0|-?[1-9][0-9]*", data.word) or not -(2**64) <= int(data.word) < 2**64:
            raise SchemaError(data.place, f'"{data.word}" is not supported: a number of the data, from -2^64 to 2^64 - 1')
        return int(data.word)

    # -- unions

    def union(self, name):
        rows = self.members(lambda: (self.peek().place, self.value_type(), self.take()))
        representation, options = self.representation_of(UNIONS, name)
        cases = []
        for place, held, data in rows:
            if data.kind != ("name" if representation == "kinded" else "text"):
                raise unwanted(data, {"kinded": "a kind", "stringprefix": 'a prefix, such as "a:",'}.get(representation, 'a key, such as "a",'))
            cases.append(Case(case_name(held), held, data.word, place))
        tag, content = (options.get(word, "") for word in ("discriminantKey", "contentKey"))
        return Union(name.word, cases, representation, name.place, discriminant=tag, content=content)


def case_name(held):
    """The name of a union's variant: the name of the type that it holds."""
    if isinstance(held, Named):
        return held.name
    if isinstance(held, Leaf):
        return held.kind
    if isinstance(held, Int):
        return "Int"
    if isinstance(held, Link):
        return "Link"
    raise SchemaError(held.place, "the members of a union have names: define this type by `type`")


def refuse_again(said, token):
    if token.word in said:
        raise SchemaError(token.place, f"`{token.word}` is said twice here")


def unwanted(token, what, form=","):
    """The refusal of a token, which says what is wanted in its place and how that is written."""
    told = {"text": f'the text "{token.word}"', "end": token.word}.get(token.kind, f"`{token.word}`")
    return SchemaError(token.place, f"{what} is expected here{form} and not {told}")


def parse(text):
    return Parser(text).schema()
