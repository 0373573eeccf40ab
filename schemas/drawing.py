"""Schemas drawn at random, within the law: every kind of type, names of 1 to 40 letters, up to 18 fields, types within types,
in every order. A seed always draws the same schema. PAIRS seeds in a row draw a union of each pair of members' kinds, and one of
each kind alone."""

import itertools
import random
import re
import string

from schemas.law import MOST_PAIRS, RESERVED, TAKEN, Schema, bounds, field_name, snake
from schemas.parsing import WIDTHS, SchemaError, parse

LETTERS = string.ascii_letters + string.digits
LENGTHS = (1, 2, 3, 5, 8, 13, 21, 40)
LONG = 21  # from here on a word has no capitals after the first, which would make it longer as a field's name
SCALARS = ("Int", "String", "Bytes", "Bool", "&Any", "Any")
KINDED = {"bool": "Bool", "int": "Int", "string": "String", "bytes": "Bytes", "link": "&Any", "list": "", "map": ""}
MOST_FIELDS = 14  # of a tuple, and of a struct with an implicit field
MOST_IN_ALL = 18  # fields, members and cases of a schema: a struct may have all of them, and is then read and written in groups
MOST_TYPES = 3  # so that its proof takes a processor a minute or two
DRAWN = ("struct", "tuple", "pairs", "enum", "numbers", "nothing", "items", "entries", "keyed", "kinded", "inline", "envelope")
MEMBERS = (*SCALARS, *DRAWN)  # of a union: a type that has a name, or the form of a type that is drawn for it


def pairs():
    """The kinds of a union's members: one or two. No union has a scalar twice."""
    made = [(one,) for one in MEMBERS] + [pair for pair in itertools.combinations_with_replacement(MEMBERS, 2) if pair[0] != pair[1] or pair[0] in DRAWN]
    random.Random("pairs").shuffle(made)
    return made


PAIRS = pairs()


class Drawing:
    def __init__(self, seed):
        self.random = random.Random(seed)
        self.names, self.made, self.left = set(), [], MOST_IN_ALL

    # -- words

    def word(self, first, others, taken, form):
        while True:
            length = self.random.choice(LENGTHS)
            if length >= LONG:
                others = [char for char in others if not char.isupper()]
            word = self.random.choice(first) + "".join(self.random.choice(others) for _ in range(length - 1))
            if len(form(word)) <= 40 and form(word) not in taken and word not in TAKEN and word not in RESERVED:
                taken.add(form(word))
                return word

    def type_name(self):
        while True:
            word = self.word(string.ascii_uppercase, LETTERS, set(), snake)
            if snake(word) not in self.names and not word.endswith("View"):
                self.names.add(snake(word))
                return word

    def variant(self, taken):
        return self.word(string.ascii_uppercase, LETTERS, taken, str.lower)

    def field_name(self, taken):
        return self.word(string.ascii_letters, LETTERS + "_", taken, field_name)

    def text(self, taken):
        """A text in the data: any printable text that the law allows."""
        letters = [char for char in string.printable[:95] if char not in '"\\']
        while True:
            word = "".join(self.random.choice(letters) for _ in range(self.random.choice((0, *LENGTHS))))
            if word not in taken:
                taken.add(word)
                return word

    def some(self, most):
        """A number of parts: each takes from what is left."""
        count = max(1, min(self.random.choice((1, 2, 2, 3, 3, 4, 5, most)), most, self.left))
        self.left -= count
        return count

    # -- types of values

    def value(self, depth=0):
        """A type of a value, and the note that may stand after it."""
        draw = self.random.random()
        if self.made and draw < 0.3:
            return self.random.choice(self.made), ""
        if depth < 3 and draw < 0.45:
            part, note = self.value(depth + 1)
            null = "nullable " if self.random.random() < 0.3 else ""
            return (f"[{null}{part}]" if self.random.random() < 0.6 else f"{{String:{null}{part}}}"), note
        return self.scalar()

    def scalar(self):
        scalar = self.random.choice(SCALARS)
        note = f" # as {self.random.choice(WIDTHS)}" if scalar == "Int" and self.random.random() < 0.6 else ""
        return scalar, note

    # -- definitions

    def field_types(self, count):
        """The types of a struct's fields. If there are many they are plain: the prover needs that if they are not read in groups."""
        most_steps = 2 if 8 < count <= MOST_FIELDS else 16
        for _ in range(count):
            while True:
                kind, note = self.value() if most_steps > 2 else self.scalar()
                before = self.random.choice(("", "", "optional ", "nullable ", "optional nullable "))
                if most_steps > 2 or before.count(" ") <= most_steps:
                    break
            most_steps -= before.count(" ") if most_steps <= 2 else 0
            yield kind, note, before

    def meant(self, kind, note):
        """The implicit value of a field, if its type has such values."""
        if kind == "Bool":
            return self.random.choice(("true", "false"))
        least, most = bounds(note.removeprefix(" # as "))
        return str(self.random.choice((least, most, 0, 1, self.random.randint(least, most))))

    def struct(self, name):
        names, keys, rows = set(), set(), []
        count = self.some(MOST_IN_ALL)
        for kind, note, before in self.field_types(count):
            word = self.field_name(names)
            key = self.text(keys) if self.random.random() < 0.4 or word in keys else word
            keys.add(key)
            behind = [f'rename "{key}"'] if key != word else []
            plain = kind == "Bool" or (kind == "Int" and note.startswith(" # as u"))
            if count <= MOST_FIELDS and plain and not before and self.random.random() < 0.5:
                behind.append(f"implicit {self.meant(kind, note)}")
            behind = f" ({' '.join(behind)})" if behind else ""
            rows.append(f"  {word} {before}{kind}{behind}{note}")
        is_open = " # open" if self.random.random() < 0.3 else ""
        return [f"type {name} struct {{{is_open}", *rows, "}"]

    def tuple(self, name):
        names, rows = set(), []
        count = self.some(MOST_FIELDS)
        there = self.random.choice((count, count, self.random.randint(0, count)))
        for place in range(count):
            kind, note = self.value()
            word = self.field_name(names)
            rows.append(f"  {word} {'optional ' if place >= there else ''}{self.random.choice(('', 'nullable '))}{kind}{note}")
        return [f"type {name} struct {{", *rows, "} representation tuple"]

    def pairs(self, name):
        """A struct that is a list of pairs."""
        lines = self.struct(name)[: MOST_PAIRS + 1] + ["}"]
        rows = [re.sub(r" optional (?=nullable )| optional ", " ", row, count=1) for row in lines[1:] if row != "}"]
        rows = [re.sub(r" ?implicit [-a-z0-9]+", "", row).replace(" ()", "") for row in rows]
        return [f"type {name} struct {{", *rows, "} representation listpairs"]

    def enum(self, name):
        variants, texts = set(), set()
        rows = [f'  | {self.variant(variants)} ("{self.text(texts)}")' for _ in range(self.some(6))]
        return [f"type {name} enum {{", *rows, "}"]

    def numbers(self, name):
        variants, rows = set(), []
        for number in self.random.sample([0, 1, 2, 23, 24, 255, 256, 2**32, 2**63, 2**64 - 1], self.some(6)):
            rows.append(f'  | {self.variant(variants)} ("{number}")')
        return [f"type {name} enum {{", *rows, "} representation int"]

    def cases(self, most):
        """The members of a union that texts tell apart."""
        held = ["Int", "String", "Bytes", "Bool", "&Any", "Any"] + self.made * 3
        chosen, names, keys = [], set(), set()
        for _ in range(self.some(most)):
            kind = self.random.choice(held)
            if kind.lower().replace("&any", "link") not in names:
                names.add(kind.lower().replace("&any", "link"))
                chosen.append(f'  | {kind} "{self.text(keys)}"')
        return chosen

    def member(self, kind):
        """A member of this kind; a type may be drawn for it."""
        if kind in SCALARS:
            return kind
        name = self.type_name()
        self.lines.append(getattr(self, kind)(name))
        return name

    def pair(self, name, kinds):
        """A union of members of these kinds."""
        held = [self.member(kind) for kind in kinds]
        self.random.shuffle(held)
        keys = set()
        cases = [f'  | {kind} "{self.text(keys)}"' for kind in held]
        return self.told(name, cases) if self.random.random() < 0.3 else union(name, cases, "keyed")

    def keyed(self, name):
        return union(name, self.cases(5), "keyed")

    def envelope(self, name):
        return self.told(name, self.cases(4))

    def told(self, name, cases):
        """A union whose tag comes before its content, in the order of the keys."""
        keys = set()
        while len(keys) < 2:
            self.text(keys)
        tag, content = sorted(keys, key=lambda key: (len(key), key))
        return union(name, cases, "envelope", f'discriminantKey "{tag}"', f'contentKey "{content}"')

    def kinded(self, name):
        """A union of kinds; a list and a map are drawn for it."""
        rows = []
        for kind in self.random.sample(sorted(KINDED), self.some(len(KINDED))):
            held = KINDED[kind]
            if not held:
                held = self.type_name()
                make = self.random.choice((self.tuple, self.items) if kind == "list" else (self.struct, self.entries))
                self.lines.append(make(held))
            rows.append(f"  | {held} {kind}")
        return union(name, rows, "kinded")

    def alias(self, name, form="{}"):
        kind, note = self.value()
        return [f"type {name} {form.format(kind)}{note}"]

    def items(self, name):
        return self.alias(name, "[{}]")

    def entries(self, name):
        return self.alias(name, "{{String:{}}}")

    def counts(self, name):
        """A map with an enum's keys."""
        enums = [lines[0].split()[1] for lines in self.lines if lines[0].split()[2] == "enum" and lines[-1] == "}"]
        if not enums:
            return self.enum(name)
        kind, note = self.value()
        return [f"type {name} {{{self.random.choice(enums)}:{kind}}}{note}"]

    def nothing(self, name):
        return [f"type {name} unit representation {self.random.choice(('null', 'true', 'false', 'emptymap'))}"]

    def inline(self, name):
        """A union of structs that are drawn for it: none of their keys is the one that tells them apart."""
        members, keys = [], set()
        is_open, tag = self.random.choice(("", " # open")), self.text(keys)
        for _ in range(self.random.choice((1, 2, 3))):
            member, rows, names = self.type_name(), [], set()
            for _ in range(min(self.random.choice((0, 1, 2, 3)), self.left)):
                self.left -= 1
                kind, note = self.value()
                word = self.field_name(names)
                rows.append(f'  {word} {self.random.choice(("", "optional "))}{kind} (rename "{self.text(keys)}"){note}')
            self.lines.append([f"type {member} struct {{{is_open}", *rows, "}"])
            members.append(f'  | {member} "{self.text(set())[:39]}{len(members)}"')
        return union(name, members, "inline", f'discriminantKey "{tag}"')

    def schema(self, kinds):
        forms = [self.struct] * 5 + [self.tuple] * 2 + [self.enum] * 2 + [self.keyed] * 2
        forms += [self.numbers, self.kinded, self.alias, self.counts, self.nothing]
        forms += [self.inline, self.envelope, self.kinded, self.pairs] * 2
        self.lines = []
        name = self.type_name()
        self.lines.append(self.pair(name, kinds))
        self.made.append(name)
        while self.left > 0 and len(self.lines) < MOST_TYPES:
            name = self.type_name()
            self.lines.append(self.random.choice(forms)(name))
            self.made.append(name)
        self.random.shuffle(self.lines)
        return "\n\n".join("\n".join(lines) for lines in self.lines) + "\n"


def union(name, cases, representation, *options):
    end = [f"}} representation {representation} {{", *(f"  {option}" for option in options), "}"]
    return [f"type {name} union {{", *cases, *(end if options else [end[0].removesuffix(" {")])]


def drawn(seed):
    """The schema of a seed. A draw that passes a limit is drawn again."""
    for attempt in range(1000):
        text = Drawing(f"{seed}.{attempt}").schema(PAIRS[seed % len(PAIRS)])
        try:
            Schema(parse(text))
        except SchemaError as error:
            if "at most" not in error.message and "at once" not in error.message:
                raise
            continue
        return text
    raise ValueError(seed)
