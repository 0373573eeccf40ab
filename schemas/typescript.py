"""The file of TypeScript that is made from a schema: types over the package `dagcbor`. Each type has an object of its name, with
`decode` and `encode`."""

import json

from schemas.law import bounds, is_a, may_lack
from schemas.language import WAYS, WIDTH, Language, camel, named, named_blocks, power_of_two
from schemas.parsing import WIDTHS, Alias, Enum, Int, Member, SchemaError, Struct, Union, Unit

NARROW = ("u8", "u16", "u32", "i8", "i16", "i32")  # the widths that are kept as a number, not as a bigint

# Names that every object has. A field with such a name would seem to be there if it is left out.
RESERVED = set("constructor hasOwnProperty isPrototypeOf propertyIsEnumerable toLocaleString toString valueOf".split())

# Helpers whose names end in this.
OF_VALUES = ("entry", "fields", "items", "pair", "pairs", "pieces")

PACKAGE = ("CID", "DagCborError", "decode", "encode")

FRONT = """
type Place = readonly (string | number)[];

type Entries = { readonly [key: string]: unknown };

type Conversion<T> = (value: unknown, at: Place) => T;
"""

# Functions that the types and their functions use, in their order.
BACK = """
function entriesOf(value: unknown, at: Place): Entries {
  if (kindOf(value) !== 'map') throw other('map', value, at);
  return value as Entries;
}

/** The entries of a map that has no other keys; one that is undefined is none. */
function fieldsOf(value: unknown, at: Place, ...keys: string[]): Entries {
  const entries = entriesOf(value, at);
  const isOther = (key: string): boolean => !keys.includes(key) && entries[key] !== undefined;
  const unknown = Object.keys(entries).find(isOther);
  if (unknown !== undefined) throw refused('Msg', [...at, unknown], 'unknown field');
  return entries;
}

function has(entries: Entries, key: string): boolean {
  return Object.prototype.hasOwnProperty.call(entries, key);
}

function field<T>(entries: Entries, key: string, at: Place, read: Conversion<T>): T {
  if (!has(entries, key)) throw refused('Msg', [...at, key], 'missing field');
  return read(entries[key], [...at, key]);
}

/** What stands under the key, which means the value where it is left out, and is no other then. */
function implied<T>(entries: Entries, key: string, at: Place, read: Conversion<T>, value: T): T {
  if (!has(entries, key)) return value;
  const found = read(entries[key], [...at, key]);
  if (found === value) throw refused('Msg', [...at, key], 'no such value');
  return found;
}

/** Adds an entry, where it is not what is meant without it. */
function putImplied<T extends Data>(
  entries: { [key: string]: Data },
  key: string,
  item: T,
  value: T,
): void {
  if (item !== value) entries[key] = item;
}

/** What stands under the two keys of a map that has no others. */
function enveloped(value: unknown, at: Place, tag: string, content: string): [string, unknown] {
  const entries = fieldsOf(value, at, tag, content);
  return [field(entries, tag, at, text), field(entries, content, at, anything)];
}

/** The items of a list that has so many. */
function itemsOf(value: unknown, at: Place, least: number, most: number = least): unknown[] {
  if (!Array.isArray(value)) throw other('list', value, at);
  if (value.length >= least && value.length <= most) return value;
  const wanted = least === most ? least : `${least} to ${most}`;
  throw refused('LengthMismatch', at, `a list of ${wanted} is wanted, and not of ${value.length}`);
}

/** The value of a pair of this key. */
function pairOf<T>(item: unknown, at: Place, key: string, read: Conversion<T>): T {
  const [found, value] = itemsOf(item, at, 2);
  if (text(found, [...at, 0]) !== key) throw refused('Msg', [...at, 0], 'unknown field');
  return read(value, [...at, 1]);
}

/** The values of a list of pairs, with their places. The keys stand in this order. */
function pairsOf(
  value: unknown,
  at: Place,
  least: number,
  ...keys: string[]
): Map<string, [unknown, Place]> {
  const found = new Map<string, [unknown, Place]>();
  let next = 0;
  for (const [place, item] of itemsOf(value, at, least, keys.length).entries()) {
    const [key, part] = itemsOf(item, [...at, place], 2);
    const name = text(key, [...at, place, 0]);
    next = keys.indexOf(name, next) + 1;
    if (next === 0) throw refused('Msg', [...at, place, 0], 'unknown field');
    found.set(name, [part, [...at, place, 1]]);
  }
  return found;
}

function paired<T>(
  pairs: Map<string, [unknown, Place]>,
  key: string,
  at: Place,
  read: Conversion<T>,
): T {
  const pair = pairs.get(key);
  if (pair === undefined) throw refused('Msg', at, `missing field ${key}`);
  return read(...pair);
}

/** The pieces of a text, of which there are so many. */
function piecesOf(value: unknown, at: Place, join: string, count: number): string[] {
  const pieces = text(value, at).split(join);
  if (pieces.length === count) return pieces;
  throw refused('Msg', at, `${count} pieces are wanted, and not ${pieces.length}`);
}

/** The text of these pieces, which is parted into them again. */
function joined(at: Place, join: string, ...pieces: Data[]): string {
  const whole = pieces.join(join);
  const again = whole.split(join);
  const isSame = again.length === pieces.length && again.every((it, i) => it === pieces[i]);
  if (!isSame) throw refused('Msg', at, 'what separates the pieces is in one');
  return whole;
}

/** A text after its prefix. */
function prefixed(prefix: string, part: Data): string {
  return `${prefix}${part as string}`;
}

/** Adds an item at its place, before which none is left out. */
function put(items: Data[], place: number, at: Place, item: Data): void {
  if (items.length !== place) throw refused('Msg', [...at, items.length], 'missing field');
  items.push(item);
}

/** What stands under the key, which tells the member of a union, and the other entries. */
function toldBy(key: string, value: unknown, at: Place): [string, Entries] {
  const entries = entriesOf(value, at);
  const tag = field(entries, key, at, text);
  return [tag, Object.fromEntries(Object.entries(entries).filter(([name]) => name !== key))];
}

/** The entries of a member, with the one that tells it. */
function tagged(key: string, tag: string, entries: Data): Data {
  return { ...(entries as { [key: string]: Data }), [key]: tag };
}

/** Refuses what is in more lists and maps than a block has, such as a value that holds itself. */
function bounded(at: Place): void {
  if (at.length > 127) throw refused('DepthOverflow', at.slice(0, 127), 'too deep');
}

/** The one value of a unit. */
function unit<T extends boolean | null>(one: T, value: unknown, at: Place): T {
  if (value === one) return one;
  if (kindOf(value) !== kindOf(one)) throw other(kindOf(one), value, at);
  throw refused('Msg', at, 'no such value');
}

/** The key and the value of a map of one entry. */
function entryOf(value: unknown, at: Place): [string, unknown] {
  const entries = Object.entries(entriesOf(value, at));
  if (entries.length === 1 && entries[0]) return entries[0];
  throw refused('Mismatch', at, `a map of one entry is wanted, and not of ${entries.length}`);
}

/** An object of a type, whose parts are not looked at. */
function object<T>(value: unknown, at: Place): T {
  return entriesOf(value, at) as unknown as T;
}

/** The same, if it has no other properties: what they say would be lost. */
function closed<T>(value: unknown, at: Place, ...names: string[]): T {
  return fieldsOf(value, at, ...names) as unknown as T;
}

/** The same of a member of a union, once it is told. */
function memberOf<T>(value: unknown, at: Place): T {
  const isTold = typeof entriesOf(value, at)['kind'] === 'string';
  return isTold ? closed(value, at, 'kind', 'value') : object(value, at);
}

function listOf<T>(item: Conversion<T>): Conversion<T[]> {
  return (value, at) => {
    if (!Array.isArray(value)) throw other('list', value, at);
    return Array.from(value, (one, place) => item(one, [...at, place]));
  };
}

function mapOf<T>(part: Conversion<T>): Conversion<{ [key: string]: T }> {
  return (value, at) => {
    const entries = Object.entries(entriesOf(value, at));
    return Object.fromEntries(entries.map(([key, one]) => [key, part(one, [...at, key])]));
  };
}

function nullable<T>(part: Conversion<T>): Conversion<T | null> {
  return (value, at) => (value === null ? null : part(value, at));
}

/** What is not looked at here: `encode` refuses what has no block. */
function anything(value: unknown, _at: Place): Data {
  return value as Data;
}

function bool(value: unknown, at: Place): boolean {
  if (typeof value !== 'boolean') throw other('bool', value, at);
  return value;
}

function text(value: unknown, at: Place): string {
  if (typeof value !== 'string') throw other('string', value, at);
  return value;
}

function bytes(value: unknown, at: Place): Uint8Array {
  if (!(value instanceof Uint8Array)) throw other('bytes', value, at);
  return value;
}

function link(value: unknown, at: Place): CID {
  if (!(value instanceof CID)) throw other('link', value, at);
  return value;
}

function integer(least: bigint, most: bigint): Conversion<bigint> {
  return (value, at) => {
    if (kindOf(value) !== 'int') throw other('int', value, at);
    const isRounded = typeof value === 'number' && !Number.isSafeInteger(value);
    const number = BigInt(value as number | bigint);
    if (number >= least && number <= most && !isRounded) return number;
    const wanted = `an int from ${least} to ${most} is wanted`;
    throw refused('CastOverflow', at, isRounded ? `${wanted}, beyond 2^53 as a bigint` : wanted);
  };
}

function narrow(least: number, most: number): Conversion<number> {
  const convert = integer(BigInt(least), BigInt(most));
  return (value, at) => Number(convert(value, at));
}

/** The kind of a value, in the data model's words. */
function kindOf(value: unknown): string {
  if (value === null) return 'null';
  if (Array.isArray(value)) return 'list';
  if (value instanceof Uint8Array) return 'bytes';
  if (value instanceof CID) return 'link';
  if (typeof value === 'bigint' || Number.isInteger(value)) return 'int';
  if (Object.prototype.toString.call(value) === '[object Object]') return 'map';
  return typeof value === 'boolean' ? 'bool' : typeof value;
}

function other(wanted: string, value: unknown, at: Place): DagCborError {
  return refused('Mismatch', at, `${wanted} is wanted, and not ${kindOf(value)}`);
}

function refused(kind: DagCborError['kind'], at: Place, why: string): DagCborError {
  return new DagCborError(kind, at.length ? `${at.join('/')}: ${why}` : why, at);
}
"""


class TypeScript(Language):
    called = "TypeScript"
    suffix = ".ts"
    step, end = 2, ";"
    kinds = ("bool", "int", "string", "bytes", "list", "map", "link", "null")
    taken = frozenset("Array CID Conversion DagCborError Data Entries Number Object BigInt Place Uint8Array".split())
    closed_modules = frozenset({"dagcbor"})
    front, back = named_blocks(FRONT), named_blocks(BACK)

    scalars = {"String": "string", "Bytes": "Uint8Array", "Bool": "boolean", "Any": "Data"}
    map_type, null, data = "{{ [key: string]: {} }}", "null", "Data"
    function_head, function_end = "function {}(value: unknown, at: Place): {} {{", ["}"]
    let, let_two, let_list = "const {} = ", "const [{}, {}] = ", "const {}: Data[] = "
    number, path_of, length, added = "{}n", "[...at, {}]", "{}.length", "push"
    map_value = "entriesOf(value, at)"
    has = {"entries": "has(entries, {})", "pairs": "pairs.has({})", "items": "items.length > {}"}
    is_there, absent = "held.{} !== {}", ("undefined", "undefined")
    choice_by, choice_end = "switch ({}) {{", ["    default:", "      {};", "  }}"]
    refusal = "throw refused('Msg', {}, '{}')"
    part, union, told_by, kind = "part", "held", "held.kind", "kindOf(value)"
    member, member_pattern = ("return {{ ", ["kind: '{case}'", "value: {value}"], " }}"), "'{1}'"
    no_member = refusal.format("at", "unknown variant")
    map_of_data, tagged = ("return { ", " }"), ("return tagged(", ["{key}", "{tag}", "{entries}"], ")")
    prefixed = ("return prefixed(", ["{prefix}", "{text}"], ")")
    tag_of, has_prefix, without_prefix = "toldBy({}, value, at)", "whole.startsWith({})", "whole.slice({}.length)"

    # ---- names

    def field_name(self, field):
        return field.name + "_" if field.name in RESERVED else field.name

    def check_field(self, field):
        for name in (field.name, field.key):
            if name == "__proto__":
                raise SchemaError(field.place, "no field can be named __proto__ in TypeScript, which uses the name itself")

    def helper(self, word):
        return camel(word) + ("Of" if word in OF_VALUES else "")

    def function(self, way, name):
        one = self.schema.by_name[name]
        return f"{'check' if isinstance(one, Unit) else way}{name}"

    # ---- the file

    def head(self, source, words):
        rows = [f"// The types of {source}, by ./dagcbor-types. Change that file, and run it again.", ""]
        if "Data" in words:
            rows.append("import type { Data } from 'dagcbor';")
        return [*rows, f"import {{ {', '.join(name for name in PACKAGE if name in words)} }} from 'dagcbor';"]

    # ---- declared types

    def declared(self, one):
        if isinstance(one, Struct):
            return [self.declared_struct(one), self.companion(one)]
        if isinstance(one, Enum):
            kinds = [self.quoted(member.name) for member in one.members]
        elif isinstance(one, Alias):
            kinds = [self.annotation(one.of)]
        elif isinstance(one, Unit):
            kinds = [one.representation]
        elif is_a(one, "union_kinded"):
            kinds = [self.annotation(self.case_kind(case)) for case in one.cases]
        else:
            kinds = [f"{{ kind: {self.quoted(case.name)}; value: {self.annotation(case.type)} }}" for case in one.cases]
        return [[*said(one.text, 0), *alternatives(f"export type {one.name} =", kinds)], self.companion(one)]

    def integer_type(self, width):
        return "number" if width in NARROW else "bigint"

    def list_type(self, item):
        return f"({item})[]" if " " in item else f"{item}[]"

    def declared_struct(self, struct):
        rows = []
        for field in struct.fields:
            mark = "?" if field.optional else ""
            rows += [*said(field.text, 2), f"  {self.field_name(field)}{mark}: {self.annotation(field.type)};"]
        head = f"export interface {struct.name} {{"
        return [*said(struct.text, 0), *([head, *rows, "}"] if rows else [head + "}"])]

    def companion(self, one):
        """The object of the type's name."""
        read, write = (self.conversion(named(one), way) for way in WAYS)
        return [
            f"export const {one.name} = {{",
            *self.arrow(f"decode: (block: Uint8Array): {one.name} =>", f"{read}(decode(block), [])"),
            *self.arrow(f"encode: (value: {one.name}): Uint8Array =>", f"encode({write}(value, []))"),
            "};",
        ]

    @staticmethod
    def arrow(head, body):
        one = f"  {head} {body},"
        return [one] if len(one) <= WIDTH else [f"  {head}", f"    {body},"]

    # ---- values

    def quoted(self, text):
        return "'" + json.dumps(text, ensure_ascii=False)[1:-1].replace('\\"', '"').replace("'", "\\'") + "'"

    def meant(self, field):
        value, kind = field.implicit.value, self.schema.implied_type(field)
        if isinstance(value, Member):
            return self.quoted(value.name)
        if isinstance(value, bool):
            return "true" if value else "false"
        return str(value) if isinstance(kind, Int) and kind.width in NARROW else self.literal(value)

    # ---- statements

    def struct_value(self, one):
        helper, names = "closed", [self.quoted(self.field_name(field)) for field in getattr(one, "fields", ())]
        if isinstance(one, Union) or one.open:
            helper, names = "memberOf" if isinstance(one, Union) else "object", []
        return f"{helper}<{one.name}>(", ["value", "at", *names], ")"

    def guarded(self, test, head, items, close, level=1):
        rows = self.statement(head, items, close, level)
        margin = " " * self.step * level
        one = f"{margin}if ({test}) {rows[0].strip()}"
        if len(rows) == 1 and len(one) <= WIDTH:
            return [one]
        return [f"{margin}if ({test}) {{", *(f"  {row}" for row in rows), f"{margin}}}"]

    # ---- functions

    # -- structs

    def constructed(self, struct, parts):
        required, optional = [], []
        for part in parts:
            name = self.field_name(part.field)
            if part.field.optional:
                optional += self.guarded(part.test, f"held.{name} = {part.function}(", part.given, ")")
            else:
                required += self.call(4, f"{name}: {part.function}(", part.given, "),")
        return made_object(struct.name, required, optional, "held")

    def written_map(self, struct):
        if not struct.fields:
            return [*self.held(struct, ""), "  return {};"]
        required, others = [], []
        for field in struct.fields:
            if may_lack(field):
                others += self.put_entry(field)
            else:
                head = f"{self.property_name(field.key)}: {self.conversion(field.type, 'write')}("
                required += self.call(4, head, [f"held.{self.field_name(field)}", self.path(self.quoted(field.key))], "),")
        return [*self.held(struct), *made_object("{ [key: string]: Data }", required, others, "entries")]

    # -- enums and units

    def enum(self, enum, data):
        pairs = [(self.literal(member.data), self.quoted(member.name)) for member in enum.members]
        write = self.replaced("value", [(name, literal) for literal, name in pairs])
        return self.both(enum, self.replaced(data, pairs), write)

    def replaced(self, value, pairs):
        """A choice that makes one of each pair from the other."""
        arms = [(one, [self.row(f"return {other}", 3)]) for one, other in pairs]
        return self.choice(value, arms, self.no_member)

    def unit(self, unit):
        """One function, because the value stands for itself."""
        return [self.converter("read", unit, unit.name, [self.row(f"return unit({unit.representation}, value, at)")])]

    # -- unions

    def property_name(self, key):
        """A key in an object that is written out."""
        if key == "__proto__":
            return f"[{self.quoted(key)}]"
        return key if key.isascii() and key.isidentifier() else self.quoted(key)

    def looked_at(self, field):
        part = self.part_of("field", field, self.quoted(field.key))
        return self.guarded(part.test, f"{part.function}(", part.given, ")", 3)

    def kind_patterns(self, union):
        for case in union.cases:
            kind = self.case_kind(case)
            yield kind, self.quoted(case.data), self.quoted(self.held_kind(kind, case.data))

    def check(self, node):
        super().check(node)
        if is_a(node, "union_kinded"):
            self.check_kinds(node)

    def check_kinds(self, union):
        """Refuses members whose values have the same kind, because nothing would tell them apart."""
        seen = {}
        for case in union.cases:
            held = self.held_kind(self.case_kind(case), case.data)
            if held in seen:
                self.refuse(case.place, f"a kinded union of `{seen[held]}` and `{case.name}`, whose values have the same kind,")
            seen[held] = case.name

    def held_kind(self, kind, data):
        """The kind of a type's values, given the kind of its data: a tuple's value is an object, and an enum's is its name."""
        one = self.schema.named(self.schema.resolve(kind))
        if isinstance(one, (Struct, Union)):
            return "map"
        return "string" if isinstance(one, Enum) else data


for width in WIDTHS:
    least, most = bounds(width)
    if width in NARROW:
        TypeScript.back[width] = [f"const {width} = narrow({least}, {most});"]
    else:
        least, most = (power_of_two(number, "2n ** {}n", "n") for number in (least, most))
        TypeScript.back[width] = [f"const {width} = integer({least}, {most});"]


def alternatives(head, kinds):
    line = f"{head} {' | '.join(kinds)};"
    if len(line) <= WIDTH:
        return [line]
    return [head, *(f"  | {kind}" for kind in kinds[:-1]), f"  | {kinds[-1]};"]


def said(text, indent):
    margin, lines = " " * indent, [line.replace("*/", "* /") for line in text]
    if len(lines) < 2:
        return [f"{margin}/** {line} */" for line in lines]
    return [f"{margin}/**", *(f"{margin} * {line}".rstrip() for line in lines), f"{margin} */"]


def made_object(kind, parts, optional, name):
    """An object of these parts, and of those that may be left out. These are put into a variable of this name."""
    if not optional:
        return ["  return {", *parts, "  };"] if parts else ["  return {};"]
    start = [f"  const {name}: {kind} = {{", *parts, "  };"] if parts else [f"  const {name}: {kind} = {{}};"]
    return [*start, *optional, f"  return {name};"]
