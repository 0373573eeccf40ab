#!/usr/bin/env python3
"""Tests what `dagcbor-types` refuses, by line and column, and what it reads of the DSL.

    python3 -m schemas.selftest                     runs at the top of the repository, and ends in a line `N passed, M failed`
    python3 -m schemas.selftest prove 30 [FIRST]    makes 30 schemas at random, from seed FIRST on. For each, `rt` proves and lays
                                                    out what the tool makes, in a copy. A line stands for five schemas, which are
                                                    modules of one crate. It takes an hour or two
    python3 -m schemas.selftest draw 7              prints the schema of a seed
    python3 -m schemas.selftest layout 200 [FIRST]  has `rt fmt` lay out what is made of 200 schemas, and says what it changes.
                                                    Each schema takes a second
    python3 -m schemas.selftest wrong               edits a schema, puts the specs of the edited schema beside the code of the
                                                    unedited one, and has `rt` refuse them: a line for each edit, some ten minutes"""
import pathlib
import re
import shutil
import subprocess
import sys
import tempfile
import time
from dataclasses import dataclass

from schemas.crate import LANGUAGES, STANDS_ON, CrateError, files_of, write
from schemas.drawing import drawn
from schemas.language import KNOWN
from schemas.law import Schema
from schemas.parsing import Field, SchemaError, parse
from schemas.rattle import Module

# A schema, and its refusal: line:column: a part of the message.
REFUSED = [
    ("type A struct {\n  x Foo\n}", "2:5: unknown type `Foo`"),
    ("type A struct {\n  x [nullable Foo]\n}", "2:15: unknown type `Foo`"),
    ("type A struct {\n  x &Foo\n}", "2:5: unknown type `Foo`"),
    ("type A struct {\n  x Float\n}", "2:5: this library has no floats"),
    ("type A float", "1:8: this library has no floats"),
    ("type A struct {\n  kids [A]\n}", "1:6: `A` holds itself (A -> A)"),
    ("type A struct {\n  b optional B\n}\ntype B {String:nullable C}\ntype C union {\n | A \"a\"\n} representation keyed", "1:6: `A` holds itself (A -> B -> C -> A)"),
    ("type A = A", "1:6: `A` holds itself"),
    ("type A struct { x Int } representation stringjoin", "1:40: stringjoin needs `{ join \"a\" }` after it"),
    ("type A struct {\n  x optional Int\n} representation listpairs", "2:3: a list of pairs has all of its fields here: `x` is optional"),
    ("type A struct {\n  a Int\n  b Int\n  c Int\n  d Int\n} representation listpairs", "5:3: a list of pairs has at most 3 fields here"),
    ("type A {String:Int} representation stringpairs", "1:36: the representation stringpairs of `A` is not supported"),
    ("type A union {\n  | Int \"i\"\n} representation envelope", "3:18: envelope needs `{ discriminantKey \"a\" }` after it"),
    ("type A union {\n  | Int \"i\"\n} representation inline", "3:18: inline needs `{ discriminantKey \"a\" }` after it"),
    ("type A union {\n  | Int \"i\"\n} representation stringprefix", "1:6: stringprefix is not supported yet: `A`"),
    ("type A union {\n  | Int \"i\"\n} representation bytesprefix", "3:18: the representation bytesprefix of `A` is not supported"),
    ("type A union {\n  | Int \"i\"\n}", "3:2: the union `A` needs a representation"),
    ("type A union {\n  | B list\n} representation kinded\ntype B {String:Int}", "2:5: the kind of `B` is not list"),
    ("type A union {\n  | B map\n} representation kinded\ntype B struct {\n  x Int\n} representation tuple", "2:5: the kind of `B` is not map"),
    ("type A union {\n  | Any map\n} representation kinded", "2:5: the kind of `Any` is not map"),
    ("type A union {\n  | B null\n} representation kinded\ntype B unit", "2:5: the kind null is not supported"),
    ("type A union {\n  | Int \"i\"\n} representation envelope {\n  discriminantKey \"type\"\n  contentKey \"data\"\n}", "1:6: the tag of `A` comes after its content"),
    ("type A union {\n  | Int \"i\"\n} representation envelope {\n  discriminantKey \"t\"\n}", "3:18: envelope needs `{ contentKey \"a\" }` after it"),
    ("type A union {\n  | String bytes\n} representation kinded", "2:5: the kind of `String` is not bytes"),
    ("type A union {\n  | B int\n} representation kinded\ntype B int # as u8", "2:5: an int of a kinded union"),
    ("type A union {\n  | Int \"a\"\n  | Bool \"a\"\n} representation keyed", "3:5: two members have the key `a`: this and line 2"),
    ("type A union {\n  | &Any \"a\"\n  | &Any \"b\"\n} representation keyed", "3:5: two members have the name `link`"),
    ("type A union {\n  | [Int] \"a\"\n} representation keyed", "2:5: the members of a union have names"),
    ("type A union {\n  | Int int\n} representation keyed", "2:9: a key, such as \"a\", is expected here, and not `int`"),
    ("type A enum {\n  | B (\"x\")\n  | C (\"x\")\n}", "3:5: two members have the representation `x`"),
    ("type A enum {\n  | B\n} representation int", "2:5: `B` needs a number"),
    ("type A enum {\n  | B (\"-1\")\n} representation int", "2:5: -1 is not supported: a number from 0"),
    ("type A enum {\n  | B (\"-18446744073709551617\")\n} representation int", "2:8: \"-18446744073709551617\" is not supported"),
    ("type A enum {\n  | B (\"18446744073709551616\")\n} representation int", "2:8: \"18446744073709551616\" is not supported"),
    ("type A enum {}", "1:6: `A` has no members"),
    ("type A struct {\n  x Int\n  x String\n}", "3:3: two fields have the name `x`: this and line 2"),
    ("type A struct {\n  fooBar Int\n  foo_bar String\n}", "3:3: two fields have the name `foo_bar`"),
    ("type A struct {\n  x Int\n  y String (rename \"x\")\n}", "3:3: two fields have the key `x`"),
    ("type A struct {\n  x Int (implicit 256) # as u8\n}", "2:19: 256 is not a value of u8: `x`"),
    ("type A struct {\n  x String (implicit true)\n}", "2:22: the type of a field with an implicit value is a Bool, an Int or an enum here: `x`"),
    ("type A struct {\n  x String (implicit \"a\")\n}", "2:22: the type of a field with an implicit value is a Bool, an Int or an enum here: `x`"),
    ("type A struct {\n  x nullable Int (implicit 0)\n}", "2:28: the type of a field with an implicit value is a Bool, an Int or an enum here: `x`"),
    ("type A struct {\n  x B (implicit \"D\")\n}\ntype B enum {\n  | C\n}", "2:17: D is not a member of `B`: `x`"),
    ("type A struct {\n  x Int (implicit -129) # as i8\n}", "2:19: -129 is not a value of i8: `x`"),
    ("type A struct {\n  x optional Int (implicit 0)\n}", "2:28: `x` is optional, and so cannot have an implicit value"),
    ("type A struct {\n  x Int (implicit 0)\n} representation tuple", "2:19: a field of a tuple cannot have an implicit value: `x`"),
    ("type A union {\n  | B \"b\"\n} representation inline {\n  discriminantKey \"t\"\n}\ntype B struct {\n  x Int (implicit 0)\n}", "2:5: `B` has a field with an implicit value, and is a member of an inline union: `x`"),
    ("type A struct {\n  x Int (rename \"\\u00e9\")\n}", "2:18: only \" or \\"),
    ("type A struct {\n  x Int (rename \"é\")\n}", "2:3: names in the data are up to 40 printable characters"),
    ("type A struct {\n  a optional Int\n  b Int\n} representation tuple", "3:3: after `a`, which is optional, each field of a tuple is too: `b`"),
    ("type A struct {\n  _a Int\n}", "2:3: a field's name begins with a letter"),
    ("type R int", "1:6: `R` is a name of"),
    ("type A struct {\n" + "".join(f"  f{i} Int\n" for i in range(15)) + "} representation tuple", "16:3: a struct that is a tuple, or has a field with an implicit value"),
    ("type A struct {\n" + "".join(f"  f{i} Int (implicit 0)\n" for i in range(15)) + "}", "16:3: a struct that is a tuple, or has a field with an implicit value"),
    ("type A struct {\n" + "".join(f"  f{i} [{{String:Int}}]\n" for i in range(6)) + "} representation tuple", "7:3: `A` is more than the prover takes at once"),
    ("type A struct {\n  x Int\n  y " + "[" * 16 + "Int" + "]" * 16 + "\n}", "3:3: `A` is more than the prover takes at once"),
    ("type A struct {\n" + "".join(f"  f{i} Int\n" for i in range(15)) + "}\ntype AGroup1 int", "18:6: `AGroup1` and `A`: a group of the one may have the other's name"),
    ("type A struct {\n" + "".join(f"  f{i} Int\n" for i in range(15)) + "}\ntype AWritten1 int", "18:6: `AWritten1` and `A`: a group of the one may have the other's name"),
    ("type WrittenGroup int", "1:6: `WrittenGroup` is a name of"),
    ("type A struct {\n  m {B:Int}\n}\ntype B enum {\n  | C\n}", "2:6: a map with an enum's keys needs a name of its own"),
    ("type A {B:Int}\ntype B int", "1:9: a key's type is String or an enum of texts, and not `B`"),
    ("type A union {\n  | B \"b\"\n} representation inline {\n  discriminantKey \"t\"\n}\ntype B int", "2:5: a member of an inline union is a struct that is a map"),
    ("type A union {\n  | B \"b\"\n} representation inline {\n  discriminantKey \"t\"\n}\ntype B struct {\n  t Int\n}", "2:5: `B` has a field `t`, which tells the members of `A`"),
    ("type A union {\n  | B \"b\"\n  | C \"c\"\n} representation inline {\n  discriminantKey \"t\"\n}\ntype B struct {\n  x Int\n}\ntype C struct {\n  x [Int]\n}", "3:5: the key `x` is of two types in the members of `A`"),
    ("type A union {\n  | B \"b\"\n  | C \"c\"\n} representation inline {\n  discriminantKey \"t\"\n}\ntype B struct {}\ntype C struct { # open\n  x [Int]\n}", "3:5: the members of an inline union are all open or none"),
    ("type A struct {\n  a nullable optional Int\n}", "2:14: a field is `optional`, `nullable`, or"),
    ("type A {Int:String}", "1:9: unknown type `Int`"),
    ("type A struct {\n  x Int # as u7\n}", "2:9: no integers are kept as u7"),
    ("type A struct {\n  x String # as u8\n}", "2:12: `# as u8` applies to nothing on this line"),
    ("type A enum { # open\n | B\n}", "1:15: `# open` applies to nothing"),
    ("type Option struct {}", "1:6: `Option` is a name of"),
    ("type foo int", "1:6: a type's name is a capital"),
    ("type Foo int\ntype FOO int", "2:6: `FOO` and `Foo` (line 1) are the same name in lower case"),
    ("type Foo int\ntype FooView int", "2:6: `FooView` and `Foo`"),
    ("type A unit representation null", "none"),
    ("# Nothing.\n", "2:1: `type` is expected here, and not the end of the file"),
    ("type A [Int] representation map", "1:29: the representation map of `A` is not supported"),
    ("type A int representation list", "1:27: the representation list of `A` is not supported"),
    ("type A struct {\n  x Int (rename \"a\" rename \"b\")\n}", "2:21: `rename` is said twice here"),
    ("type A struct {\n  x Int (implicit 1 implicit 2)\n}", "2:21: `implicit` is said twice here"),
    ("type A union {\n  | Int \"i\"\n} representation envelope {\n  contentKey \"v\"\n  contentKey \"w\"\n}", "5:3: `contentKey` is said twice here"),
    ("type A struct {\n  x B (implicit true)\n}\ntype B enum {\n  | C (\"1\")\n} representation int", "2:17: True is not a member of `B`: `x`"),
    ("advanced ROT13", "1:1: advanced data layouts are not supported"),
    ("type A struct {\n  x Int", "2:8: the name of a field is expected here, and not the end of the file"),
    ("type A \"a\"", "1:8: a type is expected here, and not the text \"a\""),
    ("type A struct {\n  x \"Int\n}", "2:5: this text does not end on its line"),
    ("type A struct {\n  x Int;\n}", "2:8: no word begins with ';'"),
]

WIDE_UNION = """type A union {
  | B "b"
  | C "c"
} representation inline {
  discriminantKey "t"
}
type B struct {
  also Bool
  b1 Int
  b2 optional Int
  b3 Int
}
type C struct {
  also Bool
  c1 Int
  c2 Int
  c3 Int
}"""

# A schema, and a line of the code that is made from it.
MADE = [
    (WIDE_UNION, "                let others = group2.c1.is_some() | group2.c2.is_some() | group2.c3.is_some();"),
    (WIDE_UNION, "    type Parts = (Required<String>, (AGroup1, (AGroup2, Closed)));"),
    (WIDE_UNION, "                let AGroup1 { also, .. } = group1;"),
    (WIDE_UNION.replace("{\n  also", "{ # open\n  also"), "                let AGroup2 { c1, c2, c3 } = group2;"),
    (WIDE_UNION.replace("  b3 Int\n", "").replace("  c3 Int\n", ""), "                if c1.is_some() {"),
    ("type A struct {\n  createdAt optional nullable [Int] # as u8\n}", "    pub created_at: Option<Option<Vec<u8>>>,"),
    ("type A struct {\n  type Int\n}", "    pub type_: i64,"),
    ("type A struct {\n  x nullable Any\n}", "    pub x: Ipld,"),
    ("type A struct {\n  x Int (rename \"$x\")\n}", '        let names = &["$x"];'),
    ("type A struct { # open\n  x Int\n}", "        let (Required(x), ()) = row;"),
    ("type A struct {\n" + "".join(f"  f{i} Int\n" for i in range(15)) + "}", "        let (Required(f2), row) = row;"),
    ("type A struct {\n" + "".join(f"  f{i} Int\n" for i in range(15)) + "}", "        let AGroup2 {"),
    ("type A struct {\n" + "".join(f"  f{i} Int\n" for i in range(65)) + "}", "        let (group11, Closed) = row;"),
    ("type A struct {\n  group1 Int\n" + "".join(f"  f{i} [{{String:Int}}]\n" for i in range(6)) + "}", "        let (group_1, row) = row;"),
    ("type A struct {\n" + "".join(f"  f{i} Int\n" for i in range(15)) + "}", "        let groups = (OneGroup(AWritten1), OneGroup(AWritten2));"),
    ("type A struct {\n" + "".join(f"  f{i} optional Int\n" for i in range(15)) + "}", '        optional_before (codes "f9") (λ x. Some (integer x)) v.now.f9 ('),
    ("type A struct {\n  x optional Int\n}", "ghost use Rattle.std.specs.Prelude.{[], Option, Some, codes, true, refl};"),
    ("type A struct {\n  bb Int\n  c Int\n}", "        field (codes \"c\") (Some (integer v.c)) ∷"),
    ("type B int # as u16\ntype A struct {\n  x B\n}", "    pub x: B,"),
    ("type B int # as u16\ntype A struct {\n  x B\n}", "pub type B = u16;"),
    ("type A struct {\n  # How many.\n  x Int\n}", "    /// How many."),
    ("type A struct {\n  x Int (implicit \"5\") # as u8\n}", "            Some(5) => return None,"),
    ("type A struct {\n  x B (implicit \"c\")\n}\ntype B enum {\n  | C (\"c\")\n}", "            Some(B::C) => return None,"),
    ("type A struct {\n  x Int (implicit -5)\n}", "        let x = omit_implicit(&self.x, -5);"),
    ("type A union {\n  | B list\n  | Int int\n} representation kinded\ntype B [Int]", "    type Parts = ByKind<NoKind, i128, NoKind, NoKind, Vec<i64>, NoKind, NoKind>;"),
    ("type A union {\n  | Int \"i\"\n} representation envelope {\n  discriminantKey \"t\"\n  contentKey \"v\"\n}", '        read_enveloped(alloc, "t", "v", de)'),
]


INLINE = """type A union {
  | B "b"
  | C "c"
} representation inline {
  discriminantKey "t"
}
type B struct { # open
  x Int
}
type C struct { # open
  y String
}"""
ENVELOPE = """type A union {
  | Int "i"
} representation envelope {
  discriminantKey "t"
  contentKey "v"
}"""
KEYS = """type A {Format:String}
type Format enum {
  | Vinyl
}"""

RECURSIVE = """type Tree [nullable Node]
type Node union {
  | Tree list
  | Small int
} representation kinded
type Small int # as u8"""
IMPLIED_MEMBERS = """type A union {
  | B "b"
  | C "c"
} representation inline {
  discriminantKey "t"
}
type B struct { # open
  x Int (implicit 1)
  y Int
}
type C struct {
  x Int # as u8
  z String
}"""
LATE_TAG = ENVELOPE.replace('"t"', '"type"').replace('"v"', '"data"')
SOME_PAIRS = """type A struct {
  x Int
  y optional Int
  z optional nullable Int
} representation listpairs"""

TEXTS = """type A union {
  | String "s:"
  | B "b:"
} representation stringprefix
type B struct {
  x String
  y C
} representation stringjoin {
  join "/"
}
type C enum {
  | D
}"""

# What is refused in Rattle, and made in other languages.
UNPROVED = [
    "type A struct {\n  kids [A]\n  next optional A\n}",
    'type A union {\n  | A "a"\n  | Int "i"\n} representation keyed',
    "type A [B]\ntype B {String:C}\ntype C = A",
    "type A [nullable B]\ntype B = C\ntype C = A",
    RECURSIVE,
    IMPLIED_MEMBERS,
    INLINE.replace("C struct { # open", "C struct {"),
    LATE_TAG,
    SOME_PAIRS,
    TEXTS,
    "type A union {\n  | B null\n  | Int int\n} representation kinded\ntype B unit",
    'type A enum {\n  | B ("-1")\n} representation int',
    'type A struct {\n  x String (implicit "a")\n}',
    "type A struct {\n  x nullable Int (implicit 0)\n}",
    "type A union {\n  | B int\n} representation kinded\ntype B int # as u8",
    f'type A{"b" * 40} struct {{\n  c{"d" * 40} Int (rename "{"é" * 41}")\n}}',
    'type A enum {\n  | Self ("\\"")\n}',
    "type Option struct {}\ntype OptionView struct {}\ntype OptionRow1 struct {}",
    "type A struct {\n" + "".join(f"  f{i} Int\n" for i in range(15)) + "} representation tuple",
    "type A struct {\n" + "".join(f"  f{i} Int (implicit 0)\n" for i in range(15)) + "}",
    "type A struct {\n  x " + "[" * 16 + "Int" + "]" * 16 + "\n}",
    "type A struct {\n" + "".join(f"  f{i} Int\n" for i in range(4)) + "} representation listpairs",
    'type A union {\n  | B "b"\n} representation inline {\n  discriminantKey "t"\n}\ntype B struct {\n' + "".join(f"  f{i} Int\n" for i in range(14)) + "}",
]

# A language, a schema, and a line of what is made from it.
MADE_IN = [
    ("python", "type A struct {\n  createdAt optional nullable [Int] # as u8\n}", "    created_at: list[int] | None | Absent = Absent.ABSENT"),
    ("python", "type A struct {\n  x optional Any\n}", "    x: Any | Absent = Absent.ABSENT"),
    ("python", "type A struct {\n  class nullable Int\n}", "    class_: int | None"),
    ("python", "type A struct {\n  toBlock Int\n  str String\n}", "    to_block_: int"),
    ("python", "type A struct {\n  x Int (rename \"$x\")\n}", '    entries["$x"] = _i64(held.x, (*at, "$x"))'),
    ("python", "type A struct { # open\n  x Int\n}", "    entries = _is(dict, value, at)"),
    ("python", "type A struct {\n  # How many.\n  x Int\n}", "    # How many."),
    ("python", "type B int # as i8\ntype A struct {\n  x B\n}", "_i8 = _integer(-(2**7), 2**7 - 1)"),
    ("python", "# A \"B\" \\\ntype A struct {\n  x Int\n}", '    """A \\"B\\" \\\\"""'),
    ("python", "type A enum {\n  | None\n}", '    None_ = "None"'),
    ("python", "type A enum {\n  | A\n}", '    A_ = "A"'),
    ("python", "type A union {\n  | Int \"i\"\n} representation keyed", "A: TypeAlias = AInt"),
    ("python", "type A struct {\n  x Int\n  y optional Int\n} representation tuple", "        _put(items, 1, at, _i64(held.y, (*at, 1)))"),
    ("python", "type A struct {\n  y optional nullable Int\n} representation tuple", "        y=_omissible(entries, 0, at, _nullable(_i64)),"),
    ("python", INLINE, '            return {"t": "b", **_write_b(value.value, at)}'),
    ("python", INLINE, '            _optional(entries, "y", at, _text)'),
    ("python", ENVELOPE, '    tag, held = _enveloped(value, at, "t", "v")'),
    ("python", "type A struct {\n  x Bool (implicit true)\n}", '        x=_implied(entries, "x", at, _bool, True),'),
    ("python", "type A struct {\n  x B (implicit 2)\n}\ntype B enum {\n  | C (\"2\")\n} representation int", "    x: B = B.C"),
    ("python", "type A struct {\n  x B (implicit \"c\")\n}\ntype B enum {\n  | C (\"c\")\n}", '    _put_implied(entries, "x", _write_b(held.x, (*at, "x")), "c")'),
    ("python", "type B struct {}\ntype A union {\n  | B map\n} representation kinded", "        case B():"),
    ("python", KEYS, "    vinyl: str | None = None"),
    ("python", "type A unit representation true", "    _unit(True, value, at)"),
    ("python", RECURSIVE, 'Node: TypeAlias = "Tree | Small"'),
    ("python", RECURSIVE + "\ntype Trees [nullable Tree]", 'Trees: TypeAlias = "list[Tree | None]"'),
    ("python", RECURSIVE + "\ntype B union {\n  | Trees list\n  | Int int\n} representation kinded\ntype Trees = Tree", 'B: TypeAlias = "Trees | int"'),
    ("python", RECURSIVE, "    return _list_of(_nullable(_write_node))(value, at)"),
    ("python", RECURSIVE, "    _bounded(at)"),
    ("python", RECURSIVE, "        case int() if not isinstance(value, bool):"),
    ("python", RECURSIVE, "            return _u8(value, at)"),
    ("python", IMPLIED_MEMBERS, '        x=_implied(entries, "x", at, _i64, 1),'),
    ("python", IMPLIED_MEMBERS, '            _optional(entries, "z", at, _text)'),
    ("python", TEXTS, '            return "b:" + _write_b(value.value, at)'),
    ("python", TEXTS, '        return AB(_read_b(whole.removeprefix("b:"), at))'),
    ("python", TEXTS, '    return _joined(at, "/", _text(held.x, at), _write_c(held.y, at))'),
    ("python", LATE_TAG, '    tag, held = _enveloped(value, at, "type", "data")'),
    ("python", SOME_PAIRS, '    pairs = _pairs(value, at, 1, "x", "y", "z")'),
    ("python", SOME_PAIRS, '        z=_omissible_paired(pairs, "z", _nullable(_i64)),'),
    ("python", 'type A struct {\n  x nullable String (implicit "\\"é\\\\")\n}', '    x: str | None = "\\"é\\\\"'),
    ("typescript", "type A struct {\n  createdAt optional nullable [Int] # as u8\n}", "  createdAt?: number[] | null;"),
    ("typescript", "type A struct {\n  constructor Int\n}", "  constructor_: bigint;"),
    ("typescript", "type A struct {\n  x [nullable Int] (rename \"$x-y\")\n}", "    '$x-y': listOf(nullable(i64))(held.x, [...at, '$x-y']),"),
    ("typescript", "type A struct {\n  x [nullable Int] (rename \"a'b\")\n}", "  const entries = fieldsOf(value, at, 'a\\'b');"),
    ("typescript", "type A struct { # open\n  x Int\n}", "  const entries = entriesOf(value, at);"),
    ("typescript", "type A struct { # open\n  x Int\n}", "  const held = object<A>(value, at);"),
    ("typescript", "type A struct {\n  x Int (rename \"y\")\n  toString Int\n}", "  const held = closed<A>(value, at, 'x', 'toString_');"),
    ("typescript", "type A union {\n  | Int \"i\"\n} representation keyed", "  const held = memberOf<A>(value, at);"),
    ("typescript", "# A /* B */\ntype A struct {\n  x Int\n}", "/** A /* B * / */"),
    ("typescript", "type A enum {\n  | B (\"18446744073709551615\")\n} representation int", "    case 18446744073709551615n:"),
    ("typescript", "type A union {\n  | Int \"i\"\n} representation keyed", "export type A = { kind: 'Int'; value: bigint };"),
    ("typescript", "type A union {\n  | Int \"__proto__\"\n} representation keyed", "      return { ['__proto__']: i64(held.value, [...at, '__proto__']) };"),
    ("typescript", "type A struct {\n  y optional Int\n} representation tuple", "  if (items.length > 0) held.y = i64(items[0], [...at, 0]);"),
    ("typescript", "type A struct {\n  x Int\n  y optional Int\n} representation tuple", "  if (held.y !== undefined) put(items, 1, at, i64(held.y, [...at, 1]));"),
    ("typescript", INLINE, "      return tagged('t', 'b', writeB(held.value, at));"),
    ("typescript", INLINE, "      if (has(entries, 'y')) field(entries, 'y', at, text);"),
    ("typescript", ENVELOPE, "  const [tag, part] = enveloped(value, at, 't', 'v');"),
    ("typescript", "type A struct {\n  x Int (implicit 3) # as u64\n}", "  putImplied(entries, 'x', u64(held.x, [...at, 'x']), 3n);"),
    ("typescript", "type A struct {\n  x B (implicit \"c\")\n}\ntype B enum {\n  | C (\"c\")\n}", "    x: implied(entries, 'x', at, readB, 'C'),"),
    ("typescript", "type A struct {\n  x B (implicit 2)\n}\ntype B enum {\n  | C (\"2\")\n} representation int", "  putImplied(entries, 'x', writeB(held.x, [...at, 'x']), 2n);"),
    ("typescript", "type B [Int]\ntype A union {\n  | B list\n} representation kinded", "    case 'list':"),
    ("typescript", KEYS, "  Vinyl?: string;"),
    ("typescript", "type A unit", "export type A = null;"),
    ("typescript", RECURSIVE, "export type Tree = (Node | null)[];"),
    ("typescript", RECURSIVE, "  return listOf(nullable(writeNode))(value, at);"),
    ("typescript", RECURSIVE, "  bounded(at);"),
    ("typescript", RECURSIVE, "      return u8(value, at);"),
    ("typescript", IMPLIED_MEMBERS, "    x: implied(entries, 'x', at, i64, 1n),"),
    ("typescript", IMPLIED_MEMBERS, "      if (has(entries, 'z')) field(entries, 'z', at, text);"),
    ("typescript", TEXTS, "      return prefixed('b:', writeB(held.value, at));"),
    ("typescript", TEXTS, "  const pieces = piecesOf(value, at, '/', 2);"),
    ("typescript", TEXTS, "    y: readC(pieces[1], at),"),
    ("typescript", LATE_TAG, "  const [tag, part] = enveloped(value, at, 'type', 'data');"),
    ("typescript", SOME_PAIRS, "  const pairs = pairsOf(value, at, 1, 'x', 'y', 'z');"),
    ("typescript", SOME_PAIRS, "  if (pairs.has('z')) held.z = paired(pairs, 'z', at, nullable(i64));"),
    ("typescript", 'type A struct {\n  x nullable String (implicit "\\"é\\\\\'")\n}', "    x: implied(entries, 'x', at, nullable(text), '\"é\\\\\\''),"),
]

# A language, a schema, and how the language refuses it.
REFUSED_IN = [
    ("python", "type A = B\ntype B = A", "1:6: `A` has no finite value"),
    ("python", "type A struct {\n  x A\n}", "1:6: `A` has no finite value"),
    ("typescript", 'type A union {\n  | B "b"\n} representation keyed\ntype B struct {\n  x A\n  y Int\n}', "1:6: `A` has no finite value"),
    ("python", 'type A union {\n  | Int "i"\n} representation envelope {\n  discriminantKey "t"\n  contentKey "t"\n}', "1:6: the tag of `A` comes after its content"),
    ("python", TEXTS.replace('"b:"', '"s:b"'), "3:5: the prefix `s:b` begins with `s:`, which is another's"),
    ("typescript", TEXTS.replace("x String", "x Int"), "6:3: `x` is not a text"),
    ("python", TEXTS.replace("y C", "y A"), "1:6: `A` is a text that holds itself"),
    ("typescript", TEXTS.replace("x String", "x optional String"), "6:3: a field of a stringjoin is always there"),
    ("python", TEXTS.replace('"/"', '""'), "5:6: a stringjoin has fields, a text between them"),
    ("typescript", "type Map struct {}", "1:6: `Map` is a name of the data model"),
    ("python", "type True struct {}", "1:6: `True` is a name that the made Python uses"),
    ("python", "type CID struct {}", "1:6: `CID` is a name that the made Python uses"),
    ("python", "type AInt int\ntype A union {\n  | Int \"i\"\n} representation keyed", "2:6: two types have the name `AInt`: this and line 1"),
    ("typescript", "type A union {\n  | B list\n  | C map\n} representation kinded\ntype B struct {} representation tuple\ntype C struct {}", "3:5: a kinded union of `B` and `C`"),
    ("typescript", "type Data struct {}", "1:6: `Data` is a name that the made TypeScript uses"),
    ("typescript", "type A struct {\n  x Int (rename \"__proto__\")\n}", "2:3: no field can be named __proto__"),
    ("typescript", "type A struct {\n  toString Int\n  toString_ Int\n}", "3:3: two fields have the name `toString_`"),
]


@dataclass
class Wider(Field):
    """A field with one more attribute."""

    also: str = "a"


KNOWN[Wider] = KNOWN[Field]


def with_another(one):
    one.representation = "another"


def with_more(one):
    one.fields.append(Wider("y", one.fields[0].type, False, "y", one.place, []))


def more_is_told(make):
    """Returns what is wrong if something that a wider parser may say is not refused."""
    for change, wanted in ((with_another, "the representation another of `A`"), (with_more, "`also` of `y`")):
        schema = Schema(parse("type A struct {\n  x Int\n}"))
        change(schema.definitions[0])
        found = refusal_by(lambda: make(schema))
        if found != f"1:6: {wanted} is not made in {make.called} yet":
            return f"{wanted} is refused by: {found}"
    return None


def refusal_by(make):
    try:
        make()
    except SchemaError as error:
        return f"{error.place.line}:{error.place.column}: {error.message}"
    return "none"


def made_in(language, text):
    """What is made from a schema: in Rattle it is to be proved."""
    schema = Schema(parse(text), is_proved=language == "rattle")
    if language == "rattle":
        return Module(schema, "trial", "trial").source()
    return LANGUAGES[language](schema).text("trial.ipldsch")


def in_all(of_rattle, of_others):
    """The tests of Rattle, with its name put first, and those of other languages, which have a name first already."""
    return [*(("rattle", *row) for row in of_rattle), *of_others]


def failures():
    """Yields None for each test that passes, and for any other what is wrong."""
    for language, text, wanted in in_all(REFUSED, REFUSED_IN):
        found = refusal_by(lambda: made_in(language, text))
        is_wanted = wanted in found and found.startswith(wanted.split(" ")[0])
        yield None if is_wanted else f"{text}\n    is refused in {language} by: {found}\n    in place of: {wanted}"
    for language, text, wanted in in_all(MADE, MADE_IN):
        made = made_in(language, text)
        if language == "python":
            compile(made, "trial.py", "exec")
        yield None if wanted in made.split("\n") else f"{text}\n    makes no line in {language}: {wanted}\n{made}"
    for text in UNPROVED:
        found, *others = [refusal_by(lambda: made_in(language, text)) for language in ("rattle", *LANGUAGES)]
        yield None if found != "none" and set(others) == {"none"} else f"{text}\n    is refused by: {found}, {others}"
    for make in LANGUAGES.values():
        yield more_is_told(make)
    count = made_in("python", "# About A.\ntype A struct { x Int y Int }").count("About A.")
    yield None if count == 1 else f"the comment above a type of one line is made {count} times"
    yield from left_alone()
    yield from line_ends()
    yield from by_hand_left()
    yield from refused_whole()
    yield from told_in_words()


def left_alone():
    """In a folder of another language each schema's file is by itself: those that are there stay, even if they are not UTF-8."""
    with tempfile.TemporaryDirectory() as name:
        folder = pathlib.Path(name)
        (folder / "other.py").write_bytes(b"# A, by ./dagcbor-types. \xff\n")
        for stem in ("a", "b"):
            schema = folder / f"{stem}.ipldsch"
            schema.write_text("type A struct {\n  x Int\n}\n", encoding="utf-8")
            write(files_of([schema], folder, "python"), False, "python")
        stand = sorted(path.name for path in folder.glob("*.py"))
        told = write(files_of([folder / "a.ipldsch"], folder, "python"), True, "python")
    wanted = ["a.py", "b.py", "other.py"]
    yield None if (stand, told) == (wanted, []) else f"{stand} stand, and {told} is told, in place of {wanted}"


def line_ends():
    """A file that differs in the ends of its lines differs."""
    with tempfile.TemporaryDirectory() as name:
        folder = pathlib.Path(name)
        (folder / "a.ipldsch").write_text("type A struct {}\n", encoding="utf-8")
        made = files_of([folder / "a.ipldsch"], folder, "python")
        write(made, False, "python")
        text = (folder / "a.py").read_bytes()
        (folder / "a.py").write_bytes(text.replace(b"\n", b"\r\n"))
        told = [len(write(made, check, "python")) for check in (True, False, True)]
        yield None if told == [1, 1, 0] and (folder / "a.py").read_bytes() == text else f"{told} differ"


def by_hand_left():
    """A file of a crate that tells of the tool stays."""
    with tempfile.TemporaryDirectory() as name:
        folder = pathlib.Path(name)
        (folder / "a.ipldsch").write_text("type A struct {}\n", encoding="utf-8")
        by_hand = folder / "crates" / "music" / "src" / "tests.rt"
        by_hand.parent.mkdir(parents=True)
        by_hand.write_text("//! Tests of the types made by ./dagcbor-types.\n", encoding="utf-8")
        write(files_of([folder / "a.ipldsch"], folder / "crates" / "music"), check=False)
        yield None if by_hand.exists() else f"{by_hand} is removed"


def refused_whole():
    """If one file is refused, none is written and none is removed."""
    with tempfile.TemporaryDirectory() as name:
        folder = pathlib.Path(name)
        schemas = [folder / f"{stem}.ipldsch" for stem in ("a", "b")]
        for schema in schemas:
            schema.write_text(f"type {schema.stem.upper()} struct {{\n  x Int\n}}\n", encoding="utf-8")
        crate = folder / "crates" / "music"
        write(files_of(schemas[:1], crate), check=False)
        (crate / "src" / "lib.rt").write_text("//! By hand.\n", encoding="utf-8")
        (folder / "b.py").write_text("# By hand.\n", encoding="utf-8")
        stand = sorted(folder.rglob("*"))
        by_hand = "was not made by this tool: move it away first"
        for made, language, wanted in ((lambda: files_of(schemas[1:], crate), None, by_hand), (lambda: files_of(schemas, folder, "python"), "python", by_hand)):
            found = crate_refusal(made, language)
            yield None if found.endswith(wanted) and sorted(folder.rglob("*")) == stand else f"{found}, and {sorted(folder.rglob('*'))} stand, in place of {stand}"
        (folder / "c").mkdir()
        other = shutil.copy(schemas[0], folder / "c")
        for language in (None, *LANGUAGES):
            found = crate_refusal(lambda: files_of([*schemas, pathlib.Path(other)], crate, language), language)
            yield None if found == f"{other}: {schemas[0]} makes the module a already" else found
        same = [shutil.copy(schema, folder / f"{stem}.ipldsch") for schema, stem in zip(schemas, ("c1", "c_1"))]
        found = crate_refusal(lambda: files_of(list(map(pathlib.Path, same)), crate), None)
        yield None if found == "c1 and c_1 have one name in specs: C1" else found


def told_in_words():
    """What the system refuses is told in one line too."""
    with tempfile.TemporaryDirectory() as name:
        folder = pathlib.Path(name)
        (folder / "a.ipldsch").write_text("type A struct {}\n", encoding="utf-8")
        (folder / "file").write_text("", encoding="utf-8")
        (folder / "a.py").mkdir()
        for into in (folder, folder / "file"):
            status, log = ran(ROOT / "dagcbor-types", "--language", "python", folder / "a.ipldsch", into, folder=folder)
            yield None if status == 1 and log.startswith("dagcbor-types: ") and log.count("\n") == 1 else f"{into}: {log}"


def crate_refusal(made, language):
    try:
        write(made(), False, language)
    except CrateError as error:
        return str(error)
    return "none"


def judge(results):
    """Prints what is told of each result, if anything: it counts a number of tests, and they passed or not. Then it ends."""
    counts = {True: 0, False: 0}
    for count, passed, told in results:
        counts[passed] += count
        if told:
            print(told, flush=True)
    print(f"{counts[True]} passed, {counts[False]} failed")
    sys.exit(1 if counts[False] else 0)


# ---- schemas at random

ROOT = pathlib.Path(__file__).resolve().parent.parent
BATCH = 5  # schemas of a crate


def below(names, table):
    """These crates, and all below them, by the lines of crates.txt."""
    found = []
    for name in names:
        line = re.search(rf"^{name}(?: [^:\n]*)?:(.*)$", table, re.MULTILINE)
        if line:
            found += [other for other in [*below(line[1].split(), table), name] if other not in found]
    return list(dict.fromkeys(found))


def copied(folder):
    """Copies the crates that made types stand on, with what is kept of their proofs."""
    table = (ROOT / "crates.txt").read_text(encoding="utf-8")
    names = below(STANDS_ON.split(), table)
    (folder / "crates").mkdir()
    for name in names:
        subprocess.run(["cp", "-a", ROOT / "crates" / name, folder / "crates" / name], check=True)
    shutil.copy(ROOT / "HANDLES", folder / "HANDLES")
    rows = [row for row in table.split("\n") if row.split(":")[0].split(" ")[0] in names]
    return "\n".join(rows) + "\n"


def ran(*command, folder):
    result = subprocess.run(command, cwd=folder, stdin=subprocess.DEVNULL, capture_output=True, text=True)
    return result.returncode, result.stdout + result.stderr


def batches(seeds):
    """The seeds in batches, each for one crate: no two schemas of a batch have a type of the same name."""
    made, names = [], []
    for seed in seeds:
        found = {one.name for one in Schema(parse(drawn(seed))).definitions}
        for place, batch in enumerate(made):
            if len(batch) < BATCH and not found & names[place]:
                batch.append(seed)
                names[place] |= found
                break
        else:
            made.append([seed])
            names.append(found)
    return made


def judged(batch, folder, table):
    """Returns what becomes of the schemas of these seeds, as modules of one crate: a line, and the log if it fails."""
    crate = folder / "crates" / f"drawn_{batch[0]}"
    sources = [folder / f"seed_{seed}.ipldsch" for seed in batch]
    for seed, source in zip(batch, sources):
        source.write_text(drawn(seed), encoding="utf-8")
    (folder / "crates.txt").write_text(table, encoding="utf-8")
    write(files_of(sources, crate), check=False)
    made = {path: path.read_text(encoding="utf-8") for path in crate.rglob("*") if path.is_file()}
    start = time.monotonic()
    status, log = ran("rt", "check", "--jobs", "2", folder=crate)
    took = f"{time.monotonic() - start:.0f} s"
    functions = re.search(rf"crate {crate.name}:.*\nlogic=proved functions=(\d+)", log)
    if status or not functions:
        return f"not proved, {took}", log
    others = laid_out(crate, made)
    shutil.rmtree(crate)
    if others:
        return f"proved, and laid out by rt fmt in another way: {others}", log
    return f"proved, {functions[1]} functions, {took}", None


def laid_out(crate, made):
    """Returns which of these files `rt fmt` lays out differently, or what it says if it fails."""
    status, log = ran("rt", "fmt", folder=crate)
    return (log or "rt fmt failed") if status else " ".join(path.name for path, text in made.items() if path.read_text(encoding="utf-8") != text)


def layout(count, first):
    with tempfile.TemporaryDirectory() as name:
        folder = pathlib.Path(name)
        (folder / "crates.txt").write_text("", encoding="utf-8")
        for seed in range(first, first + count):
            source = folder / f"seed_{seed}.ipldsch"
            source.write_text(drawn(seed), encoding="utf-8")
            crate, made = files_of([source], folder / "crates" / f"drawn_{seed}")
            write((crate, made), check=False)
            others = laid_out(crate, made)
            yield 1, not others, f"seed {seed}: laid out by rt fmt in another way: {others}" if others else None


# A schema, and edits of it: the edit's name, a line of the schema, and the line that takes its place.
EDITED = """type Format enum {
  | Vinyl
  | Tape ("tape")
}

type Length int # as u16

type Side union {
  | Length "minutes"
  | Format "format"
} representation keyed

type Track struct {
  title String
  note optional String
  side Side
  seconds Length
}

type Take struct {
  gain Int (implicit -3) # as i8
}
"""
EDITS = [
    ("a field renamed", "  title String", '  title String (rename "name")'),
    ("an optional field made required", "  note optional String", "  note nullable String"),
    ("a bound", "type Length int # as u16", "type Length int # as u32"),
    ("an enum's text", '  | Tape ("tape")', '  | Tape ("Tape")'),
    ("a member's key", '  | Length "minutes"', '  | Length "seconds"'),
    ("what a field means", "(implicit -3)", "(implicit -4)"),
    ("other keys skipped", "type Track struct {", "type Track struct { # open"),
]


def wrong():
    """The code is that of the schema as it was, and the specs are those of the edited one."""
    with tempfile.TemporaryDirectory() as name:
        folder = pathlib.Path(name)
        table = copied(folder)
        (folder / "crates.txt").write_text(table, encoding="utf-8")
        source, crate = folder / "edited.ipldsch", folder / "crates" / "edited_types"
        source.write_text(EDITED, encoding="utf-8")
        made = files_of([source], crate)
        write(made, check=False)
        right = {path: text for path, text in made[1].items() if path.parent.name == "specs"}
        for what, old, new in [("nothing", "", ""), *EDITS]:
            source.write_text(EDITED.replace(old, new, 1), encoding="utf-8")
            for path, text in files_of([source], crate)[1].items():
                if path in right:
                    path.write_text(text, encoding="utf-8")
            status, log = ran("rt", "check", "--jobs", "2", folder=crate)
            refused = sorted(set(re.findall(r"fn edited_types::(\S+): no(?:t proved| proof)", log)))
            holds = not status and not refused if what == "nothing" else bool(status and refused)
            told = f"{'not ' * (what != 'nothing')}proved {', '.join(refused)}".rstrip() if holds else f"WRONG\n{log[-3000:]}"
            yield 1, holds, f"{what}: {told}"


def prove(count, first):
    with tempfile.TemporaryDirectory() as name:
        folder = pathlib.Path(name)
        table = copied(folder)
        for batch in batches(range(first, first + count)):
            line, log = judged(batch, folder, table)
            told = f"{'seed' if len(batch) == 1 else 'seeds'} {' '.join(map(str, batch))}: {line}"
            rows = [row for row in (log or "").split("\n") if re.search(r"not proved|no proof|error", row)]
            yield len(batch), log is None, told if log is None else told + "\n" + "\n".join(rows)[:4000]


def main():
    words = sys.argv[1:]
    if words[:1] == ["draw"]:
        print(drawn(int(words[1])), end="")
    elif words[:1] in (["prove"], ["layout"]):
        make = {"prove": prove, "layout": layout}[words[0]]
        judge(make(int(words[1]), int(words[2]) if len(words) > 2 else 0))
    elif words[:1] == ["wrong"]:
        judge(wrong())
    else:
        judge((1, told is None, told) for told in failures())


if __name__ == "__main__":
    main()
