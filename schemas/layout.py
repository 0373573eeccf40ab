"""The layout of `rt fmt` for the forms that are made here."""

import re
from dataclasses import dataclass

WIDTH = 100  # of a line
INSIDE = 60  # of what stands between brackets on one line
INSIDE_STRUCT = 18  # the same of a struct's fields
SHORT_IF = 50  # of an `if` with its `else`
SHORT = 10  # of an item of a list, if several stand on a line


@dataclass
class Group:
    """What stands between brackets: a call, a list, a tuple, a struct."""

    head: str
    items: list
    close: str
    most: int = INSIDE

    def flat(self):
        inside = ", ".join(flat(item) for item in self.items)
        space = " " if self.head.endswith("{") and inside else ""
        return f"{self.head}{space}{inside}{space}{self.close}"

    def fits(self, indent, behind):
        inside = ", ".join(flat(item) for item in self.items)
        return len(inside) <= self.most and indent + len(self.flat()) + len(behind) <= WIDTH


def flat(node):
    return node if isinstance(node, str) else node.flat()


def lines(node, indent, behind=""):
    """The lines of a node: one if it fits, else one for each item."""
    margin = " " * indent
    if isinstance(node, str) or node.fits(indent, behind):
        return [margin + flat(node) + behind]
    made = [margin + node.head]
    if node.head.endswith(("[", "(")) and node.most and all(len(flat(item)) <= SHORT for item in node.items):
        return made + filled_items(node.items, indent + 4) + [margin + node.close + behind]
    for item in node.items:
        made += lines(item, indent + 4, "" if item == ".." else ",")
    return made + [margin + node.close + behind]


def arm(pattern, call, indent):
    """An arm of a `match`."""
    whole = Group(f"{pattern} => {call.head}", call.items, call.close, call.most)
    if whole.fits(indent, ",") or indent + len(whole.head) <= WIDTH:
        return lines(whole, indent, ",")
    return [" " * indent + f"{pattern} =>"] + lines(call, indent + 4, ",")


def block_arm(pattern, rows_at, indent):
    """An arm of a `match` that is a block, of these rows at an indent."""
    margin, head = " " * indent, " " * indent + f"{pattern} => {{"
    if len(head) <= WIDTH:
        return [head, *rows_at(indent + 4), margin + "}"]
    return [margin + f"{pattern} =>", margin + "    {", *rows_at(indent + 8), margin + "    }"]


def filled_items(items, indent):
    """Short items of a list, as many on each line as fit."""
    made, line = [], " " * (indent - 1)
    for item in items:
        if len(line) + len(flat(item)) + 2 >= WIDTH:
            made.append(line)
            line = " " * (indent - 1)
        line += f" {flat(item)},"
    return made + [line]


def filled(head, words, close):
    """A `use` of these words: on one line, or as many on each line as fit."""
    one = f"{head}{{{', '.join(words)}}}{close}" if len(words) > 1 else f"{head}{words[0]}{close}"
    if len(one) <= WIDTH - 2 or len(words) == 1:
        return [one]
    if len(f"    {', '.join(words)},") <= WIDTH:
        return [head + "{", f"    {', '.join(words)},", "}" + close]
    return [head + "{", *filled_items(words, 4), "}" + close]


def typed(head, kind, indent, close):
    """A type after what names it: if the line is too long, each of its parameters has a line of its own."""
    margin = " " * indent
    if len(margin + head + kind + close) <= WIDTH and longest_tuple(kind) <= INSIDE or not (kind.startswith("(") or "<" in kind):
        return [margin + head + kind + close]
    if kind.startswith("("):
        name, inside, end = "(", kind[1:-1], ")"
    else:
        name, inside = kind[:-1].split("<", 1)
        name, end = name + "<", ">"
    made = [f"{margin}{head}{name}"]
    for part in split_parameters(inside):
        made += typed("", part, indent + 4, ",")
    return made + [f"{margin}{end}{close}"]


def longest_tuple(kind):
    """The size of what stands between the parentheses of the longest tuple in a type."""
    starts, longest = [], 0
    for place, char in enumerate(kind):
        if char == "(":
            starts.append(place)
        elif char == ")":
            longest = max(longest, place - starts.pop() - 1)
    return longest


def split_parameters(inside):
    found, depth = [""], 0
    for char in inside:
        depth += {"<": 1, "(": 1, ">": -1, ")": -1}.get(char, 0)
        if char == "," and depth == 0:
            found.append("")
        else:
            found[-1] += char
    return [part.strip() for part in found]


def in_order(words):
    """Orders numbers in names by their size: T9 before T18."""
    return sorted(words, key=lambda word: [(part.isdigit(), int(part) if part.isdigit() else part) for part in re.findall(r"[0-9]+|[^0-9]+", word)])


def split(head, words, close):
    """The same for `ghost use` and for imports in specs, which cannot be split over lines: several, if one is too long."""
    made, some = [], []
    for word in words:
        if some and len(f"{head}{{{', '.join(some + [word])}}}{close}") > WIDTH:
            made.append(f"{head}{{{', '.join(some)}}}{close}")
            some = []
        some.append(word)
    return made + [f"{head}{{{', '.join(some)}}}{close}"]


def ghost(name, rows):
    if len(rows) == 1:
        return [f"    ghost {name} = {{ {rows[0]} }};"]
    return [f"    ghost {name} = {{ {rows[0]}", *rows[1:-1], f"{rows[-1]} }};"]


def impl(head, *items):
    """An impl of these items, given as lines. If its head is long, it takes two lines."""
    head = f"impl{head} {{"
    if len(head) > WIDTH:
        head = head.replace(" for ", "\n    for ")
    return ["", *head.split("\n"), *[line for item in items for line in ("", *item)][1:], "}"]


def function(name, parameters, result, body):
    """A function of an impl."""
    return [*lines(Group(f"fn {name}(", parameters, f") -> {result} {{", WIDTH), 4), *body, "    }"]


def taken(word):
    """The lines of an arm that take the value of an option, or give up."""
    line = f"                let {word} = {word}?;"
    return [line] if len(line) <= WIDTH else [f"                let {word} =", f"                    {word}?;"]


def row_of(values, end="tt"):
    """A row of values, in pairs, before what stands at the end."""
    return "".join(f"({value}, " for value in values) + end + ")" * len(values)


def pairs_of(rows, end="tt"):
    """What the parts of a row mean, in pairs, before what stands at the end."""
    flat = row_of(rows, end)
    if len(flat) <= 74:
        return [f"λ v. {flat}"]
    made, indent = ["λ v. ("], 6
    for place, row in enumerate(rows):
        margin = " " * indent
        rest = row_of(rows[place + 1 :], end)
        made.append(f"{margin}{row},")
        if place == len(rows) - 1 or len(margin + rest) + 1 <= 100:
            made.append(f"{margin}{rest},")
            break
        made.append(f"{margin}(")
        indent += 2
    while indent > 6:
        indent -= 2
        made.append(" " * indent + "),")
    return [*made, "    )"]
