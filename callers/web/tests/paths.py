"""Paths: the one to the picked item, which is copied, and the field that takes one."""

from making import entries, header, items, link, named, section, text
from browser import Keys, same

BLOCK = entries(tags=items(b"\x01", b"\x20"), who=entries(name=text("Grace")))


def shown(page):
    return page.text(".details .path"), page.text(".details .hint .path")


def of_items(page):
    page.give_bytes(BLOCK)
    page.js("document.querySelector('.tree').focus()")
    found = [page.text(".details .hint .path")]
    for _ in range(5):
        page.press(Keys.ARROW_DOWN)
        found.append(page.text(".details .hint .path"))
    same(sorted(found), sorted(["(empty)", "tags", "tags/0", "tags/1", "who", "who/name"]))
    page.js("window.copied = []; navigator.clipboard.writeText = async (it) => { window.copied.push(it); }")
    page.press("p")
    page.wait("window.copied.length || document.querySelector('.copy-path').textContent !== 'Copy path'")
    return f"{len(found)} items"


def hidden_keys(page):
    page.give_bytes(b"\xa2\x60\x01\x63a/b\x02")
    page.js("document.querySelector('.tree').focus()")
    page.press(Keys.ARROW_DOWN)
    same(page.count(".copy-path"), 0)
    page.press(Keys.ARROW_DOWN)
    same(page.text(".details .hint:last-of-type"), "No path leads here: a key on the way is empty or has a slash.")
    return "an empty key, and one with a slash"


def go(page, path):
    page.js("const it = document.querySelector('.path-field'); it.value = arguments[0]; it.focus()", path)
    page.press(Keys.ENTER)
    return page.text(".details .hint .path"), page.text(".details .left")


def by_field(page):
    page.give_bytes(BLOCK)
    for path, wanted in [
        ("who/name", ("who/name", None)), ("/tags//1/", ("tags/1", None)), ("", ("(empty)", None)),
        ("tags/01", ("tags", "Nothing is there at 01")), ("who/name/x/y", ("who/name", "Nothing is there at x/y")),
        ("nobody", ("(empty)", "Nothing is there at nobody")), ("9" * 5000, ("(empty)", f"Nothing is there at {'9' * 5000}")),
    ]:  # fmt: skip
        same(go(page, path), wanted, path[:20])
    page.give_bytes(items(link(named(b"\xf6"))))
    same(go(page, "0/a"), ("0", "It goes on in the block of this link: a"))
    page.give_bytes(b"\x82\x00\x18\x17")
    same(page.count(".path-field"), 0)  # of what is refused
    return "paths, fronts of paths, and a link"


def in_a_file(page):
    leaf = entries(name=text("leaf"))
    node = items(link(named(leaf)))
    page.give_car(header(named(node)) + section(named(node), node) + section(named(leaf), leaf))
    page.js("document.querySelector('[role=row][aria-rowindex=\"2\"] [role=gridcell]').click()")
    page.wait("document.querySelector('.block')")
    same(go(page, "0/name"), ("0", "It goes on in the block of this link: name"))
    return "a section of a file"


TESTS = [of_items, hidden_keys, by_field, in_a_file]
