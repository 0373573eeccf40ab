"""What a screen reader is told: Chromium's tree of roles and names."""

from making import entries, header, items, link, named, section, text
from browser import same


NAMED = {
    "button", "link", "textbox", "searchbox", "checkbox", "tab", "tree", "treeitem", "grid", "listbox", "option", "progressbar",
    "region", "heading", "tabpanel", "navigation", "columnheader", "gridcell",
}  # fmt: skip


def seen(page):
    """The nodes that are not ignored: role, name, properties."""
    found = []
    for node in page.cdp("Accessibility.getFullAXTree")["nodes"]:
        if node.get("ignored"):
            continue
        properties = {it["name"]: it["value"].get("value") for it in node.get("properties", [])}
        found.append((node["role"]["value"], node.get("name", {}).get("value", ""), properties))
    return found


def of(nodes, role):
    return [(name, properties) for it, name, properties in nodes if it == role]


def names(nodes, role):
    return [name for name, _ in of(nodes, role)]


def all_named(nodes):
    """Each thing that has a role to play has a name, and so has all that takes the focus."""
    for role, name, properties in nodes:
        assert role not in NAMED or name.strip(), (role, properties)
        assert not properties.get("focusable") or name.strip() or role == "RootWebArea", (role, properties)


def first(page):
    nodes = seen(page)
    all_named(nodes)
    same(names(nodes, "heading"), ["Look at DAG-CBOR", "Begin with an example", "Or with your own"])
    same(sorted(it.split(" ")[0] for it in names(nodes, "button")), ["A", "A", "A", "Choose", "Look"])
    same(names(nodes, "textbox"), ["Or paste hexadecimal, base64 or DAG-JSON"])
    same(page.js("return document.documentElement.lang"), "en")
    return f"{len(nodes)} nodes"


def block(page):
    page.give_bytes(entries(name=text("Grace"), tags=items(b"\x01", b"\x20")))
    page.js("document.querySelector('.tree').focus()")
    nodes = seen(page)
    all_named(nodes)
    told = ["map of 2 entries", '"name": text "Grace"', '"tags": list of 2 items', "0: integer 1", "1: negative integer -1"]
    same(names(nodes, "treeitem"), told)
    tree = [it for _, it in of(nodes, "treeitem")]
    same([it.get("level") for it in tree], [1, 2, 2, 3, 3])
    same([it.get("expanded") for it in tree], [True, None, True, None, None])
    same([bool(it.get("selected")) for it in tree], [True, False, False, False, False])
    same(names(nodes, "tab"), ["Tree and bytes", "Links 0", "DAG-JSON", "Edit"])
    same([bool(it.get("selected")) for _, it in of(nodes, "tab")], [True, False, False, False])
    same(names(nodes, "tabpanel"), ["Tree and bytes"])
    same(names(nodes, "option")[:2], ["a2, byte 0", "64, byte 1"])
    same(names(nodes, "region"), ["The picked item"])
    assert page.text(".details [aria-live=polite]").startswith("map the whole block"), page.text(".details")
    assert "polite" in [it.get("live") for _, _, it in nodes]
    page.tab("Edit")
    page.wait("document.querySelector('.spelled .cid')")
    nodes = seen(page)
    all_named(nodes)
    same(names(nodes, "textbox"), ["DAG-JSON of the block"])
    status = [it for role, _, it in nodes if role == "status"]
    assert any(it.get("live") == "polite" for it in status), status
    described = [it for role, name, it in nodes if role == "textbox"]
    assert "describedby" in described[0], described
    return "tree, bytes, tabs, the picked item, the editor"


def refused(page):
    page.give_bytes(b"\x82\x00\x18\x17")
    nodes = seen(page)
    all_named(nodes)
    assert any("No block: a number in more bytes than it needs NonMinimal" in it for it in names(nodes, "heading")), names(nodes, "heading")
    same(page.js("return document.activeElement.localName"), "h2")  # it is read out
    same(names(nodes, "treeitem"), ["list of 2 items", "0: integer 0", "1: refused here"])
    page.clear()
    page.give("?")
    alerts = [it for role, _, it in seen(page) if role == "alert"]
    same([it.get("live") for it in alerts], ["assertive"])
    return "the heading has the focus, and an alert is one"


def file(page):
    leaf = text("leaf")
    node = items(link(named(leaf)), link(named(b"\xf6")))
    page.give_car(header(named(node)) + section(named(node), node) + section(named(leaf), b"\x64lead"))
    nodes = seen(page)
    all_named(nodes)
    same(names(nodes, "columnheader"), ["#", "Verdict", "CID", "Size", "Offset"])
    grid = of(nodes, "grid")
    same(len(grid), 1)
    cells = names(nodes, "gridcell")
    same([cells[1], cells[6]], ["list", "other bytes"])
    rows = page.js("return [...document.querySelectorAll('[role=row]')].map((it) => it.getAttribute('aria-rowindex'))")
    same(rows, ["1", "2", "3"])
    same(page.js("return document.querySelector('[role=grid]').getAttribute('aria-rowcount')"), "3")
    pressed = [(name.split(" ")[0], it.get("pressed")) for name, it in of(nodes, "button") if "pressed" in it]
    same(pressed[0], ("All", "true"))
    same(names(nodes, "searchbox"), ["Show sections whose CID has this in it"])
    return "the table, its cells, filters"


TESTS = [first, block, refused, file]
