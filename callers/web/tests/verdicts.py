"""What the page says of blocks: the tables that all callers share, and what is typed."""

import json

from making import cid_text, entries, head, items, link, named, rows, some, text
from browser import By, Keys, same

NAMES = {
    -1: "Msg", -3: "Eof", -4: "Mismatch", -5: "Unsupported", -8: "RequireUtf8", -12: "DepthOverflow",
    -14: "TrailingData", -15: "IndefiniteSize", -16: "NonMinimal", -17: "UnorderedKey",
}  # fmt: skip
KINDS = ["null", "boolean", "integer", "text", "bytes", "list", "map", "link"]


def table(page):
    """Rows of the table: the verdict, the place, the name, the count of items, the bytes."""
    for hexed, kind, _, _, name, tokens, place, before in some(rows("table")):
        block = bytes.fromhex(hexed.replace("-", ""))
        page.give_bytes(block)
        title = page.text(".banner h2")
        same(page.text(".facts .cid"), cid_text(bytes.fromhex(name)), hexed)
        if int(kind) >= 0:
            assert title.endswith(f"A block: {KINDS[int(kind)]}"), (hexed, title)
            count = len(tokens.split(","))
            assert page.text(".banner p").startswith(f"{count} item"), hexed
            same(page.count(".is-fault"), 0, hexed)
            page.driver.find_element(By.CSS_SELECTOR, ".tree").click()
        else:
            same(page.text(".banner code.name"), NAMES[int(kind)], hexed)
            assert len(page.text(".banner p")) > 40, hexed  # the sentence
            found = page.js("return document.querySelector('.bytes .byte.is-fault:not(.is-end)')?.dataset.at ?? null")
            same(found, None if int(place) == len(block) else place, hexed)
            assert page.count(".where") and page.count(".item.k-fault"), hexed
            whole = 0 if before == "-" else len(before.split(","))
            same(page.js("return document.querySelector('.item.k-fault').id"), f"item-{whole}", hexed)
        shown = "".join(page.texts(".hex .byte:not(.is-end)"))
        assert hexed.replace("-", "").startswith(shown[: len(hexed)]), hexed
    return f"{len(some(rows('table')))} rows"


def before_fault(page):
    """What stands before a refusal is shown, by lists and maps that are cut."""
    block = head(5, 3) + text("a") + head(4, 3) + b"\x01\x02\xf7"
    page.give_bytes(block)
    same(page.texts(".item .value"), ["{ 3 entries }", "[ 3 items ]", "1", "2", "refused here"])
    same(page.texts(".item .note"), ["1 before the fault"])
    page.give_bytes(head(5, 2) + text("bb") + b"\x01" + text("a") + b"\x02")
    same(page.texts(".item .value"), ["{ 2 entries }", "1", "refused here"])
    same(page.js("return document.querySelector('.bytes .is-fault').dataset.at"), "6")
    return "a value and a key"


def pasted(page):
    """Hexadecimal, base64, DAG-JSON, and what is none of these."""
    for given, title in [("0x83 01\n02:03", "list"), ("gwECAw==", "list"), ('{"b": [], "a": null}', "map")]:
        page.give(given)
        assert page.text(".banner h2").endswith(f"A block: {title}"), given
    for given in ("?", "zz", "1e3", "[1.5]", '{"a": 1, "a": 2}', '{"/": "no"}', "["):
        page.give(given)
        assert page.text("#said") and not page.count(".banner"), given
    return "three ways"


def texts(page):
    """Each text of a CID is read in DAG-JSON, and shown as the library writes it; or it is refused."""
    found = rows("texts")
    for given, code, binary, wanted in found:
        page.give(json.dumps({"/": "" if given == "-" else given}))
        if code == "0":
            same(page.text(".item .value"), wanted, given)
            same(page.text(".facts .cid"), cid_text(named(link(bytes.fromhex(binary)))), given)
        else:
            assert page.text("#said").startswith("DAG-JSON. Line 1: not the text of a CID: "), given
            assert "refused" not in page.text("#said") and not page.count(".banner"), given
    return f"{len(found)} texts"


def pointing(page):
    """An item marks its bytes, and a byte its item; the keys of the keyboard do."""
    page.give_bytes(bytes.fromhex("a2626f668201026474657874626869"))
    tree = page.driver.find_element(By.CSS_SELECTOR, ".tree")
    tree.send_keys(Keys.ARROW_DOWN)
    marked = "return [...document.querySelectorAll('.hex .' + arguments[0])].map((it) => Number(it.dataset.at))"
    same(page.js(marked, "is-own"), [1, 2, 3, 4])
    same(page.js(marked, "is-around"), [5, 6])
    tree.send_keys(Keys.ARROW_LEFT)
    same(page.texts(".item .key"), ['"of"', '"text"'])
    page.js("document.querySelector('.hex [data-at=\"6\"]').click()")
    same(page.text(".item[aria-selected=true] .value"), "2")
    page.driver.find_element(By.CSS_SELECTOR, ".bytes").send_keys(Keys.ARROW_RIGHT)
    assert "key" in page.text(".details h3"), page.text(".details h3")
    same(page.text(".item[aria-selected=true] .key"), '"text"')
    page.js("document.querySelector('.hex [data-at=\"13\"]').dispatchEvent(new MouseEvent('mousemove', { bubbles: true }))")
    same(page.text(".item.is-pointed .value"), '"hi"')
    return "both ways"


def linked(page):
    """The links of a block, each with the way to where it stands."""
    cids = [named(b"\xf6"), named(b"raw", 0x55)]
    page.give_bytes(entries(a=link(cids[0]), b=items(link(cids[1]))))
    page.tab("Links 2")
    same(page.texts(".links .cid"), [cid_text(it) for it in cids])
    page.js("document.querySelectorAll('.links .path')[1].click()")
    same(page.text(".item[aria-selected=true] .value"), cid_text(cids[1]))
    same(page.text(".details .cid"), cid_text(cids[1]))
    return "two"


TESTS = [table, before_fault, pasted, texts, pointing, linked]
