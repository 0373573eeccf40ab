"""The editor: DAG-JSON to a block, at once."""

import glob
import json
import os
import time

from making import cid_text, entries, named, rows, some, text
from browser import By, Keys, same

TYPE = """const it = document.querySelector('textarea.json'); it.value = arguments[0];
it.dispatchEvent(new Event('input', { bubbles: true }));"""
MADE = "document.querySelector('#spelled.is-good')"
VECTORS = os.path.join(os.path.dirname(os.path.realpath(__file__)), "../../../conformance/vectors/dag-json.jsonl")
FORMS = ("dag-json/link-", "dag-json/bytes-", "dag-json/reserved-", "dag-json/near-", "dag-json/repeated-")


def there_and_back(page):
    """The DAG-JSON of blocks of the table spells the same block, with the same CID."""
    count = 0
    for hexed, kind, *_ in some(rows("table")):
        if int(kind) < 0 or "612f" in hexed:  # the key / is kept in DAG-JSON
            continue
        page.give_bytes(bytes.fromhex(hexed))
        name = page.text(".facts .cid")
        page.tab("Edit")
        page.wait(MADE)
        same(page.text(".spelled .cid"), name, hexed)
        same(page.text(".spelled .whole").replace(" ", ""), hexed, hexed)
        page.button("Open the block", ".editor")
        page.wait("document.querySelector('#crumbs [aria-current]')?.textContent === 'edited'")
        same(page.text(".facts .cid"), name, hexed)
        count += 1
    return f"{count} blocks"


def typed(page):
    """What is typed is spelled at once, key by key; keys are put in order; what is not DAG-JSON is told by its line."""
    page.give("a0")
    page.tab("Edit")
    page.wait(MADE)
    area = page.driver.find_element(By.CSS_SELECTOR, "textarea.json")
    area.send_keys(Keys.CONTROL, "a")
    area.send_keys('{"year": 1906, "of": [true')
    page.wait("document.querySelector('#spelled.is-bad')")
    assert page.text("#spelled").startswith("Line 1: "), page.text("#spelled")
    same(page.js("return document.querySelector('textarea.json').getAttribute('aria-invalid')"), "true")
    same(page.js("return [...document.querySelectorAll('.editor .tools button')].map((it) => it.disabled)"), [True, True])
    area.send_keys("]}")
    page.wait(MADE)
    block = entries(of=b"\x81\xf5", year=b"\x19\x07\x72")
    same(page.text(".spelled .cid"), cid_text(named(block)))
    same(page.text(".spelled .whole").replace(" ", ""), block.hex())
    for given, said in [
        ("[1,\n 2.5]", "Line 2: floats"), ('{"a": 1,\n\n"a": 2}', "a key comes twice"), ("[18446744073709551616]", "an integer goes"),
        ('{"/": {"bytes": "?"}}', "no base64"), ("[" * 200 + "]" * 200, "DepthOverflow"), ('"\\ud800"', "surrogate"),
    ]:  # fmt: skip
        page.js(TYPE, given)
        page.wait("document.querySelector('#spelled.is-bad')")
        page.wait(f"document.querySelector('#spelled').textContent.includes({said!r})", 10)
    page.js(TYPE, "")
    page.wait("document.querySelector('#spelled.hint')")
    return "key by key, and six that are none"


def reserved(page):
    """Links, byte strings, the ends of integers, and escapes."""
    cid = named(b"\xf6")
    given = '{"l": {"/": "%s"}, "b": {"/": {"bytes": "AQID"}}, "i": [-18446744073709551616, 18446744073709551615], "t": "\\u00e9\\n"}' % cid_text(cid)
    page.give(given)
    wanted = entries(
        l=b"\xd8\x2a\x58\x25\x00" + cid, b=b"\x43\x01\x02\x03", i=b"\x82\x3b" + b"\xff" * 8 + b"\x1b" + b"\xff" * 8, t=text("é\n")
    )  # fmt: skip
    same(page.text(".facts .cid"), cid_text(named(wanted)))
    return "one block of them"


def kept(page):
    """A block with a map that has the key / is not edited: its text is that of a link, of bytes, or of nothing."""
    cid = named(b"\xf6")
    octets = entries(**{"/": entries(bytes=text("AQID"))})
    more = entries(**{"/": text(cid_text(cid)), "a": b"\x01"})
    for block in (entries(**{"/": text(cid_text(cid))}), octets, entries(**{"/": b"\x01"}), b"\x81" + octets, more):
        page.give_bytes(block)
        page.tab("Edit")
        page.wait("document.querySelector('textarea.json').placeholder.includes('the key \"/\"')")
        same(page.js("return document.querySelector('textarea.json').value"), "", block.hex())
        same(page.js(f"return Boolean({MADE})"), False, block.hex())
    return "five that are not edited"


def vectors(page):
    """Forms of links, bytes and reserved keys, as the vectors of conformance/ say of them."""
    with open(VECTORS, encoding="utf-8") as file:
        rows = [it for it in map(json.loads, file) if it["id"].startswith(FORMS)]
    page.give("a0")
    page.tab("Edit")
    for it in rows:
        page.js(TYPE, "")
        page.wait("document.querySelector('#spelled.hint')")
        page.js(TYPE, it["text"])
        page.wait("document.querySelector('#spelled.is-good, #spelled.is-bad')")
        found = page.js("return document.querySelector('#spelled.is-good + .spelled .whole')?.textContent ?? ''")
        same(found.replace(" ", ""), it.get("block", ""), it["text"])
    assert len(rows) > 30
    return f"{len(rows)} of them"


def downloaded(page):
    """What is downloaded is the block that was typed, under its CID."""
    page.cdp("Browser.setDownloadBehavior", behavior="allow", downloadPath=page.folder)
    page.give('{"hello": "world"}')
    page.tab("Edit")
    page.wait(MADE)
    page.js(TYPE, '{"hello": ["world", 1]}')
    block = entries(hello=b"\x82" + text("world") + b"\x01")
    page.wait(f"document.querySelector('.spelled .cid')?.textContent === '{cid_text(named(block))}'")
    page.button("Download", ".editor")
    path = f"{page.folder}/{cid_text(named(block))}.dagcbor"
    began = time.monotonic()
    while not os.path.exists(path) and time.monotonic() - began < 10:
        time.sleep(0.05)
    with open(path, "rb") as file:
        same(file.read(), block)
    same(len(glob.glob(f"{page.folder}/*.dagcbor")), 1)
    return "the block"


TESTS = [there_and_back, typed, reserved, kept, vectors, downloaded]
