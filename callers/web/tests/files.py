"""CAR files: sections with each kind of damage, and the way through them."""

import os
import time

from making import cid_text, entries, head, header, items, link, named, rows, section, second, text, varint
from browser import QUIET, By, Keys, same

COUNT = 100_000
SECTIONS = ".section:not(.is-head)"
LEAF, RAW = text("leaf"), b"raw bytes"
DONE = "document.querySelector('.car[data-done]')"


def shown_verdicts(page):
    return [it.strip() for it in page.texts(f"{SECTIONS} .verdict")]


def damaged(page):
    """A section with each verdict, what is missing, and the way by links there and back."""
    gone, spoiled = named(b"\xf6"), named(text("good"))
    node = entries(to=items(link(named(LEAF)), link(gone), link(spoiled)), raw=link(named(RAW, 0x55)))
    sections = [
        section(named(node), node), section(named(LEAF), LEAF), section(named(RAW, 0x55), RAW),
        section(named(b"\x18\x17"), b"\x18\x17"), section(spoiled, text("evil")),
        section(bytes([1, 0x71, 0x13, 1, 5]), b"\x05"), section(named(RAW, 0x55), b"raw bites"),
    ]  # fmt: skip
    page.give_car(header(named(node)) + b"".join(sections))
    same(shown_verdicts(page), ["map", "text", "raw bytes", "NonMinimal", "other bytes", "not verified", "other bytes"])
    same(page.texts(".missing .cid"), [cid_text(gone), cid_text(spoiled)])
    same(page.texts(".roots .cid"), [cid_text(named(node))])
    page.js("document.querySelector('.chip.is-refused').click()")
    same(shown_verdicts(page), ["NonMinimal"])
    page.js("document.querySelector('.chip.is-all').click()")
    # Root, then its link, and back.
    page.js("document.querySelector('.roots button').click()")
    page.wait("document.querySelector('#crumbs').children.length === 2 && document.querySelector('.item')")
    same(page.texts(".item .value.is-open"), [cid_text(it) for it in (named(LEAF), spoiled, named(RAW, 0x55))])
    page.js("document.querySelector('.item .value.is-open').click()")
    page.wait("document.querySelector('#crumbs').children.length === 3")
    same(page.text(".item .value"), '"leaf"')
    page.driver.back()
    page.wait("document.querySelector('#crumbs').children.length === 2")
    page.js("document.querySelector('#crumbs button').click()")
    page.wait("document.querySelector('.car')")
    for number, (title, wanted) in enumerate([
        ("A block: map", "spelled"), ("A block: text", "spelled"), ("A block of another codec", "not DAG-CBOR"),
        ("No block: a number", "shortest"), ("Not the block that is named", "are a block: text"),
        ("Not verified", "not known here"), ("Not the block that is named", "digest"),
    ]):  # fmt: skip
        page.js("document.querySelectorAll(arguments[0])[arguments[1]].click()", SECTIONS, number)
        page.wait("document.querySelector('.block .banner h2')")
        assert title in page.text(".banner h2"), page.text(".banner h2")
        assert wanted in page.text(".banner"), page.text(".banner")
        page.driver.back()
        page.wait("document.querySelector('.car')")
    return "seven verdicts, what is missing, and the way there and back"


def broken_off(page):
    """A file that breaks off after a section, in each way, and one whose header is not one."""
    good = section(named(LEAF), LEAF)
    tails = [
        (b"\x28\x01", "Truncated"), (b"\x28", "Truncated"), (b"\x80", "Truncated"), (good[:-1], "Truncated"),
        (b"\x80\x00", "InvalidLength"), (b"\xff" * 9 + b"\x7f", "InvalidLength"),
        (b"\x02\x05\x05", "InvalidCid"), (b"\x00", "InvalidCid"), (b"\xff" * 8 + b"\x7f", "Truncated"),
    ]  # fmt: skip
    for tail, name in tails:
        page.give_car(header(named(LEAF)) + good + tail)
        same(page.text(".banner code.name"), name, tail.hex())
        at = len(header(named(LEAF)) + good)
        assert f"At byte {at}," in page.text(".banner"), page.text(".banner")
        same(page.count(SECTIONS), 1)
    worse = [
        varint(10) + header()[1:], b"\x80\x00" + header()[1:], header().replace(b"version\x01", b"version\x02"),
        header().replace(b"roots", b"toots"), header()[:-3], b"",
    ]  # fmt: skip
    for given in worse:
        page.give_bytes(given, "blocks.car")
        assert "does not begin with the header" in page.text(".block > .hint"), given
        same(page.count(".banner.is-bad"), 1)
    return f"{len(tails)} ways, and {len(worse)} headers"


def headers(page):
    """Each row of the table of headers begins a CAR file, with its roots, or is told not to."""
    for given, code, roots, _ in rows("headers"):
        page.give_bytes(bytes.fromhex(given.replace("-", "")), "blocks.car")
        if int(code) < 0:
            assert "does not begin with the header" in page.text(".block > .hint"), given
        else:
            page.wait(DONE)
            page.js("const more = document.querySelector('.car .more:not([hidden])'); more?.click()")
            same(page.count(".roots button"), 0 if roots == "-" else len(roots.split(",")), given[:80])
    return f"{len(rows('headers'))} rows"


def forms(page):
    """A file of version 2 around one of version 1, one without sections, one with a root twice."""
    first = header(named(LEAF)) + section(named(LEAF), LEAF)
    page.give_car(second(first, b"index"), "second.car")
    assert "all is well" in page.text(".banner h2") and page.text("#crumbs") == "inside second.car"
    page.give_car(header())
    assert "all is well" in page.text(".banner h2") and page.text(".roots") == "none"
    page.give_car(header(named(LEAF), named(LEAF)) + section(named(LEAF), LEAF))
    same(page.count(".roots button"), 2)
    # A section longer than a window.
    long = head(2, 5_000_000) + bytes(5_000_000)
    page.give_car(header(named(long)) + section(named(long), long) + section(named(LEAF), LEAF))
    same(shown_verdicts(page), ["bytes", "text"])
    return "four"


def held_in_names(page):
    """A CID by the identity holds its block, and is not missing; what that one links to may be."""
    gone = named(b"\xf6")
    inner = link(gone)
    holds = [bytes([1, 0x71, 0, len(it)]) + it for it in (b"\xf6", inner)]
    node = items(*map(link, holds))
    page.give_car(header(named(node)) + section(named(node), node))
    same(page.texts(".missing .cid"), [cid_text(gone)])
    node = items(link(holds[0]), link(bytes([1, 0x55, 0, 2]) + b"hi"))
    page.give_car(header(named(node)) + section(named(node), node))
    assert "all is well" in page.text(".banner h2"), page.text(".banner")
    # What is no block leads nowhere, though an item with a link begins it.
    node = items(link(bytes([1, 0x71, 0, 1 + len(inner)]) + inner + b"\0"))
    page.give_car(header(named(node)) + section(named(node), node))
    assert "all is well" in page.text(".banner h2"), page.text(".banner")
    return "blocks in names"


def made_large(path):
    """100,000 sections: their names, and their blocks."""
    blocks = [items(head(0, it), text("block " * 20)) for it in range(COUNT - 1)]
    names = [named(it) for it in blocks]
    top = items(*map(link, names[:500]))
    with open(path, "wb") as file:
        file.write(header(named(top)) + section(named(top), top))
        file.write(b"".join(map(section, names, blocks)))
    return names, blocks


def many(page):
    """A file of 100,000 sections: how long it takes, and how long the page does not answer."""
    path = f"{page.folder}/large.car"
    names, blocks = made_large(path)
    page.js(QUIET)
    page.give_file(path)
    taken = page.wait(DONE, 120)
    longest = page.js("return Math.round(window.longest)")
    assert "all is well" in page.text(".banner h2"), page.text(".banner")
    assert page.count(".section") < 100
    page.js("document.querySelector('.sections-box').scrollTop = 1e9")
    page.wait("[...document.querySelectorAll('.row-number')].some((it) => it.textContent === '100,000')")
    search = "const it = document.querySelector('input[type=search]'); it.value = arguments[0]; it.dispatchEvent(new Event('input'))"
    page.js(search, cid_text(names[77_777])[-20:])
    page.wait("document.querySelectorAll('.section:not(.is-head)').length === 1")
    page.js("document.querySelector('.section:not(.is-head)').click()")
    page.wait("document.querySelector('.block')")
    same(page.texts(".item .value")[1], "77777")
    # Another file while this one is read.
    page.give_file(path)
    page.give_bytes(header(names[0]) + section(names[0], blocks[0]), "small.car")
    page.wait(f"document.querySelector('#crumbs').textContent === 'small.car' && {DONE}")
    same(page.count(SECTIONS), 1)
    assert longest < 1000, longest
    return f"{os.path.getsize(path) / 1e6:.1f} MB in {taken:.1f} s; no answer for at most {longest} ms"


def stopped(page):
    """Stop ends the reading, and what was read by then stays."""
    block = head(2, 1_000_000) + bytes(1_000_000)
    with open(f"{page.folder}/long.car", "wb") as file:
        file.write(header(named(block)))
        for _ in range(200):
            file.write(section(named(block), block))
    page.clear()
    page.driver.find_element(By.ID, "file").send_keys(f"{page.folder}/long.car")
    page.wait("document.querySelector('.section[data-row]')")
    page.driver.find_element(By.CSS_SELECTOR, ".progress button").send_keys(Keys.ENTER)
    page.wait("document.querySelector('.banner h2').textContent.endsWith('Stopped')")
    read = page.text(".banner p")
    time.sleep(0.5)  # what the worker had sent by then
    same((page.text(".banner h2")[-7:], page.text(".banner p")), ("Stopped", read))
    page.js("document.querySelector('.section[data-row]').click()")
    page.wait("document.querySelector('.block .banner')")
    assert page.text(".banner h2").endswith("A block: bytes")
    return read


TESTS = [damaged, broken_off, headers, forms, held_in_names, many, stopped]
