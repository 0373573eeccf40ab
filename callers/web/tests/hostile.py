"""Blocks that are made to do harm."""

from making import entries, head, octets, text
from browser import QUIET, same

MARKUP = '<img src=x onerror="window.hit=1">'
SCRIPT = "<script>window.hit=1</script>"
KEYS = ["__proto__", "constructor", "toString", "hasOwnProperty", MARKUP, SCRIPT]


def every_tab(page):
    for title in ("Links", "DAG-JSON", "Edit", "Tree"):
        page.tab(title)
    page.wait("document.querySelector('pre.json').textContent.length > 1")
    page.wait("document.querySelector('textarea.json').value || document.querySelector('textarea.json').placeholder")


def markup(page):
    """Keys and texts that are markup, or names that JavaScript has."""
    block = entries(**{it: text(MARKUP) for it in KEYS})
    page.give_bytes(block)
    order = sorted(KEYS, key=lambda it: (len(it), it))
    same(page.texts(".item .key"), ['"' + it.replace('"', '\\"') + '"' for it in order])
    page.js("document.querySelector('.item:nth-child(2)').click()")
    every_tab(page)
    assert "__proto__" in page.text("pre.json")
    page.wait("document.querySelector('.spelled .cid')")
    same(page.text(".spelled .cid"), page.text(".facts .cid"))
    same(page.count("#result img, #result script"), 0)
    same(page.js("return window.hit ?? null"), None)
    same(page.js("return ({}).hit ?? null"), None)
    return f"{len(KEYS)} keys, none of them run"


def directions(page):
    """Marks that turn the direction, and what shows as nothing, are spelled out."""
    page.give_bytes(text("a\u202eb\u0000\u200b\n\u2066c"))
    same(page.text(".item .value"), '"a\\u{202e}b\\u{0}\\u{200b}\\n\\u{2066}c"')
    page.tab("DAG-JSON")
    page.wait("document.querySelector('pre.json').textContent.length > 1")
    same(page.text("pre.json"), '"a\\u202eb\\u0000\\u200b\\n\\u2066c"')
    # Hebrew is shown as such, and turns nothing around it.
    page.give_bytes(entries(**{"שלום": text("עולם"), "n": b"\x01"}))
    same(page.texts(".item .value"), ["{ 2 entries }", "1", '"עולם"'])
    same(page.js("return [...document.querySelectorAll('.item .key, .item .value')].every((it) => it.localName === 'bdi')"), True)
    return "marks are escaped, and texts stand by themselves"


def deep(page):
    """Lists in lists, as deep as may be, and far deeper."""
    page.give_bytes(b"\x81" * 126 + b"\x80")
    assert page.text(".banner h2").endswith("A block: list")
    every_tab(page)
    page.button("Unfold all")
    page.js("document.querySelector('.tree').scrollTop = 1e9")
    page.wait("document.querySelector('.item[aria-level=\"127\"]')")
    for length in (128, 100_000, 1_000_000):
        page.give_bytes(b"\x81" * length)
        same(page.text(".banner code.name"), "DepthOverflow")
        same(page.count(".item.k-fault"), 1)
    return "127 in each other, and a million"


def lengths(page):
    """Lengths of 2^63 and more, of each kind that has one."""
    for first in (0x5B, 0x7B, 0x9B, 0xBB):
        for number in (1 << 63, (1 << 63) - 1, (1 << 64) - 1):
            page.give_bytes(bytes([first]) + number.to_bytes(8, "big"))
            same(page.text(".banner code.name"), "Eof", hex(first))
    page.give_bytes(b"\x82" + head(2, 3_000_000) + bytes(2_000_000))
    same(page.text(".banner code.name"), "Eof")
    return "twelve, and a byte string that is cut"


def large(page):
    """A text and a byte string of 1 MB, and 300,000 items."""
    page.js(QUIET)
    long = "<b>\u202e" * 160_000
    page.give_bytes(text(long))
    assert page.text(".item .value").startswith('"<b>\\u{202e}<b>')
    every_tab(page)
    page.give_bytes(octets(bytes(1_000_000)))
    every_tab(page)
    page.give_bytes(head(4, 300_000) + b"\x18\x64" * 300_000)
    assert page.text(".banner p").startswith("300,001 items"), page.text(".banner p")
    assert page.count(".item") < 200 and page.count(".bytes-row") < 200
    page.js("document.querySelector('.tree').scrollTop = 1e9")
    page.wait("[...document.querySelectorAll('.item .index')].some((it) => it.textContent === '299999')")
    page.button("Fold all")
    page.button("Unfold all")
    return f"without an answer for at most {page.js('return Math.round(window.longest)')} ms"


def policy(page):
    """The page can't be made to take markup, a script or a style, or to send anything."""
    refused = """
      const tried = [
        () => { document.body.innerHTML = '<b>'; },
        () => { document.createElement('script').text = '1'; },
        () => (0, eval)('1'),
        () => new Function('return 1')(),
        () => { document.body.insertAdjacentHTML('beforeend', '<b>'); },
      ];
      const done = arguments[arguments.length - 1]; // later, since the driver's own scripts may eval
      setTimeout(() => done(tried.map((it) => { try { it(); return false; } catch { return true; } })));"""
    same(page.driver.execute_async_script(refused), [True] * 5)
    asked = "const done = arguments[arguments.length - 1]; fetch('https://example.com/').then(() => done('sent'), () => done('refused'))"
    same(page.driver.execute_async_script(asked), "refused")
    page.driver.get_log("browser")  # which names what was refused
    return "five ways, and a request"


TESTS = [markup, directions, deep, lengths, large, policy]
