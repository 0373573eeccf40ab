"""How the page looks: contrast, and no part cut or beyond the edge, at three widths, light and dark."""

from making import entries, header, items, link, named, octets, section, text
from browser import SCHEMES, WIDTHS, Keys

# WCAG 2.2, 1.4.3 and 1.4.11: each text that is seen against what is painted behind it, the edges of
# boxes to type in, and the mark of the focus.
CONTRAST = """
const numbers = (it) => { const [r, g, b, a = 1] = it.match(/[\\d.]+/g).map(Number); return [r, g, b, a]; };
const over = (top, under) => [0, 1, 2].map((i) => top[i] * top[3] + under[i] * (1 - top[3])).concat(1);
const light = (it) => { const [r, g, b] = it.map((c) => c / 255).map((c) => (c <= 0.04045 ? c / 12.92 : ((c + 0.055) / 1.055) ** 2.4)); return 0.2126 * r + 0.7152 * g + 0.0722 * b; };
const ratio = (a, b) => { const [x, y] = [light(a), light(b)].sort((m, n) => n - m); return (x + 0.05) / (y + 0.05); };
const chain = (it) => { const all = []; for (let at = it; at; at = at.parentElement) all.unshift(at); return all; };
const behind = (it) => chain(it).reduce((ground, at) => over(numbers(getComputedStyle(at).backgroundColor), ground), [255, 255, 255, 1]);
const isSeen = (it) => it.checkVisibility({ opacityProperty: true, visibilityProperty: true }) && it.getClientRects().length > 0;
const poor = []; let least = 99; let count = 0;
const hold = (what, found, wanted, it) => {
  count += 1;
  if (found < least) least = found;
  if (found < wanted) poor.push(`${what} ${found.toFixed(2)}: ${it.className} ${it.textContent.slice(0, 30)}`);
};
for (const it of document.querySelectorAll('body *')) {
  if (!isSeen(it) || it.matches(':disabled') || it.closest('[aria-hidden=true]:not(.ascii):not(.mark)')) continue;
  const style = getComputedStyle(it);
  const hasText = [...it.childNodes].some((node) => node.nodeType === 3 && node.data.trim());
  const size = parseFloat(style.fontSize);
  const isLarge = size >= 24 || (size >= 18.66 && Number(style.fontWeight) >= 700);
  const opacity = chain(it).reduce((all, at) => all * Number(getComputedStyle(at).opacity), 1);
  const ground = behind(it);
  const ink = numbers(style.color);
  if (hasText) hold('text', ratio(over([...ink.slice(0, 3), ink[3] * opacity], ground), ground), isLarge ? 3 : 4.5, it);
  if (it.matches('textarea, input[type=search]')) {
    const around = behind(it.parentElement);
    if (style.borderTopWidth !== '0px') hold('edge', ratio(over(numbers(style.borderTopColor), around), around), 3, it);
    const shown = getComputedStyle(it, '::placeholder');
    if (it.placeholder && !it.value) hold('placeholder', ratio(over(numbers(shown.color), ground), ground), 4.5, it);
  }
}
const accent = numbers(getComputedStyle(document.querySelector('#again')).getPropertyValue('--accent').trim().replace(/^#(..)(..)(..)$/, (_, r, g, b) => `${parseInt(r, 16)} ${parseInt(g, 16)} ${parseInt(b, 16)}`));
hold('focus', ratio(accent, behind(document.body)), 3, document.body);
return [poor, least, count];
"""
# What goes beyond the page's edge or a box's, or is cut by one that does not scroll. Three dots may
# end a line of the tree or the table: what is picked is shown whole.
CUT = """
const wrong = [];
const say = (why, it) => wrong.push(`${why}: ${it.localName}.${it.className} ${it.textContent.slice(0, 40)}`);
const page = document.documentElement;
if (page.scrollWidth > page.clientWidth) say(`the page is ${page.scrollWidth} wide of ${page.clientWidth}`, page);
const isUnseen = (it) => it.closest('.unseen, [hidden]') || !it.checkVisibility();
for (const it of document.querySelectorAll('body, body *')) {
  if (isUnseen(it) || it.localName === 'option') continue;
  const style = getComputedStyle(it);
  const box = it.getBoundingClientRect();
  const hasDots = style.textOverflow === 'ellipsis';
  const isLine = style.display === 'inline';
  if (!isLine && !hasDots && it.scrollWidth > it.clientWidth + 1 && it.clientWidth) {
    if (style.overflowX === 'visible') { if (box.left + it.scrollWidth > page.clientWidth + 1) say('beyond the edge', it); }
    else if (['auto', 'scroll'].includes(style.overflowX)) say('scrolls sideways', it);
    else say('cut', it);
  }
  const first = it.firstElementChild;
  if (['auto', 'scroll'].includes(style.overflowY) && it.scrollTop === 0 && first && first.getBoundingClientRect().top < box.top - 1) say('begins above', it);
  if (!isLine && ['hidden', 'clip'].includes(style.overflowY) && it.scrollHeight > it.clientHeight + 2 && !hasDots) say('cut below', it);
  const scroller = it.parentElement?.closest('.tree, .bytes, .sections-box, .json, .details');
  if (!scroller && box.width && box.right > page.clientWidth + 1) say('right of the page', it);
  if (box.width && box.left < -1) say('left of the page', it);
  if (it.matches('button, [role=tab], h1, h2, h3') && box.height && it.scrollWidth > it.clientWidth + 1 && !isLine) say('a title is cut', it);
}
return wrong;
"""


def record(page):
    page.js("document.querySelectorAll('.card')[0].click()")
    page.wait("document.querySelector('.block')")


def refused(page):
    page.js("document.querySelectorAll('.card')[1].click()")
    page.wait("document.querySelector('.block')")


def kinds(page):
    page.give_bytes(bytes.fromhex("88f6f5181838ff6161420102a16162f4d82a450001550000"))
    page.js("document.querySelector('.tree').focus()")
    page.press(*[Keys.ARROW_DOWN] * 6)


def byte_picked(page):
    page.give_bytes(bytes.fromhex("88f6f5181838ff6161420102a16162f4d82a450001550000"))
    page.js("document.querySelector('.bytes').focus()")
    page.press(*[Keys.ARROW_RIGHT] * 20)


def long_texts(page):
    page.give_bytes(entries(**{"key" * 100: text("long" * 500), "k": octets(bytes(3000)), "n": b"\x3b" + b"\xff" * 8}))
    page.js("document.querySelector('.tree').focus()")
    page.press(Keys.END)


def bytes_whole(page):
    long_texts(page)
    page.press(Keys.ARROW_UP, Keys.ARROW_UP)


def nested(page):
    page.give_bytes(b"\x81" * 60 + entries(deep=text("down here")))


def links(page):
    page.give_bytes(items(*(link(named(bytes([it]))) for it in range(5))))
    page.tab("Links")


def as_json(page):
    long_texts(page)
    page.tab("DAG-JSON")
    page.wait("document.querySelector('pre.json').textContent.length > 1")


def editor(page):
    record(page)
    page.tab("Edit")
    page.wait("document.querySelector('.spelled .cid')")


def no_json(page):
    editor(page)
    page.js("const it = document.querySelector('textarea.json'); it.value = '[1.5'; it.dispatchEvent(new Event('input'))")
    page.wait("document.querySelector('#spelled.is-bad')")


def file(page):
    page.js("document.querySelectorAll('.card')[2].click()")
    page.wait("document.querySelector('.car[data-done]')")


def all_verdicts(page):
    leaf = text("leaf")
    node = items(link(named(leaf)), link(named(b"\xf6")))
    sections = [section(named(node), node), section(named(leaf, 0x55), leaf), section(named(b"\x18\x17"), b"\x18\x17"),
                section(named(leaf), b"\x64lead"), section(bytes([1, 0x71, 0x13, 1, 5]), b"\x05")]  # fmt: skip
    page.give_car(header(named(node), named(b"no root")) + b"".join(sections))
    page.js("document.querySelector('.sections').focus()")


def broken_off(page):
    page.give_car(header() + section(named(b"\xf6"), b"\xf6") * 40 + b"\x80\x00", "a name of a file that is rather long, and has-parts-that-do-not-break_anywhere_at_all.car")


def in_a_file(page):
    all_verdicts(page)
    page.js("document.querySelectorAll('[data-row]')[3].click()")
    page.wait("document.querySelector('.block')")


def not_read(page):
    page.give("?")


VIEWS = [lambda _: None, record, refused, kinds, byte_picked, long_texts, bytes_whole, nested, links, as_json, editor, no_json,
         file, all_verdicts, broken_off, in_a_file, not_read]  # fmt: skip


def every_view(page):
    """Each view, and how it is looked at."""
    url = page.driver.current_url
    for act in VIEWS:
        page.driver.get(url)
        page.wait("document.body.dataset.ready === 'yes'")
        act(page)
        for width in WIDTHS:
            for scheme in SCHEMES:
                page.look(width, scheme=scheme)
                yield f"{act.__name__} at {width}, {scheme}"
        page.unlook()


def contrast(page):
    """Each text against its ground by at least 4.5, 3 where it is large; edges and the focus by 3."""
    wrong, lowest, all_held = [], 99, 0
    for view in every_view(page):
        poor, least, count = page.js(CONTRAST)
        wrong += [f"{view}: {it}" for it in poor]
        lowest, all_held = min(lowest, least), all_held + count
    assert not wrong, "\n".join(wrong[:12])
    return f"{all_held} texts and edges, the lowest {lowest:.2f}"


def widths(page):
    """Nothing beyond the edge, cut, or scrolled sideways."""
    wrong = [f"{view}: {it}" for view in every_view(page) for it in page.js(CUT)]
    assert not wrong, f"{len(wrong)}\n" + "\n".join(wrong[:12])
    return f"{len(VIEWS)} views at {', '.join(map(str, WIDTHS))} pixels, light and dark"


TESTS = [contrast, widths]
