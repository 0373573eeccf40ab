"""The page by the keyboard alone."""

from browser import Keys, same

NOW = "const it = document.activeElement; return [it.localName, it.getAttribute('role'), it.getAttribute('aria-label') ?? it.textContent.trim().slice(0, 60)]"
FOCUS = """const it = document.activeElement; const style = getComputedStyle(it); const held = it.closest('.pane');
return style.outlineStyle !== 'none' || (held && getComputedStyle(held).outlineStyle !== 'none');"""


def walk(page, most=60):
    """Where Tab goes, from the focus on, until it has been round; each stop shows that it has the focus."""
    stops = []
    page.js("window.stops = [document.body]")
    for _ in range(most):
        page.press(Keys.TAB)
        name, role, label = page.js(NOW)
        if page.js("return window.stops.includes(document.activeElement) || (window.stops.push(document.activeElement), false)"):
            break
        assert page.js(FOCUS), (name, role, label)
        stops.append(label)
    return stops


def first_view(page):
    """All that can be pressed is reached by Tab, in the order that it is seen in."""
    page.js("document.activeElement.blur()")
    stops = walk(page)
    assert [it.split("t", 1)[0] for it in stops[:3]] and len(stops) == 6, stops
    assert [stops[0].startswith("A record"), stops[1].startswith("A refused"), stops[2].startswith("A file")] == [True] * 3, stops
    same(stops[3], "Choose a file")
    same(stops[5], "Look at it")
    return f"{len(stops)} stops"


def to_label(page, label, most=40):
    """Tab until what has the focus is called so."""
    for _ in range(most):
        page.press(Keys.TAB)
        if page.js(NOW)[2].startswith(label):
            return
    raise AssertionError(f"{label} is not reached by Tab")


def through(page):
    """An example, its tree, its bytes, its tabs, the editor, and back; then a file, a section, and back."""
    page.js("document.activeElement.blur()")
    to_label(page, "A record")
    page.press(Keys.ENTER)
    page.wait("document.querySelector('.block')")
    page.wait("document.activeElement.localName === 'h2'")
    to_label(page, "Tree and bytes")
    to_label(page, "Items of the block")
    page.press(Keys.ARROW_DOWN, Keys.ARROW_DOWN)
    same(page.text(".item[aria-selected=true] .key"), '"profession"')
    active = "return document.activeElement.getAttribute('aria-activedescendant')"
    assert page.js(f"return Boolean(document.getElementById((() => {{ {active} }})()))")
    page.press(Keys.HOME, Keys.ARROW_LEFT)
    same(page.count(".item"), 1)
    page.press(Keys.ARROW_RIGHT, Keys.END)
    same(page.text(".item[aria-selected=true] .key"), '"year_of_birth"')
    to_label(page, "Bytes of the block")
    page.press(Keys.HOME, Keys.ARROW_RIGHT)
    same(page.text(".item[aria-selected=true] .key"), '"name"')
    page.press(Keys.END)
    same(page.text(".details h3"), 'integer ["year_of_birth"]')
    page.press([Keys.SHIFT, Keys.TAB][1])
    # Tabs by arrows, as the page's author guide of ARIA has it.
    page.js("document.getElementById('tab-0').focus()")
    page.press(Keys.ARROW_RIGHT, Keys.ARROW_RIGHT)
    same(page.js(NOW)[2], "DAG-JSON")
    page.press(Keys.END)
    same(page.js(NOW)[2], "Edit")
    page.wait("document.querySelector('.spelled .cid')")
    to_label(page, "DAG-JSON of the block")
    page.press(Keys.END)
    page.wait("document.querySelector('#spelled.is-good')")
    # A text area does not hold Tab.
    page.press(Keys.TAB)
    assert page.js(NOW)[2] != "DAG-JSON of the block"
    page.js("document.getElementById('again').focus()")
    page.press(Keys.ENTER)
    page.wait("!document.body.classList.contains('is-showing')")
    same(page.js(NOW)[2], "Begin with an example")
    to_label(page, "A file with a damaged section")
    page.press(Keys.SPACE)
    page.wait("document.querySelector('.car[data-done]')")
    to_label(page, "Sections")
    page.press(Keys.ARROW_DOWN, Keys.ARROW_DOWN, Keys.ENTER)
    page.wait("document.querySelector('.block')")
    assert page.text(".banner h2").endswith("Not the block that is named")
    to_label(page, "album.car")
    page.press(Keys.ENTER)
    page.wait("document.querySelector('.car')")
    to_label(page, "Sections")
    page.press(Keys.HOME, Keys.ENTER)
    page.wait("document.querySelector('.item')")
    to_label(page, "Items of the block")
    page.press(Keys.END, Keys.ENTER)
    page.wait("document.querySelectorAll('#crumbs li').length === 3")
    return "two examples, there and back"


def walked(page):
    """Where Tab goes in a block and in a file: each stop is seen, and there is no trap."""
    page.give("a2616101616282051819")
    block = walk(page)
    page.js("document.querySelectorAll('.card')[2].click()")
    page.wait("document.querySelector('.car[data-done]')")
    file = walk(page)
    assert 8 <= len(block) < 50 and 6 <= len(file) < 50, (block, file)
    return f"{len(block)} stops in a block, {len(file)} in a file"


TESTS = [first_view, through, walked]
