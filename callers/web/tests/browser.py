"""The page in Debian's chromium, by chromium-driver and python3-selenium."""

import base64
import functools
import http.server
import threading
import time

from selenium import webdriver
from selenium.webdriver.chrome.service import Service
from selenium.webdriver.common.by import By
from selenium.webdriver.common.keys import Keys

SAID = "document.querySelector('#result .banner') || !document.getElementById('said').hidden"
WIDTHS = (320, 768, 1440)
SCHEMES = ("light", "dark")
# From here on `longest` is for how many milliseconds the page did not answer.
QUIET = """window.longest = 0; let last = performance.now();
const tick = () => { const now = performance.now(); window.longest = Math.max(window.longest, now - last); last = now; setTimeout(tick); };
tick();"""


def started():
    options = webdriver.ChromeOptions()
    for it in ("--headless=new", "--no-sandbox", "--disable-dev-shm-usage", "--window-size=1280,900"):
        options.add_argument(it)
    options.set_capability("goog:loggingPrefs", {"browser": "ALL", "performance": "ALL"})
    return webdriver.Chrome(options=options, service=Service("/usr/bin/chromedriver"))


class Quiet(http.server.SimpleHTTPRequestHandler):
    def log_message(self, *_):
        pass


def served(folder):
    """A server of the folder, on a port of its own."""
    handler = functools.partial(Quiet, directory=folder)
    server = http.server.ThreadingHTTPServer(("127.0.0.1", 0), handler)
    threading.Thread(target=server.serve_forever, daemon=True).start()
    return server


class Page:
    """The page, just opened; `folder` is for files that it is given."""

    def __init__(self, driver, url, folder):
        self.driver, self.folder = driver, folder
        driver.get(url)
        self.cdp("Emulation.setFocusEmulationEnabled", enabled=True)
        self.wait("document.body.dataset.ready === 'yes'")

    def js(self, script, *given):
        return self.driver.execute_script(script, *given)

    def cdp(self, command, **given):
        return self.driver.execute_cdp_cmd(command, given)

    def wait(self, what, seconds=60):
        began = time.monotonic()
        while not self.js(f"return Boolean({what})"):
            if time.monotonic() - began > seconds:
                seen = self.js("return document.body.innerText")[:500]
                raise AssertionError(f"waited for {what}; {seen}")
            time.sleep(0.03)
        return time.monotonic() - began

    # What it is given.

    def clear(self):
        self.js("document.getElementById('result').replaceChildren(); const it = document.getElementById('said');"
                "it.textContent = ''; it.hidden = true")  # fmt: skip

    def give(self, what):
        self.clear()
        self.js("document.getElementById('text').value = arguments[0]; document.getElementById('judge').click()", what)
        self.wait(SAID)

    def give_file(self, path):
        self.clear()
        self.driver.find_element(By.ID, "file").send_keys(path)
        self.wait(SAID)

    def give_bytes(self, data, name="block.bin"):
        with open(f"{self.folder}/{name}", "wb") as file:
            file.write(data)
        self.give_file(f"{self.folder}/{name}")

    def give_car(self, data, name="blocks.car"):
        self.give_bytes(data, name)
        self.wait("document.querySelector('.car[data-done]')")

    def press(self, *keys):
        """Keys to what has the focus."""
        webdriver.ActionChains(self.driver).send_keys(*keys).perform()

    def button(self, title, within=""):
        """Presses the button of this title."""
        found = "[...document.querySelectorAll(arguments[0] + ' button')].find((it) => it.textContent.trim() === arguments[1])"
        self.js(f"({found}).click()", within, title)

    def tab(self, title):
        self.js("[...document.querySelectorAll('[role=tab]')].find((it) => it.textContent.startsWith(arguments[0])).click()", title)

    # What it shows.

    def text(self, selector):
        return self.js("return document.querySelector(arguments[0])?.textContent ?? null", selector)

    def texts(self, selector):
        return self.js("return [...document.querySelectorAll(arguments[0])].map((it) => it.textContent)", selector)

    def count(self, selector):
        return self.js("return document.querySelectorAll(arguments[0]).length", selector)

    # How it is looked at.

    def look(self, width, height=900, scheme="light"):
        self.cdp("Emulation.setDeviceMetricsOverride", width=width, height=height, deviceScaleFactor=1, mobile=False)
        wanted = {"prefers-color-scheme": scheme, "prefers-reduced-motion": "reduce"}
        self.cdp("Emulation.setEmulatedMedia", features=[{"name": it, "value": value} for it, value in wanted.items()])
        time.sleep(0.15)

    def unlook(self):
        self.cdp("Emulation.clearDeviceMetricsOverride")
        self.cdp("Emulation.setEmulatedMedia", features=[])

    def picture(self, path, **how):
        taken = self.cdp("Page.captureScreenshot", **how)
        with open(path, "wb") as file:
            file.write(base64.b64decode(taken["data"]))


def same(found, wanted, of=""):
    assert found == wanted, f"{of}: {found!r}, and not {wanted!r}"


__all__ = ["Keys", "By", "Page", "QUIET", "SCHEMES", "WIDTHS", "same", "served", "started"]
