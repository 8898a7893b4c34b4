#!/usr/bin/env python3
"""Makes pictures of a page as a browser shows it, and says what in it is wrong to the eye, as far as it can be measured.

    tools/page.py examples/library/*.session > table.html
    tools/screenshots.py table.html FOLDER [VIEW ..]

FOLDER gets PNG files: the page on a phone, a tablet and a desktop (360, 768 and 1440 wide), at its top and where a cell, an entry or a piece is led
to, with its filters, with the keyboard's focus, in the dark, without JavaScript, as readers see it who don't tell red or green apart, and on paper;
and as PDF files what is printed, of the whole page and of one entry. Said, and then the status is 1: a page wider than its window, text whose
contrast to its ground is below 4.5, a link's end that a header hides, a focus without an outline. Needs Chromium; without one nothing is done."""

import base64
import json
import os
import shutil
import subprocess
import sys
import tempfile
import time
from pathlib import Path

from code_tables.ending import ended

DESKTOP, TABLET, PHONE, PAPER = (1440, 900, 1, False), (768, 1024, 1, True), (360, 740, 2, True), (740, 1000, 1, False)
SHOW_ONE = "document.querySelector('{}').click()"
KEYS = ("document.querySelector('[name=entry]').value = '16 6'; document.getElementById('go').requestSubmit();"
        " for (const key of ['ArrowRight', 'ArrowRight', 'ArrowUp']) document.activeElement.dispatchEvent(new KeyboardEvent('keydown', {key, bubbles: true}))")

# Each: its name, the window, where the page is opened at, the medium, `dark` or `noscript`, the vision, and what is done before the picture.
VIEWS = [
    ("desktop", DESKTOP, "", "", "none", ""),
    ("desktop-cell", DESKTOP, "#a16-6", "", "none", ""),
    ("desktop-entry", DESKTOP, "#b22-10", "", "none", ""),
    ("desktop-entry-noscript", DESKTOP, "#b22-10", "noscript", "none", ""),
    ("desktop-piece", DESKTOP, "#p-golay", "", "none", ""),
    ("desktop-weights", DESKTOP, "#weight6", "", "none", ""),
    ("desktop-about", DESKTOP, "#about", "", "none", ""),
    ("desktop-rules", DESKTOP, "#rules", "", "none", ""),
    ("desktop-pieces", DESKTOP, "#pieces", "", "none", ""),
    ("desktop-foot", DESKTOP, "", "", "none", "document.querySelector('footer').scrollIntoView()"),
    ("desktop-open", DESKTOP, "", "", "none", SHOW_ONE.format("#open")),
    ("desktop-published", DESKTOP, "", "", "none", SHOW_ONE.format("#published")),
    ("desktop-marks", DESKTOP, "", "", "none", SHOW_ONE.format("#marks")),
    ("desktop-focus", DESKTOP, "#plain", "", "none", "document.querySelector('#a16-6 a').focus({focusVisible: true})"),
    ("desktop-arrows", DESKTOP, "", "", "none", KEYS),
    ("desktop-protanopia", DESKTOP, "#plain", "", "protanopia", ""),
    ("desktop-deuteranopia", DESKTOP, "#plain", "", "deuteranopia", ""),
    ("desktop-tritanopia", DESKTOP, "#plain", "", "tritanopia", ""),
    ("desktop-grey", DESKTOP, "#plain", "", "achromatopsia", ""),
    ("desktop-dark", DESKTOP, "", "dark", "none", ""),
    ("desktop-dark-entry", DESKTOP, "#b24-8-8", "dark", "none", ""),
    ("desktop-dark-chosen", DESKTOP, "#plain", "", "none", SHOW_ONE.format("#shade")),
    ("tablet", TABLET, "", "", "none", ""),
    ("tablet-entry", TABLET, "#b22-10", "", "none", ""),
    ("phone", PHONE, "", "", "none", ""),
    ("phone-noscript", PHONE, "#b16-6", "noscript", "none", ""),
    ("phone-dark", PHONE, "#a15-5", "dark", "none", ""),
    ("phone-cell", PHONE, "#a16-6", "", "none", ""),
    ("phone-far-cell", PHONE, "#a30-6-15", "", "none", ""),
    ("phone-open", PHONE, "", "", "none", SHOW_ONE.format("#open")),
    ("phone-entry", PHONE, "#b22-10", "", "none", ""),
    ("phone-pieces", PHONE, "#pieces", "", "none", ""),
    ("paper", PAPER, "", "print", "none", ""),
    ("paper-entry", PAPER, "#b22-10", "print", "none", ""),
    ("paper-weights", PAPER, "#weight4", "print", "none", ""),
]
# What is printed: the name of a file, and where the page is opened at.
PRINTED = [("print", ""), ("print-entry", "#b16-6")]

# What the page says of itself: how wide it is, which texts have too little contrast, and what stands at a link's end.
MEASURE = r"""
(() => {
  const said = [];
  const wide = document.documentElement.scrollWidth - document.documentElement.clientWidth;
  if (wide > 0) said.push(`the page is ${wide} wider than its window`);
  const channels = c => (c.match(/[\d.]+/g) || []).map(Number);
  const light = c => { const l = c.slice(0, 3).map(v => (v /= 255) <= .04045 ? v / 12.92 : ((v + .055) / 1.055) ** 2.4); return .2126 * l[0] + .7152 * l[1] + .0722 * l[2]; };
  const ground = e => { for (; e; e = e.parentElement) { const c = channels(getComputedStyle(e).backgroundColor); if (c.length == 3 || c[3] > 0) return c; } return [255, 255, 255]; };
  const low = new Map();
  for (const e of document.querySelectorAll("body > :not(article), article:target, body > :not(article) *, article:target *")) {
    if (!e.checkVisibility() || ![...e.childNodes].some(t => t.nodeType == 3 && t.data.trim())) continue;
    const [a, b] = [light(channels(getComputedStyle(e).color)), light(ground(e))].sort((x, y) => y - x);
    const contrast = (a + .05) / (b + .05);
    if (contrast < 4.5) low.set(`${e.tagName}.${e.className} ${contrast.toFixed(2)}`, e.textContent.slice(0, 20));
  }
  for (const [what, text] of low) said.push(`contrast of ${what}: ${text}`);
  const end = location.hash && document.getElementById(location.hash.slice(1));
  if (end) {
    const box = end.getBoundingClientRect(), x = box.left + Math.min(box.width / 2, 20), y = box.top + Math.min(box.height / 2, 10);
    const top = document.elementFromPoint(x, y);
    if (!top) said.push(`${location.hash} is out of sight at ${Math.round(x)}, ${Math.round(y)}`);
    else if (!end.contains(top) && !top.contains(end)) said.push(`${location.hash} lies under ${top.tagName} ${top.textContent.slice(0, 20)}`);
  }
  const focus = document.activeElement;
  if (focus && focus != document.body && getComputedStyle(focus).outlineStyle == "none") said.push(`the focus on ${focus.tagName} has no outline`);
  return said;
})()
"""


class Browser:
    """A browser without a window, which is spoken to by two pipes."""

    def __init__(self, program, folder):
        to_read, self.to = os.pipe()
        self.of, to_write = os.pipe()
        # The browser reads commands from file 3 and answers on file 4.
        words = ["sh", "-c", f'exec "$@" 3<&{to_read} 4>&{to_write}', "sh", program, "--headless=new", "--no-sandbox", "--disable-gpu",
                 "--hide-scrollbars", "--remote-debugging-pipe", f"--user-data-dir={folder}", "about:blank"]
        self.child = subprocess.Popen(words, pass_fds=(to_read, to_write), stdout=subprocess.DEVNULL, stderr=subprocess.DEVNULL)
        os.close(to_read)
        os.close(to_write)
        self.number, self.held, self.session, self.told = 0, b"", None, []

    def message(self):
        """The next message of the browser."""
        while b"\0" not in self.held:
            more = os.read(self.of, 1 << 20)
            if not more:
                sys.exit("screenshots: the browser ended")
            self.held += more
        first, self.held = self.held.split(b"\0", 1)
        return json.loads(first)

    def ask(self, method, **params):
        """The browser's answer to a command."""
        self.number += 1
        command = {"id": self.number, "method": method, "params": params} | ({"sessionId": self.session} if self.session else {})
        os.write(self.to, json.dumps(command).encode() + b"\0")
        while True:
            told = self.message()
            if told.get("id") == self.number:
                if "error" in told:
                    sys.exit(f"screenshots: {method}: {told['error']['message']}")
                return told["result"]
            self.told.append(told)

    def open(self, url):
        """Has a page loaded."""
        self.told = []
        loader = self.ask("Page.navigate", url=url)["loaderId"]
        while not any(told.get("method") == "Page.lifecycleEvent" and told["params"]["loaderId"] == loader and told["params"]["name"] == "load" for told in self.told):
            self.told.append(self.message())


def show(browser, page, view, folder):
    """Makes a view's picture, and gives what is wrong in it."""
    name, (width, height, scale, mobile), place, medium, vision, before = view
    browser.ask("Emulation.setDeviceMetricsOverride", width=width, height=height, deviceScaleFactor=scale, mobile=mobile)
    shade = "dark" if medium == "dark" else "light"
    browser.ask("Emulation.setScriptExecutionDisabled", value=medium == "noscript")
    browser.ask("Emulation.setEmulatedMedia", media=medium if medium == "print" else "", features=[{"name": "prefers-color-scheme", "value": shade}])
    browser.ask("Emulation.setEmulatedVisionDeficiency", type=vision)
    browser.open("about:blank")
    browser.open(page.resolve().as_uri() + place)
    if before:
        browser.ask("Runtime.evaluate", expression=before)
    time.sleep(0.5)
    picture = browser.ask("Page.captureScreenshot", format="png")["data"]
    (folder / f"{name}.png").write_bytes(base64.b64decode(picture))
    return [] if medium == "noscript" else browser.ask("Runtime.evaluate", expression=MEASURE, returnByValue=True)["result"]["value"]


def main():
    wanted = [view for view in VIEWS if len(sys.argv) < 4 or view[0] in sys.argv[3:]]
    program = next(filter(None, map(shutil.which, ("chromium", "chromium-browser", "google-chrome"))), None)
    if len(sys.argv) < 3:
        sys.exit(__doc__)
    if not program:
        print("screenshots: no chromium is there: nothing was done", file=sys.stderr)
        return
    page, folder = map(Path, sys.argv[1:3])
    folder.mkdir(parents=True, exist_ok=True)
    wrong = 0
    with tempfile.TemporaryDirectory(ignore_cleanup_errors=True) as home:
        browser = Browser(program, home)
        target = browser.ask("Target.createTarget", url="about:blank")["targetId"]
        browser.session = browser.ask("Target.attachToTarget", targetId=target, flatten=True)["sessionId"]
        browser.ask("Page.enable")
        browser.ask("Page.setLifecycleEventsEnabled", enabled=True)
        for view in wanted:
            for said in show(browser, page, view, folder):
                print(f"{view[0]}: {said}")
                wrong += 1
        for name, place in PRINTED:
            show(browser, page, (name, PAPER, place, "print", "none", ""), folder)
            paper = browser.ask("Page.printToPDF", preferCSSPageSize=True, printBackground=False)["data"]
            (folder / f"{name}.pdf").write_bytes(base64.b64decode(paper))
        browser.session = None
        browser.ask("Browser.close")
        browser.child.wait()
    print(f"{len(wanted)} pictures, {wrong} faults")
    sys.exit(bool(wrong))


if __name__ == "__main__":
    ended(main)
