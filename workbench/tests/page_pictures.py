"""Makes the pictures of docs/PAGE.md by a browser: python3 -B workbench/tests/page_pictures.py FOLDER"""

from __future__ import annotations

import json
import os
import sys
import tempfile
from typing import Any

from browser import CHROMIUM, MISSING, Browser
from common import TOP, bench, example_path
from race import racing_scenario
from serving import site

WIDE, HIGH = 1280, 900

# The fault changes a word just before the driver stores it.
WRONG = {"burst": 3, "after": 6, "kind": "reg", "register": 8, "value": 2}

DRAWN = "new Promise((done) => requestAnimationFrame(() => requestAnimationFrame(() => done(0))))"


def wrong_scenario() -> dict[str, Any]:
    """The scenario of docs/WORKBENCH.md with that fault."""
    status, out, err = bench("build", os.path.join(TOP, "workbench/examples/write.jsonc"))
    assert status == 0, err
    made: dict[str, Any] = json.loads(out)
    made["parts"][0]["faults"] = [WRONG]
    return made


def of_page(browser: Browser, folder: str, path: str, name: str, *words: str) -> None:
    """A picture of a page at the first event that went wrong."""
    with tempfile.TemporaryDirectory() as holder:
        made = os.path.join(holder, "page.html")
        status, _, err = bench("page", path, "-o", made, *words)
        assert status == 0, err
        browser.open(made)
        browser.press("n")
        browser.value(DRAWN)
        browser.picture(os.path.join(folder, f"{name}.png"))


def of_race(browser: Browser, folder: str) -> None:
    """A picture of the served page that shows a race found by `explore`."""
    with site() as served:
        served.put("race.json", json.dumps(racing_scenario()))
        browser.visit(f"{served.address}&open=race.json")
        browser.until("/status 0/.test(document.querySelector('.bench-said').textContent)")
        browser.press("x")
        browser.until("document.querySelector('.outcome') !== null")
        browser.click("document.querySelector('.outcome.status-7')")
        browser.until("document.querySelector('.note.broken') !== null")
        browser.value("scrollTo(0, 0); document.querySelector('.orders').scrollTop = 0; document.querySelector('.folder').textContent = 'drivers'; 0")
        browser.value(DRAWN)
        browser.picture(os.path.join(folder, "race.png"))


def main() -> int:
    if len(sys.argv) != 2 or not os.path.isdir(sys.argv[1]):
        print(__doc__)
        return 2
    if CHROMIUM is None:
        print(MISSING)
        return 1
    folder = sys.argv[1]
    browser = Browser(WIDE, HIGH)
    try:
        of_page(browser, folder, example_path("write-cut.json"), "write-cut")
        with tempfile.TemporaryDirectory() as holder:
            path = os.path.join(holder, "wrong.json")
            with open(path, "w", encoding="utf-8") as file:
                json.dump(wrong_scenario(), file)
            of_page(browser, folder, path, "wrong-word")
            of_page(browser, folder, path, "wrong-word-guard", "--guard")
        of_race(browser, folder)
    finally:
        browser.close()
    return 0


if __name__ == "__main__":
    sys.exit(main())
