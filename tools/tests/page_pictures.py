#!/usr/bin/env python3
"""Takes the pictures of the page that docs/TOOLS.md shows: page_pictures.py FOLDER. It needs what page_browser.py needs."""
import os
import sys

from page_browser import QUARTERS, Browser
from page_runs import Running

SIZES = {1280: 800, 400: 860}


def take(browser, folder, width, scheme):
    browser.driver.execute_cdp_cmd("Emulation.setDeviceMetricsOverride", {"width": width, "height": SIZES[width], "deviceScaleFactor": 1, "mobile": False})
    browser.driver.execute_cdp_cmd("Emulation.setEmulatedMedia", {"features": [{"name": "prefers-color-scheme", "value": scheme}]})
    browser.wait(lambda: browser.rows() and browser.one("canvas"))
    browser.script("document.querySelector('#side').open = arguments[0]", width > 700)
    browser.script("return new Promise((done) => setTimeout(done, 700))")
    browser.driver.save_screenshot(os.path.join(folder, f"page-{width}-{scheme}.png"))


def main(folder):
    browser = Browser()
    try:
        with Running() as page:
            browser.open(page)
            browser.wait(lambda: "2,359 rows in" in browser.text("#loading") and "2,359 rows" in browser.text("#catalogue"))
            browser.ask(QUARTERS.replace(" | ", "\n| "), "24 rows")
            browser.press("Chart")
            for width in SIZES:
                for scheme in ("light", "dark"):
                    take(browser, folder, width, scheme)
    finally:
        browser.close()


if __name__ == "__main__":
    main(sys.argv[1])
