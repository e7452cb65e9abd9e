"""The page of ./kq-page in a browser. test_page_browser.py runs these tests under a Python that has selenium."""
import contextlib
import csv
import http.server
import json
import os
import shutil
import signal
import tempfile
import threading
import time
import unittest

from selenium import webdriver
from selenium.common.exceptions import StaleElementReferenceException
from selenium.webdriver.chrome.service import Service
from selenium.webdriver.common.action_chains import ActionChains
from selenium.webdriver.common.by import By
from selenium.webdriver.common.keys import Keys

from page_runs import ACCESS, Running

CHROMIUM, DRIVER = "/usr/bin/chromium", "/usr/bin/chromedriver"
MILLION = "range x from 1 to 1000000 step 1 | extend y = x * 2, s = strcat('row ', x) | sort by x asc"
QUARTERS = "Log | summarize Requests = count() by Quarter = bin(Timestamp, 15m) | sort by Quarter asc"
SLOW = "range a from 1 to 3000 step 1 | extend k = 1 | join kind=inner (range b from 1 to 3000 step 1 | extend k = 1) on k | count"
PATIENCE = 60
HIT = "top.hit=1"
MARKUP = [
    f"<script>{HIT}</script>",
    f"<img src=x onerror={HIT}>",
    f"<svg onload={HIT}>",
    f"<svg><script>{HIT}</script></svg>",
    f"<iframe srcdoc='<script>{HIT}</script>'>",
    f"<iframe src=javascript:{HIT}>",
    f"<body onload={HIT}>",
    f"<a href=javascript:{HIT}>go</a>",
    f"<details open ontoggle={HIT}>",
    f"<input autofocus onfocus={HIT}>",
    f"<video><source onerror={HIT}></video>",
    f"<math><mi xlink:href=javascript:{HIT}>x</mi></math>",
    f"<object data=javascript:{HIT}>",
    f"<embed src=javascript:{HIT}>",
    f"<form action=javascript:{HIT}><button>go</button></form>",
    f"</title></textarea></style><script>{HIT}</script>",
    f"<style>@import 'javascript:{HIT}'</style>",
    f"<base href=//evil.example/><link rel=stylesheet href=//evil.example/x.css>",
    f"&lt;script&gt;{HIT}&lt;/script&gt;",
    f"'\"><img src=x onerror={HIT}>",
    f"javascript:{HIT}",
    f"${{{HIT}}} {{{{constructor.constructor('{HIT}')()}}}}",
    f"<meta http-equiv=refresh content='0;url=javascript:{HIT}'>",
    f"<template><script>{HIT}</script></template>",
]
MADE_BY_MARKUP = "img,svg,iframe,object,embed,math,video,style,base,meta[http-equiv],template,body body,a[href^='javascript'],script:not([src])"
# A page of another port of this machine, which the browser's cookies are sent to and come from.
FOREIGN = """<!DOCTYPE html><title>other</title><iframe name=there></iframe>
<form id=f method=post target=there action="http://HOST/socket"><input name=call value=ask></form>
<form id=g method=post target=there action="http://HOST/?token=x" enctype="text/plain"><input name=call value=ask></form>
<script>
window.found = {};
const socket = new WebSocket("ws://HOST/socket");
socket.onopen = () => { found.socket = "open"; };
socket.onclose = () => { found.socket ??= "refused"; };
for (const path of ["/", "/main.js", "/saved/x"]) fetch("http://HOST" + path, { credentials: "include" }).then(() => { found[path] = "read"; }, () => { found[path] = "refused"; });
const script = document.createElement("script");
script.src = "http://HOST/main.js";
script.onload = () => { found.script = "run"; };
script.onerror = () => { found.script = "refused"; };
document.head.append(script);
document.getElementById("f").submit();
setTimeout(() => document.getElementById("g").submit(), 300);
const frame = document.createElement("iframe");
frame.src = "http://HOST/";
frame.onload = () => { let text; try { text = frame.contentDocument.body.textContent; } catch { text = null; } found.frame = text ? "read" : "refused"; };
document.body.append(frame);
</script>"""


def options(folder):
    found = webdriver.ChromeOptions()
    found.binary_location = CHROMIUM
    for word in ("--headless=new", "--no-sandbox", "--disable-gpu", "--disable-dev-shm-usage", "--window-size=1280,900", f"--user-data-dir={folder}/profile"):
        found.add_argument(word)
    found.add_experimental_option("prefs", {"download.default_directory": f"{folder}/saved", "download.prompt_for_download": False})
    found.set_capability("goog:loggingPrefs", {"browser": "ALL"})
    return found


class Browser:
    """A browser and the page in it."""

    def __init__(self):
        self.folder = tempfile.mkdtemp(prefix="browser")
        os.mkdir(os.path.join(self.folder, "saved"))
        self.driver = webdriver.Chrome(service=Service(DRIVER, log_path=os.devnull), options=options(self.folder))
        self.driver.execute_cdp_cmd("Browser.grantPermissions", {"permissions": ["clipboardReadWrite", "clipboardSanitizedWrite"]})

    def close(self):
        self.driver.quit()
        shutil.rmtree(self.folder, ignore_errors=True)

    def open(self, running):
        self.driver.get("about:blank")
        self.driver.get(running.address)
        self.wait(lambda: self.all(".CodeMirror"))
        if len(self.all("[role=tab]")) > 1:
            self.script("sessionStorage.clear()")
            self.driver.refresh()
            self.wait(lambda: len(self.all("[role=tab]")) == 1)

    def script(self, text, *given):
        return self.driver.execute_script(text, *given)

    def all(self, selector):
        return self.driver.find_elements(By.CSS_SELECTOR, selector)

    def seen(self, selector):
        """The elements in sight that a selector finds."""
        return self.script("return [...document.querySelectorAll(arguments[0])].filter((it) => it.getClientRects().length)", selector)

    def one(self, selector):
        """The one element in sight that a selector finds."""
        found = self.seen(selector)
        assert len(found) == 1, f"{len(found)} elements of {selector} are in sight"
        return found[0]

    def text(self, selector):
        if selector.startswith("#"):
            return self.script("return document.querySelector(arguments[0]).innerText", selector)
        found = self.script("return [...document.querySelectorAll(arguments[0])].filter((it) => it.getClientRects().length).map((it) => it.innerText)", selector)
        assert len(found) == 1, f"{len(found)} elements of {selector}"
        return found[0]

    def wait(self, fits, patience=PATIENCE):
        """Waits until something holds, and gives it."""
        last, end = None, time.monotonic() + patience
        while time.monotonic() < end:
            with contextlib.suppress(AssertionError, StaleElementReferenceException):
                last = fits()
                if last:
                    return last
            time.sleep(0.03)
        raise AssertionError(f"it doesn't come to hold; the last was {last!r}; the page says {self.script('return document.body.innerText')[:1500]!r}")

    def keys(self, *keys, held=()):
        chain = ActionChains(self.driver)
        for key in held:
            chain.key_down(key)
        chain.send_keys(*keys)
        for key in held:
            chain.key_up(key)
        chain.perform()

    def button(self, name):
        found = self.script("return [...document.querySelectorAll('button')].filter((it) => it.getClientRects().length && it.textContent === arguments[0])", name)
        assert len(found) == 1, f"{len(found)} buttons {name}"
        return found[0]

    def press(self, name):
        self.button(name).click()

    def write(self, text):
        """Puts a text into the editor in place of what is there."""
        self.script("document.querySelector('.CodeMirror').CodeMirror.setValue(arguments[0]); document.querySelector('.CodeMirror').CodeMirror.execCommand('goDocEnd')", text)

    def run(self):
        self.script("document.querySelector('.CodeMirror').CodeMirror.focus()")
        self.keys(Keys.ENTER, held=[Keys.SHIFT])

    def ask(self, text, count):
        """Asks a question whose answer has so many rows."""
        self.write(text)
        self.run()
        self.wait(lambda: self.text(".count").startswith(count))

    def rows(self):
        """The rows in sight from top to bottom, each with its number in the answer and its cells."""
        return self.script(
            "return [...document.querySelectorAll('.results:not([hidden]) .grid-rows .grid-row:not([hidden])')]"
            ".map(row => [Number(row.getAttribute('aria-rowindex')) - 2, [...row.children].map(cell => cell.textContent)]).sort((a, b) => a[0] - b[0])"
        )

    def column(self, name):
        return self.script("return [...document.querySelectorAll('.results:not([hidden]) [role=columnheader]')].find((it) => it.querySelector('.name').textContent === arguments[0])", name)


class PageTest(unittest.TestCase):
    """A test with one browser for all, which ends with them."""

    @classmethod
    def setUpClass(cls):
        cls.browser = Browser()
        cls.addClassCleanup(cls.browser.close)

    def serve(self, *files, **given):
        page = Running(*files, **given)
        self.addCleanup(page.close)
        self.browser.open(page)
        self.browser.wait(lambda: "in " in self.browser.text("#loading"))
        return page

    def file(self, name, content):
        folder = tempfile.TemporaryDirectory(prefix="page")
        self.addCleanup(folder.cleanup)
        path = os.path.join(folder.name, name)
        with open(path, "w", newline="") as file:
            if isinstance(content, str):
                file.write(content)
            else:
                csv.writer(file).writerows(content)
        return path

    def tearDown(self):
        told = [it["message"] for it in self.browser.driver.get_log("browser") if it["level"] == "SEVERE"]
        self.assertEqual([it for it in told if not self.is_expected(it)], [])

    def is_expected(self, _):
        return False


class Questions(PageTest):
    """One page, asked from the first key to the last."""

    @classmethod
    def setUpClass(cls):
        super().setUpClass()
        os.environ["KQ_STAND_IN_SECONDS"] = "6"
        cls.page = Running()
        cls.addClassCleanup(cls.page.close)
        del os.environ["KQ_STAND_IN_SECONDS"]

    def setUp(self):
        self.browser.open(self.page)
        self.browser.wait(lambda: "2,359 rows in" in self.browser.text("#loading"))

    def test_a_question_is_typed_completed_and_answered(self):
        browser = self.browser
        browser.write("")
        browser.script("document.querySelector('.CodeMirror').CodeMirror.focus()")
        browser.keys("Lo")
        browser.wait(lambda: any(it.text.startswith("Log") for it in browser.all(".CodeMirror-hint")))
        browser.keys(Keys.TAB)
        browser.keys(" | whe")
        browser.wait(lambda: any(it.text.startswith("where") for it in browser.all(".CodeMirror-hint")))
        browser.keys(Keys.ENTER)
        browser.keys(" Sta")
        browser.wait(lambda: any(it.text.startswith("Status") for it in browser.all(".CodeMirror-hint")))
        browser.keys(Keys.ENTER)
        self.assertEqual(browser.script("return document.querySelector('.CodeMirror').CodeMirror.getValue()"), "Log | where Status")
        browser.write("Log |")
        browser.keys(" count")
        browser.run()
        browser.wait(lambda: browser.rows() == [[1, ["2359"]]])
        self.assertIn("cm-keyword", browser.script("return document.querySelector('.CodeMirror-line').innerHTML"))

    def test_only_the_block_under_the_cursor_is_run_or_what_is_selected(self):
        browser = self.browser
        browser.write("Log | count\n\nLog | take 3\n\nLog | take 5")
        browser.script("document.querySelector('.CodeMirror').CodeMirror.setCursor(2, 4)")
        browser.run()
        browser.wait(lambda: browser.text(".count").startswith("3 rows"))
        browser.script("document.querySelector('.CodeMirror').CodeMirror.setSelection({line: 0, ch: 0}, {line: 2, ch: 99})")
        browser.run()
        browser.wait(lambda: len(browser.seen(".replies li")) == 2 and browser.text(".count").startswith("3 rows"))
        browser.all(".replies button")[0].click()
        browser.wait(lambda: browser.rows() == [[1, ["2359"]]])

    def test_rows_are_sorted_and_filtered_by_column(self):
        browser = self.browser
        with open(ACCESS) as file:
            count = sum(line.split('" ')[1].split(" ")[0] >= "500" for line in file if '" ' in line and line.split('" ')[1][:3].isdigit())
        browser.ask("Log", "2,359 rows")
        browser.column("Status").find_element(By.CSS_SELECTOR, "button").click()
        browser.wait(lambda: browser.column("Status").get_attribute("aria-sort") == "ascending")
        browser.column("Status").find_element(By.CSS_SELECTOR, "button").click()
        browser.wait(lambda: browser.column("Status").get_attribute("aria-sort") == "descending")
        at = int(browser.column("Status").get_attribute("aria-colindex")) - 1
        browser.wait(lambda: browser.rows()[0][1][at] == "504")
        field = browser.one("input[aria-label='Filter Status']")
        field.send_keys(">= 500")
        browser.wait(lambda: browser.text(".count").startswith(f"{count} of 2,359 rows"))
        field.send_keys("x")
        browser.wait(lambda: field.get_attribute("aria-invalid") == "true" and "is no " in browser.text("#told"))

    def test_an_answer_is_saved_and_copied_as_it_is_shown(self):
        browser = self.browser
        browser.ask(QUARTERS, "24 rows")
        browser.one("input[aria-label='Filter Requests']").send_keys("> 130")
        browser.wait(lambda: " of 24 rows" in browser.text(".count"))
        shown = [cells for _, cells in browser.rows()]
        self.assertTrue(shown and all(int(cells[1]) > 130 for cells in shown))
        browser.press("Save CSV")
        path = os.path.join(browser.folder, "saved", "answer.csv")
        browser.wait(lambda: os.path.exists(path))
        with open(path, newline="") as file:
            saved = list(csv.reader(file))
        self.assertEqual(saved, [["Quarter", "Requests"], *([quarter.replace("Z", ".0000000Z"), count] for quarter, count in shown)])
        browser.press("Save JSON")
        path = os.path.join(browser.folder, "saved", "answer.json")
        browser.wait(lambda: os.path.exists(path))
        with open(path) as file:
            self.assertEqual([str(one["Requests"]) for one in json.load(file)], [count for _, count in shown])
        browser.press("Copy CSV")
        browser.wait(lambda: browser.text("#told").startswith("Copied"))
        self.assertEqual(self.clipboard().splitlines()[0], "Quarter,Requests")
        browser.all(".grid-rows")[0].click()
        browser.script("document.querySelector('.results:not([hidden]) .grid-rows').focus()")
        browser.keys(Keys.HOME, held=[Keys.CONTROL])
        browser.keys(Keys.ARROW_RIGHT, Keys.ARROW_DOWN, held=[Keys.SHIFT])
        browser.keys("c", held=[Keys.CONTROL])
        wanted = "\n".join(f"{quarter.replace('Z', '.0000000Z')}\t{count}" for quarter, count in shown[:2])
        browser.wait(lambda: self.clipboard() == wanted)

    def clipboard(self):
        return self.browser.driver.execute_async_script("navigator.clipboard.readText().then(arguments[0], (fault) => arguments[0](String(fault)))")

    def test_a_chart_stands_beside_the_table(self):
        browser = self.browser
        browser.ask(QUARTERS, "24 rows")
        browser.press("Chart")
        canvas = browser.wait(lambda: browser.one("canvas"))
        self.assertEqual(canvas.get_attribute("role"), "img")
        self.assertEqual(canvas.get_attribute("aria-label"), "Time chart of Requests by Quarter: 1 series (Requests), 24 points")
        self.assertTrue(self.drawn())
        browser.script("const box = document.querySelector('.choices select'); box.value = 'bar'; box.dispatchEvent(new Event('change'))")
        browser.wait(lambda: (browser.one("canvas").get_attribute("aria-label") or "").startswith("Bar chart of Requests by Quarter"))
        self.assertTrue(browser.rows())
        browser.ask("Log | count", "1 row")
        browser.wait(lambda: browser.text(".no-chart").startswith("No chart"))

    def drawn(self):
        """Whether the first series' colour stands somewhere on the canvas."""
        return self.browser.script(
            "const canvas = [...document.querySelectorAll('canvas')].find((it) => it.offsetParent); const data = canvas.getContext('2d').getImageData(0, 0, canvas.width, canvas.height).data;"
            "for (let at = 0; at < data.length; at += 4) if (data[at] === 0 && data[at + 1] === 0x72 && data[at + 2] === 0xb2) return true; return false;"
        )

    def test_a_refusal_underlines_its_byte_and_says_why(self):
        browser = self.browser
        browser.write("Log | count\n\n// é 😀\nLog | where Staus >= 500")
        browser.run()
        browser.wait(lambda: browser.text(".refusal .sentence") == "Unknown at N: there is no table, column, let or function of the name at N")
        self.assertEqual([it.text for it in browser.all(".CodeMirror .refused")], ["Staus"])
        browser.write("Log | count")
        browser.run()
        browser.wait(lambda: not browser.all(".CodeMirror .refused") and browser.rows() == [[1, ["2359"]]])

    def test_a_million_rows_are_scrolled_to_their_end(self):
        browser = self.browser
        browser.ask(MILLION, "1,000,000 rows")
        browser.wait(lambda: browser.rows()[0] == [1, ["1", "2", "row 1"]])
        body = browser.one(".grid-rows")
        body.click()
        browser.keys(Keys.END, held=[Keys.CONTROL])
        browser.wait(lambda: browser.rows()[-1] == [1000000, ["1000000", "2000000", "row 1000000"]])
        browser.script("const box = document.querySelector('.results:not([hidden]) .grid'); box.scrollTop = 0")
        browser.wait(lambda: browser.rows()[0] == [1, ["1", "2", "row 1"]])
        browser.script("const box = document.querySelector('.results:not([hidden]) .grid'); box.scrollTop = box.scrollHeight")
        browser.wait(lambda: browser.rows()[-1][1] == ["1000000", "2000000", "row 1000000"])
        browser.script("const box = document.querySelector('.results:not([hidden]) .grid'); box.scrollTop = box.scrollHeight / 2")
        browser.wait(lambda: 400_000 < browser.rows()[0][0] < 600_000 and browser.rows()[0][1][0] == str(browser.rows()[0][0]))
        before = browser.rows()[0][0]
        ActionChains(browser.driver).scroll_from_origin(webdriver.common.actions.wheel_input.ScrollOrigin.from_element(body), 0, 240).perform()
        browser.wait(lambda: browser.rows()[0][0] == before + 10)
        self.assertLess(len(browser.all(".grid-row")), 100)
        heap = browser.driver.execute_cdp_cmd("Runtime.getHeapUsage", {})["usedSize"]
        self.assertLess(heap, 60_000_000)
        # The second click comes while the rows of the first are on their way.
        for _ in range(2):
            browser.script("document.querySelector('.results:not([hidden]) .sorter').click()")
        browser.wait(lambda: browser.column("x").get_attribute("aria-sort") == "descending" and browser.rows()[0][1][0] == "1000000")

    def test_tabs_keep_their_questions_and_answers(self):
        browser = self.browser
        browser.ask("Log | take 3", "3 rows")
        browser.one("#new-tab").click()
        browser.wait(lambda: len(browser.all("[role=tab]")) == 2)
        browser.ask("Log | take 5", "5 rows")
        browser.all("[role=tab]")[0].click()
        browser.wait(lambda: browser.text(".count").startswith("3 rows") and len(browser.rows()) == 3)
        self.assertEqual([it.get_attribute("aria-selected") for it in browser.all("[role=tab]")], ["true", "false"])
        browser.all("[role=tab]")[0].send_keys(Keys.ARROW_RIGHT)
        browser.wait(lambda: browser.text(".count").startswith("5 rows"))
        time.sleep(0.5)
        browser.driver.refresh()
        browser.wait(lambda: len(browser.all("[role=tab]")) == 2)
        self.assertEqual(browser.wait(lambda: browser.script("return document.querySelector('.CodeMirror').CodeMirror.getValue()")), "Log | take 3")
        browser.all("[role=tab]")[0].send_keys(Keys.DELETE)
        browser.wait(lambda: len(browser.all("[role=tab]")) == 1)

    def test_a_link_brings_its_question_into_a_tab_and_runs_nothing(self):
        browser = self.browser
        browser.write("Log\n| take 7")
        browser.press("Copy link")
        browser.wait(lambda: "is copied" in browser.text("#told"))
        link = self.clipboard()
        self.assertTrue(link.startswith(f"http://{self.page.host}/#question="))
        browser.driver.get("about:blank")
        browser.driver.get(link)
        browser.wait(lambda: "Log\n| take 7" == browser.script("return document.querySelector('.CodeMirror').CodeMirror.getValue()"))
        self.assertEqual(browser.driver.current_url, f"http://{self.page.host}/")
        time.sleep(0.5)
        self.assertEqual(browser.seen(".grid"), [])

    def test_the_history_outlives_the_page(self):
        browser = self.browser
        browser.ask("Log | take 11", "11 rows")
        browser.driver.refresh()
        entry = browser.wait(lambda: next(it for it in [*browser.all(".entry"), None] if it is None or it.text == "Log | take 11"))
        entry.click()
        browser.wait(lambda: browser.script("return document.querySelector('.CodeMirror').CodeMirror.getValue()").endswith("Log | take 11"))

    def test_dynamics_open_as_trees(self):
        browser = self.browser
        browser.ask('print D = dynamic({"a":{"b":[1,9007199254740993,{"c":"<b>"}]},"n":null})', "1 row")
        browser.one(".grid-rows").click()
        browser.script("document.querySelector('.results:not([hidden]) .grid-rows').focus()")
        browser.keys(Keys.HOME, Keys.ENTER)
        browser.wait(lambda: "a: { 1 member }" in browser.text("aside.cell") and "9007199254740993" not in browser.text("aside.cell"))
        for text in ("[ 3 items ]", "{ 1 member }"):
            browser.script("[...document.querySelectorAll('aside.cell summary')].filter((it) => it.textContent.endsWith(arguments[0])).pop().click()", text)
        browser.wait(lambda: "9007199254740993" in browser.text("aside.cell") and 'c: "<b>"' in browser.text("aside.cell"))
        browser.keys(Keys.ESCAPE)
        browser.wait(lambda: not browser.seen("aside.cell"))

    def test_a_question_that_runs_can_be_left(self):
        browser = self.browser
        browser.write(SLOW)
        browser.run()
        browser.wait(lambda: browser.button("Leave").is_enabled() and "The engine is busy" in browser.text("#engine"))
        browser.press("Leave")
        browser.wait(lambda: "The engine is still busy with it" in browser.text(".replies"))
        browser.ask("Log | take 2", "2 rows")
        browser.wait(lambda: browser.text("#engine") == "")

    def test_an_export_asks_first(self):
        browser = self.browser
        browser.ask("Log | take 1", "1 row")
        for key, told in ((Keys.ESCAPE, "wasn't written"), (Keys.ENTER, "wasn't written")):
            browser.write("#export All over Log { Log }\n\n#export All")
            browser.run()
            browser.wait(lambda: browser.one("dialog").is_displayed())
            self.assertIn("writes a file of CSV into", browser.text("#ask-text"))
            browser.keys(key)
            browser.wait(lambda: told in browser.text(".replies"))
        browser.run()
        browser.wait(lambda: browser.one("dialog").is_displayed())
        browser.press("Write the file")
        browser.wait(lambda: "exported" in browser.text(".replies"))

    def test_all_that_takes_the_focus_has_a_name(self):
        browser = self.browser
        browser.ask(QUARTERS, "24 rows")
        if not browser.button("Chart").get_attribute("aria-pressed") == "true":
            browser.press("Chart")
        browser.wait(lambda: browser.one("canvas"))
        nodes = browser.driver.execute_cdp_cmd("Accessibility.getFullAXTree", {})["nodes"]
        nameless = []
        for node in nodes:
            takes = any(it["name"] == "focusable" and it["value"].get("value") for it in node.get("properties", []))
            role = node.get("role", {}).get("value")
            if takes and not node.get("ignored") and role not in ("RootWebArea", "tabpanel", "scrollbar", "generic") and not node.get("name", {}).get("value"):
                nameless.append(role)
        self.assertEqual(nameless, [])
        roles = {node.get("role", {}).get("value") for node in nodes}
        self.assertLessEqual({"grid", "row", "gridcell", "columnheader", "tablist", "tab", "tabpanel", "toolbar", "navigation", "main", "banner", "status"}, roles)

    def test_every_control_is_reached_by_the_keyboard(self):
        browser = self.browser
        browser.ask("Log | take 3", "3 rows")
        browser.script("document.querySelector('.CodeMirror').CodeMirror.focus()")
        seen = []
        for _ in range(36):
            browser.keys(Keys.TAB)
            seen.append(browser.script("const it = document.activeElement; return it.getAttribute('aria-label') ?? it.textContent"))
        for name in ("Run", "Copy link", "Chart", "Save JSON", "Filter Status", "Rows"):
            self.assertTrue(any(it == name for it in seen), (name, seen))

    def test_it_is_dark_or_light_as_the_system_is(self):
        for scheme, is_light in (("dark", False), ("light", True)):
            self.browser.driver.execute_cdp_cmd("Emulation.setEmulatedMedia", {"features": [{"name": "prefers-color-scheme", "value": scheme}]})
            red = int(self.browser.script("return getComputedStyle(document.body).backgroundColor").split("(")[1].split(",")[0])
            self.assertEqual(red > 127, is_light)
        self.browser.driver.execute_cdp_cmd("Emulation.setEmulatedMedia", {"features": []})


class Files(PageTest):
    """Pages of other files."""

    def is_expected(self, message):
        # What the browser says of a server that has ended, or refuses.
        return any(part in message for part in ("WebSocket connection", "Failed to load resource", "blocked by CORS", "frame-ancestors", "403"))

    def test_members_that_were_seen_are_offered_behind_a_dot(self):
        browser = self.browser
        self.serve(self.file("a.csv", [["n", "D"], ["1", '{"user":{"name":"ann"},"size":3}']]))
        browser.wait(lambda: "1 row" in browser.text("#catalogue"))
        browser.write("Log | where D")
        browser.script("document.querySelector('.CodeMirror').CodeMirror.focus()")
        browser.keys(".u")
        browser.wait(lambda: [it.text.split("\n")[0] for it in browser.all(".CodeMirror-hint .hint-text")] == ["user"])
        browser.keys(Keys.TAB)
        browser.keys(".")
        browser.wait(lambda: [it.text for it in browser.all(".CodeMirror-hint .hint-text")] == ["name"])

    def test_loading_has_a_bar_while_questions_are_answered(self):
        browser = self.browser
        folder = tempfile.TemporaryDirectory(prefix="page")
        self.addCleanup(folder.cleanup)
        path = os.path.join(folder.name, "a.csv")
        os.mkfifo(path)
        page = Running(path)
        self.addCleanup(page.close)
        browser.open(page)
        with open(path, "w") as file:
            file.write("n,s\n" + "".join(f"{n},x\n" for n in range(30_000)))
            file.flush()
            browser.wait(lambda: browser.one("progress").get_attribute("aria-label").startswith("Loading a.csv") and "0,000 rows" in browser.text("#loading"))
            browser.ask("Log | count", "1 row")
        browser.wait(lambda: "30,000 rows in" in browser.text("#loading"))
        browser.wait(lambda: "30,000 rows" in browser.text("#catalogue"))

    def test_markup_in_cells_names_and_files_is_text(self):
        browser = self.browser
        head = f"<img src=x onerror={HIT}>"
        with open(self.file("plain.csv", [["n", head, f"</span><script>{HIT}</script>"], *([str(at), text, "x"] for at, text in enumerate(MARKUP))])) as file:
            content = file.read()
        self.serve(self.file(f"<img src=x onerror={HIT}>.csv", content), words=["--header"])
        self.assertIn("<img src=x", browser.text("#loading"))
        browser.wait(lambda: f"{len(MARKUP)} rows" in browser.text("#catalogue"))
        browser.script("document.querySelectorAll('#side details').forEach((it) => { it.open = true; })")
        browser.ask("Log", f"{len(MARKUP)} rows")
        browser.wait(lambda: len(browser.rows()) >= 10)
        shown = {}
        for _ in range(4):
            shown.update({cells[0]: cells[1] for _, cells in browser.rows()})
            browser.script("document.querySelector('.results:not([hidden]) .grid').scrollTop += 240")
            time.sleep(0.1)
        self.assertEqual(shown, {str(at): text for at, text in enumerate(MARKUP)})
        browser.script("document.querySelector('.results:not([hidden]) .grid').scrollTop = 0")
        self.assertIn(head, [it.text.split("\n")[0] for it in browser.all("[role=columnheader]")])
        self.chart("bar")
        browser.one(".grid-rows").click()
        browser.keys(Keys.ENTER)
        browser.wait(lambda: browser.one("aside.cell"))
        browser.write("Log | where <img src=x onerror=top.hit=1>")
        browser.run()
        browser.wait(lambda: browser.all(".refusal"))
        time.sleep(0.3)
        self.assertIsNone(browser.script("return top.hit ?? null"))
        self.assertEqual(browser.script("return [...document.querySelectorAll(arguments[0])].map((it) => it.outerHTML)", MADE_BY_MARKUP), [])

    def chart(self, kind):
        browser = self.browser
        if browser.button("Chart").get_attribute("aria-pressed") != "true":
            browser.press("Chart")
        browser.wait(lambda: browser.one(".choices"))
        browser.script("const box = document.querySelector('.choices select'); box.value = arguments[0]; box.dispatchEvent(new Event('change'))", kind)
        browser.wait(lambda: browser.one("canvas").get_attribute("aria-label").lower().startswith(kind))

    def test_a_page_of_another_port_gets_nothing(self):
        page = self.serve()
        browser = self.browser
        content = FOREIGN.replace("HOST", page.host).encode()

        class Foreign(http.server.BaseHTTPRequestHandler):
            def do_GET(self):
                self.server.cookies = self.headers.get("Cookie", "")
                self.send_response(200)
                self.send_header("Content-Type", "text/html")
                self.end_headers()
                self.wfile.write(content)

            def log_message(self, *_):
                pass

        server = http.server.ThreadingHTTPServer(("127.0.0.1", 0), Foreign)
        threading.Thread(target=server.serve_forever, daemon=True).start()
        self.addCleanup(server.server_close)
        self.addCleanup(server.shutdown)
        browser.driver.get(f"http://127.0.0.1:{server.server_port}/")
        browser.wait(lambda: len(browser.script("return Object.keys(window.found)")) == 6)
        time.sleep(0.6)
        self.assertEqual(set(browser.script("return Object.values(window.found)")), {"refused"})
        # The browser sent our cookie to the other port, and it opens no socket from there, whatever it says.
        self.assertIn("kq_page_", server.cookies)
        with page.socket(Cookie=server.cookies) as found:
            found.put(json.dumps({"key": "guessed"}))
            self.assertEqual(found.get(), 4403)

    def test_the_programs_end_is_told_and_all_is_loaded_anew(self):
        page = self.serve()
        browser = self.browser
        browser.ask("Log | take 3", "3 rows")
        os.kill(page.program_of(), signal.SIGKILL)
        browser.wait(lambda: "SIGKILL" in browser.text("#alert"))
        browser.press("Load anew")
        browser.wait(lambda: browser.text("#alert") == "")
        browser.wait(lambda: "2,359 rows in" in browser.text("#loading"))
        browser.ask("Log | take 4", "4 rows")

    def test_the_servers_end_is_told(self):
        page = self.serve()
        page.close()
        self.browser.wait(lambda: "has gone" in self.browser.text("#alert"))

    def test_at_400_pixels_nothing_is_wider_than_the_page(self):
        browser = self.browser
        browser.driver.execute_cdp_cmd("Emulation.setDeviceMetricsOverride", {"width": 400, "height": 800, "deviceScaleFactor": 1, "mobile": False})
        try:
            self.serve()
            browser.ask(QUARTERS, "24 rows")
            browser.press("Chart")
            browser.wait(lambda: browser.one("canvas"))
            self.assertLessEqual(browser.script("return document.documentElement.scrollWidth"), 400)
        finally:
            browser.driver.execute_cdp_cmd("Emulation.clearDeviceMetricsOverride", {})


if __name__ == "__main__":
    unittest.main()
