"""What the browser's tests share: one Chromium, one desk, and ways to look and to press keys.

    /usr/bin/python3 -m unittest discover -s python/tests/browser

needs Debian's chromium, chromium-driver, python3-selenium, python3-flask and python3-waitress (.ci/install). Pictures
go to target/browser; those of the README to docs/pictures too where EVP_PICTURES is set.
"""

import atexit
import base64
import json
import os
import shutil
import sys
import tempfile
import threading
import time
import unittest
from functools import cache
from pathlib import Path

TOP = Path(__file__).resolve().parents[3]
for _folder in (TOP, TOP / "python"):
    if str(_folder) not in sys.path:
        sys.path.insert(0, str(_folder))
sys.path.append(str(TOP / "python" / "tests"))  # behind this folder, whose tests may have the same names

import waitress  # noqa: E402
from selenium import webdriver  # noqa: E402
from selenium.webdriver.common.action_chains import ActionChains  # noqa: E402
from selenium.webdriver.common.by import By  # noqa: E402
from selenium.webdriver.common.keys import Keys  # noqa: E402

from evp.desk.app import create_app  # noqa: E402
from evp.desk.security import hosts_of  # noqa: E402
from evp.desk.server import listening  # noqa: E402

SAMPLES = TOP / "samples"
PICTURES = TOP / "target" / "browser"
README_PICTURES = TOP / "docs" / "pictures"
OF_README = ("class", "parking")
MOST_PICTURE = 200_000  # bytes
WAIT = 10  # seconds at most for an answer
SIZES = ((360, 740), (768, 1024), (1024, 768), (1440, 900))  # of a telephone, a tablet, a projector, a desk
NAMED = {"button", "link", "textbox", "combobox", "slider", "radio", "checkbox", "spinbutton", "image", "table",
         "columnheader", "rowheader", "heading"}  # roles that a reader of the screen says by their names
PAPER = (1032, 703)  # pixels across between the margins of A4, lying and standing
CONTRAST, LAYOUT = ((Path(__file__).parent / name).read_text(encoding="utf-8") for name in ("contrast.js", "layout.js"))
PROGRAMS = ("chromium", "chromium-browser", "google-chrome")


@cache
def desk() -> str:
    """The address of the desk without a ledger, which is served until the tests end."""
    listener = listening("127.0.0.1", 0)
    port = listener.getsockname()[1]
    app = create_app(hosts_of("127.0.0.1", port))
    server = waitress.create_server(app, sockets=[listener], threads=4, clear_untrusted_proxy_headers=True)
    threading.Thread(target=server.run, daemon=True).start()
    return "http://127.0.0.1:%d" % port


@cache
def downloads() -> Path:
    folder = tempfile.mkdtemp()
    atexit.register(shutil.rmtree, folder, ignore_errors=True)
    return Path(folder)


@cache
def chromium() -> webdriver.Chrome:
    """The browser, started once."""
    options = webdriver.ChromeOptions()
    for word in ("--headless=new", "--disable-gpu", "--hide-scrollbars", "--force-device-scale-factor=1", "--lang=en"):
        options.add_argument(word)
    if os.geteuid() == 0:  # the sandbox wants another user
        options.add_argument("--no-sandbox")
    options.binary_location = next(filter(None, map(shutil.which, PROGRAMS)))
    options.set_capability("goog:loggingPrefs", {"browser": "ALL"})
    service = webdriver.chrome.service.Service(shutil.which("chromedriver"))
    browser = webdriver.Chrome(service=service, options=options)
    atexit.register(browser.quit)
    browser.execute_cdp_cmd("Browser.setDownloadBehavior", {"behavior": "allow", "downloadPath": str(downloads())})
    return browser


class BrowserTestCase(unittest.TestCase):
    """A test in the browser. No page may say anything on its console."""

    def setUp(self):
        self.browser = chromium()
        self.look(1280, 900)
        self.browser.get(desk() + "/health")  # a form that is left keeps its draft
        self.run_script("localStorage.clear()")
        self.browser.get_log("browser")

    def tearDown(self):
        self.assertEqual(self.console(), [])

    def console(self) -> list[str]:
        return [line["message"] for line in self.browser.get_log("browser") if line["level"] in ("SEVERE", "WARNING")]

    # ------------------------------------------------------------------ looking

    def look(self, width: int, height: int, scheme: str = "light", media: str = "screen"):
        """The size of the window, dark or light, and whether it is for paper."""
        self.browser.execute_cdp_cmd("Emulation.setDeviceMetricsOverride", {
            "width": width, "height": height, "deviceScaleFactor": 1, "mobile": False})
        self.browser.execute_cdp_cmd("Emulation.setEmulatedMedia", {
            "media": media, "features": [{"name": "prefers-color-scheme", "value": scheme}]})

    def open(self, path: str):
        self.browser.get(path if "://" in path else desk() + path)

    def run_script(self, source: str, *given):
        return self.browser.execute_script(source, *given)

    def all(self, selector: str) -> list:
        return self.browser.find_elements(By.CSS_SELECTOR, selector)

    def one(self, selector: str):
        return self.browser.find_element(By.CSS_SELECTOR, selector)

    def text(self, selector: str) -> str:
        return self.one(selector).text

    def visible(self, selector: str) -> int:
        """How many of these can be seen."""
        return self.run_script("""
            return Array.from(document.querySelectorAll(arguments[0]))
              .filter(function (e) { return e.checkVisibility({visibilityProperty: true}); }).length;""", selector)

    def wait(self, condition, what: str):
        """Until something holds; a page that is left meanwhile holds nothing."""
        end = time.monotonic() + WAIT
        while time.monotonic() < end:
            try:
                if condition():
                    return
            except Exception:  # noqa: BLE001  the page is being left
                pass
            time.sleep(0.02)
        self.fail("waited %d s: %s; the page has: %s" % (WAIT, what, self.text("body")[:500]))

    def picture(self, name: str):
        """A picture of the window, small enough for a README."""
        shot = base64.b64decode(self.browser.execute_cdp_cmd("Page.captureScreenshot", {"format": "png"})["data"])
        self.assertLess(len(shot), MOST_PICTURE)
        of_readme = name in OF_README and os.environ.get("EVP_PICTURES")
        for folder in (PICTURES, README_PICTURES) if of_readme else (PICTURES,):
            folder.mkdir(parents=True, exist_ok=True)
            (folder / (name + ".png")).write_bytes(shot)

    def check_looks(self, name: str) -> int:
        """Nothing is cut off, overlaps or is too faint, at every size, light and dark; how many texts were seen."""
        seen = 0
        for scheme in ("light", "dark"):
            for width, height in SIZES:
                self.look(width, height, scheme)
                with self.subTest(page=name, width=width, scheme=scheme):
                    self.assertLessEqual(self.run_script("return document.documentElement.scrollWidth"), width)
                    contrast, layout = self.run_script(CONTRAST), self.run_script(LAYOUT)
                    self.assertEqual((contrast["low"], layout["overlaps"], layout["cut"]), ([], [], []))
                    seen += contrast["seen"]
        with self.subTest(page=name, names=True):
            self.check_names()
        return seen

    def check_names(self):
        """What a reader of the screen is told, narrow and wide: everything has a name, and a table stays one."""
        tables = []
        for width, height in (SIZES[0], SIZES[-1]):
            self.look(width, height)
            nodes = [node for node in self.browser.execute_cdp_cmd("Accessibility.getFullAXTree", {})["nodes"]
                     if not node["ignored"]]
            self.assertEqual([node["role"]["value"] for node in nodes if node["role"]["value"] in NAMED
                              and not node["name"]["value"].strip()], [])
            tables.append(sum(node["role"]["value"] == "table" for node in nodes))
        self.assertEqual(*tables)

    def check_paper(self, name: str):
        """What is clicked is left out, dark is not printed, and nothing is cut off."""
        wide = self.run_script("return getComputedStyle(document.body).page") == "wide"
        width = PAPER[0] if wide else PAPER[1]
        self.look(width, 900, "dark", "print")
        with self.subTest(page=name, paper=width):
            self.assertEqual(self.visible("button, nav, .filter, .links, .noprint, input[type=file]"), 0)
            self.assertEqual(self.run_script("return getComputedStyle(document.body).backgroundColor"),
                             "rgb(255, 255, 255)")
            self.assertLessEqual(self.run_script("return document.documentElement.scrollWidth"), width)
            layout = self.run_script(LAYOUT)
            self.assertEqual((layout["overlaps"], layout["cut"]), ([], []))
        printed = self.browser.execute_cdp_cmd("Page.printToPDF", {"printBackground": False, "preferCSSPageSize": True})
        self.assertGreater(len(printed["data"]), 10_000)
        self.look(1280, 900)

    # ------------------------------------------------------------------ doing

    def press(self, *keys: str):
        """Keys, one after another, where the focus is."""
        for key in keys:
            ActionChains(self.browser).send_keys(key).perform()

    def focused(self) -> str:
        """What has the focus, in short."""
        return self.run_script("""
            var e = document.activeElement;
            if (e === document.body) return "";
            if (e.id) return "#" + e.id;
            return (e.textContent || e.value || e.type).trim().replace(/\\s+/g, " ").slice(0, 60);""")

    def tab_to(self, wanted: str, most: int = 120):
        """Presses the tabulator until something has the focus, and sees all the way that the focus can be seen."""
        for _ in range(most):
            self.press(Keys.TAB)
            found = self.focused()
            if found:
                width = self.run_script("return getComputedStyle(document.activeElement).outlineWidth")
                self.assertGreaterEqual(float(width.removesuffix("px")), 2, "nothing shows the focus of %s" % found)
            if found == wanted:
                return
        self.fail("%s is not reached by the tabulator; the last was %s" % (wanted, self.focused()))

    def drop(self, paths: list[Path]):
        """Drops files on the page."""
        files = [{"name": path.name, "data": base64.b64encode(path.read_bytes()).decode()} for path in paths]
        self.run_script("""
            var held = new DataTransfer();
            JSON.parse(arguments[0]).forEach(function (file) {
              var bytes = Uint8Array.from(atob(file.data), function (sign) { return sign.charCodeAt(0); });
              held.items.add(new File([bytes], file.name));
            });
            ["dragover", "drop"].forEach(function (name) {
              var event = new DragEvent(name, {dataTransfer: held, bubbles: true, cancelable: true});
              document.body.dispatchEvent(event);
            });""",
            json.dumps(files))

    def downloaded(self, name: str) -> bytes:
        """A file that the browser saved."""
        path = downloads() / name
        self.wait(lambda: path.exists() and path.stat().st_size > 0, "%s is saved" % name)
        data = path.read_bytes()
        path.unlink()
        return data
