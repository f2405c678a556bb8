"""The page in a browser: what its buttons, keys and clicks do, and what it shows."""

import base64
import contextlib
import functools
import http.server
import os
import re
import shutil
import tempfile
import threading
import time
import unittest
from pathlib import Path

import numpy as np
import sandpile
from play_tools import SECONDS, opened
from tools import needs, needs_module, new_folder, same

FLAGS = (
    "--headless=new", "--disable-gpu", "--disable-dev-shm-usage", "--no-first-run", "--disable-background-networking", "--disable-sync",
    "--disable-component-update", "--disable-default-apps", "--disable-domain-reliability", "--force-device-scale-factor=1",
    "--host-resolver-rules=MAP * ~NOTFOUND, EXCLUDE 127.0.0.1", *(["--no-sandbox"] if os.geteuid() == 0 else []),
)
COLOURS = [(11, 29, 58), (47, 111, 159), (242, 193, 78), (253, 246, 227)]
RED, GREY = (200, 16, 46), (107, 107, 107)
# What the page saves, by the button.
SAVED = {"save-picture": "sandpile-heights.png", "save-table": "sandpile-table.npy"}
WIDE, NARROW = (1280, 1000), (500, 900)
# Notes what the page says from now on.
NOTES = """
window.notes = [];
new MutationObserver(() => window.notes.push(document.getElementById("said").textContent))
  .observe(document.getElementById("said"), { childList: true });
"""
PIXELS = """
const canvas = document.getElementById(arguments[0]);
const { width, height } = canvas;
const bytes = canvas.getContext("2d").getImageData(0, 0, width, height).data;
let text = "";
for (let at = 0; at < bytes.length; at += 30000) {
  text += btoa(String.fromCharCode(...bytes.subarray(at, at + 30000)));
}
return [width, height, text];
"""
DROPPED = """
const data = new DataTransfer();
data.items.add(new File([arguments[0]], "pile.txt"));
document.getElementById("left").dispatchEvent(new DragEvent("drop", { dataTransfer: data, bubbles: true }));
"""
# What a page of another origin gets from a request.
FETCHED = """
const [address, how, done] = arguments;
fetch(address, how).then((answer) => done(answer.type), (error) => done(error.name));
"""


class Elsewhere(http.server.BaseHTTPRequestHandler):
    """Another origin, whose page has another one in a frame if its path names that."""

    def do_GET(self):
        frame = f"<iframe src='{self.path[1:]}' width=900 height=900></iframe>" if len(self.path) > 1 else ""
        content = f"<!doctype html><title>elsewhere</title>{frame}".encode()
        self.send_response(200)
        self.send_header("Content-Type", "text/html")
        self.send_header("Content-Length", str(len(content)))
        self.end_headers()
        self.wfile.write(content)

    def log_message(self, *_):
        pass


def browser(folder):
    """A browser without windows, which saves files in a folder."""
    from selenium import webdriver
    from selenium.webdriver.chrome.service import Service
    from selenium.webdriver.remote.remote_connection import RemoteConnection

    RemoteConnection.set_timeout(3 * SECONDS)  # by default, a browser that hangs is waited for
    options = webdriver.ChromeOptions()
    for flag in (*FLAGS, f"--user-data-dir={folder}/profile"):
        options.add_argument(flag)
    options.binary_location = "/usr/bin/chromium"
    options.add_experimental_option("prefs", {"download.default_directory": folder, "download.prompt_for_download": False})
    options.set_capability("goog:loggingPrefs", {"browser": "ALL"})
    driver = webdriver.Chrome(service=Service("/usr/bin/chromedriver"), options=options)
    driver.set_page_load_timeout(SECONDS)
    driver.set_script_timeout(SECONDS)
    return driver


@functools.lru_cache(maxsize=1)
def only_browser():
    """The browser of all tests here, and the folder of what it saves."""
    folder = tempfile.mkdtemp(prefix="sandpile-browser-")
    return browser(folder), Path(folder)


def tearDownModule():
    if only_browser.cache_info().currsize:
        driver, folder = only_browser()
        driver.quit()
        shutil.rmtree(folder, ignore_errors=True)  # it may still write to its profile


@needs("chromium", "chromedriver")
@needs_module("selenium")
class OfPage(unittest.TestCase):
    """Has a browser, and a page in it."""

    @classmethod
    def setUpClass(cls):
        cls.driver, cls.saved = only_browser()

    def show(self, *start, **how):
        """Opens a page, and waits until it shows its run."""
        self.driver.set_window_size(*WIDE)
        self.page = opened(self, *start, **how)
        self.driver.get(self.page.address)
        self.until(lambda: self.text("drops") != "")
        self.driver.execute_script(NOTES)
        return self.page.run

    def tearDown(self):
        wrong = [entry for entry in self.driver.get_log("browser") if entry["level"] == "SEVERE"]
        self.assertEqual([entry for entry in wrong if not self.may_log(entry["message"])], [])
        self.driver.get("about:blank")

    def may_log(self, message):
        """Whether the browser may note an answer as an error: it notes each refusal."""
        return "the server responded with a status of 4" in message

    def get(self, name):
        from selenium.webdriver.common.by import By

        return self.driver.find_element(By.ID, name)

    def text(self, name):
        return self.driver.execute_script("return document.getElementById(arguments[0]).textContent", name)

    def until(self, holds, seconds=SECONDS):
        """Waits until something holds."""
        end = time.monotonic() + seconds
        while not holds():
            if time.monotonic() > end:
                self.fail(f"after {seconds} s the page says {self.text('said')!r}, {self.text('error')!r}")
            time.sleep(0.01)

    def says(self, pattern, name="said"):
        """Waits until the page says this, and returns what was found."""
        self.until(lambda: re.search(pattern, self.text(name)))
        return re.search(pattern, self.text(name))

    def press(self, *names):
        for name in names:
            self.get(name).click()

    def keys(self, *keys):
        from selenium.webdriver.common.action_chains import ActionChains

        for key in keys:
            ActionChains(self.driver).send_keys(key).perform()

    def click(self, row, column):
        """Clicks the middle of a site."""
        from selenium.webdriver.common.action_chains import ActionChains

        self.driver.execute_script("window.scrollTo(0, 0)")
        stage, (height, width) = self.get("stage"), self.page.run.shape
        size = stage.rect
        x, y = ((column + 0.5) / width - 0.5) * size["width"], ((row + 0.5) / height - 0.5) * size["height"]
        ActionChains(self.driver, duration=0).move_to_element_with_offset(stage, round(x), round(y)).click().perform()

    def pixels(self, name="picture"):
        """The colours of a canvas; shape (height, width, 4)."""
        width, height, values = self.driver.execute_script(PIXELS, name)
        return np.frombuffer(base64.b64decode(values), np.uint8).reshape(height, width, 4)

    def heights(self):
        """The heights that the picture shows."""
        pixels = self.pixels()[..., :3]
        found = (pixels[..., None, :] == COLOURS).all(axis=-1)
        self.assertTrue(found.any(axis=-1).all(), "a site has another colour than those of the heights")
        return found.argmax(axis=-1)

    def shows_the_run(self):
        """Whether the picture shows the heights of the run, and the numbers are its own."""
        self.assertEqual(self.heights().tolist(), self.page.run.pile.tolist())
        run = self.page.run
        told = (f"{run.drops:,}", f"{run.pile.mean():.4f}", f"{run.lost:,}")
        self.assertEqual((self.text("drops"), self.text("mean"), self.text("lost")), told)

    def at_once(self):
        """Shows no waves."""
        for _ in range(7):
            self.press("faster")
        self.assertEqual(self.text("speed"), "at once")


class Clicks(OfPage):
    def test_the_avalanche_runs_wave_by_wave(self):
        run = self.show((64, 64), 11)
        copy, was = sandpile.Drive(run.pile), run.pile
        for _ in range(3):
            self.press("faster")
        row, column = next(
            site for site in np.ndindex(64, 64) if 4 < len(sandpile.Drive(was).waves(row=site[0], column=site[1])[1]) < 30
        )
        avalanche, sizes, waves = copy.waves(row=row, column=column)
        self.click(row, column)
        self.says(r"^drop 0 at")
        number = len(sizes)
        notes = [f"wave {at} of {number}: {size:,} sites topple" for at, size in enumerate(sizes.tolist(), 1)]
        size, area, lost = (f"{int(avalanche[name]):,}" for name in ("size", "area", "lost"))
        notes.append(f"drop 0 at row {row}, column {column}: size {size}, area {area}, {number} waves, {lost} lost")
        self.assertEqual(self.driver.execute_script("return window.notes"), notes)
        self.assertEqual(run.table.tolist(), copy.table.tolist())
        self.shows_the_run()

    def test_a_wave_is_red_until_the_next(self):
        for cylinder in (False, True):
            pile = np.full((8, 12), 3)
            pile[2, 1:], pile[5, 3] = 1, 0
            run = self.show(pile, cylinder=cylinder)
            self.press("pause")
            for column in (0, 6, 11):
                _, sizes, waves = sandpile.Drive(run.pile, cylinder=cylinder).waves(row=4, column=column)
                self.click(4, column)
                self.until(lambda: run.table.size and run.table["site"][0] == 4 * 12 + column and self.text("drops") == str(run.drops))
                if len(sizes):
                    self.says(f"^wave 1 of {len(sizes)}: {sizes[0]} sites topple$")
                    self.assertEqual((self.pixels()[..., :3] == RED).all(axis=-1).tolist(), waves[0].tolist())
                    for at in range(1, len(sizes)):
                        self.press("step")
                        self.says(f"^wave {at + 1} of {len(sizes)}: {sizes[at]} sites topple$")
                        self.assertEqual((self.pixels()[..., :3] == RED).all(axis=-1).tolist(), waves[at].tolist())
                    self.press("step")
                self.says(f"^drop .* column {column}: ")
                self.shows_the_run()
                self.assertFalse(self.get("error").is_displayed())  # as it is if the waves of the page are wrong
            self.assertGreater(run.topplings, 50)

    def test_the_first_wave_is_soon_there(self):
        run = self.show((256, 256), 5)
        times = []
        for at in range(12):
            self.click(100 + 5 * at, 128)
            self.until(lambda: self.text("drops") == str(at + 1) and self.get("stage").get_attribute("data-first"))
            times.append(float(self.get("stage").get_attribute("data-first")))
            self.press("finish")
        self.assertEqual(run.drops, 12)
        self.assertLess(np.quantile(times, 0.25), 50, times)  # so other work on the machine does no harm

    def test_the_site_under_the_pointer(self):
        run = self.show((64, 64), 11)
        run.drop(500)
        self.until(lambda: self.text("drops") == "500")
        self.at_once()
        for row, column in ((0, 0), (63, 63), (10, 50)):
            self.click(row, column)
            self.until(lambda: run.table["site"][0] == 64 * row + column)
            self.says(f"^row {row}, column {column}: height {run.height(row=row, column=column)}, odometer {run.odometer[row, column]:,}$", "pointer")

    def test_a_site_by_the_keys(self):
        from selenium.webdriver.common.keys import Keys

        run = self.show((9, 9), 11)
        self.driver.execute_script("document.getElementById('stage').focus()")
        self.keys(Keys.ARROW_UP, Keys.ARROW_UP, Keys.ARROW_LEFT, Keys.ARROW_LEFT, Keys.ARROW_DOWN, Keys.ARROW_LEFT, Keys.ENTER)
        self.until(lambda: run.drops == 1)
        self.assertEqual(run.table["site"].tolist(), [4 * 9 + 1])


class Buttons(OfPage):
    def test_each_of_them(self):
        run = self.show((20, 30), 3)
        tried = set()

        def press(name):
            self.press(name)
            tried.add(name)

        for name, said in (("slower", "4 a second"), ("faster", "8 a second")):
            press(name)
            self.assertEqual(self.text("speed"), said)
        press("pause")
        self.assertTrue(self.get("pause").text.startswith("Go on"))
        press("one")
        self.until(lambda: self.text("drops") == "1")
        press("step")
        press("finish")
        self.says("^drop 0 at ")
        press("pause")
        self.at_once()
        press("thousand")
        self.says("^1,000 grains dropped of 1,000$")
        press("hundred-thousand")
        self.says("^100,000 grains dropped of 100,000$")
        self.assertEqual((run.drops, self.get("stop").is_enabled()), (101001, False))
        press("endless")
        self.says("^[1-9][0-9,]{3,} grains dropped$")
        press("stop")
        self.until(lambda: self.text("drops") == f"{run.drops:,}")
        self.shows_the_run()
        for name in ("odometer", "last", "burning", "tree", "heights"):
            press(f"see-{name}")
            self.until(lambda: self.get(f"see-{name}").get_attribute("aria-pressed") == "true")
        for name, said in (
            ("uniform", "a uniform recurrent pile, seed [0-9]+"), ("empty", "the empty pile"), ("threes", "3 grains everywhere"),
            ("identity", "the identity"), ("heap", "a heap of 10,000 grains in row 10, column 15, settled"),
        ):
            press(name)
            self.says(f"^Started from {said}.$")
            self.shows_the_run()
        with self.watched("click", "file") as clicks:
            press("open")
        self.assertEqual(clicks(), 1)
        for name, file in SAVED.items():
            self.saves(name, file)
            tried.add(name)
        buttons = self.driver.execute_script("return Array.from(document.querySelectorAll('button'), (button) => button.id)")
        self.assertEqual(sorted(tried), sorted(buttons))

    def saves(self, name, file):
        """Has the page save a file, and returns its path."""
        path = self.saved / file
        path.unlink(missing_ok=True)
        self.press(name)
        self.until(path.exists)
        return path

    @contextlib.contextmanager
    def watched(self, event, name):
        """Counts events of an element, whose own effect they have not: a dialogue would stay open."""
        code = "window.seen = 0; document.getElementById(arguments[1]).addEventListener(arguments[0], (event) => { event.preventDefault(); window.seen++; })"
        self.driver.execute_script(code, event, name)
        yield lambda: self.driver.execute_script("return window.seen")

    def test_each_has_a_key(self):
        from selenium.webdriver.common.keys import Keys

        self.show((5, 5), 3)
        code = "return Array.from(document.querySelectorAll('button'), (button) => [button.id, button.dataset.key])"
        shown = dict(self.driver.execute_script(code))
        self.assertEqual(len(set(shown.values())), len(shown))
        self.driver.execute_script("""
            window.pressed = [];
            document.addEventListener("click", (event) => { event.stopImmediatePropagation(); event.preventDefault();
              window.pressed.push(event.target.id); }, true);
            document.querySelectorAll("button").forEach((button) => { button.disabled = false; });
        """)
        for name, key in shown.items():
            self.keys({"Space": " ", "Escape": Keys.ESCAPE}.get(key, key))
        self.assertEqual(self.driver.execute_script("return window.pressed"), list(shown))
        self.get("seed").send_keys("1")  # is typed, and presses nothing
        self.assertEqual(len(self.driver.execute_script("return window.pressed.filter((id) => id !== 'seed')")), len(shown))

    def test_drops_that_pause(self):
        run = self.show((20, 30), 3)

        def rests():
            before = run.drops
            time.sleep(0.3)
            return run.drops == before

        self.press("endless")
        self.until(lambda: run.drops > 100)
        self.press("pause")
        self.until(rests)
        drops = run.drops
        self.assertEqual((self.text("drops"), self.get("stop").is_enabled()), (f"{drops:,}", True))
        self.press("pause")
        self.until(lambda: run.drops > drops)
        self.press("stop")

    def test_the_histogram(self):
        run = self.show((30, 30), 3)
        copy = sandpile.Drive(run.pile, run.seed)
        self.press("thousand")
        self.says("^1,000 grains dropped of 1,000$")
        self.at_once()
        self.click(3, 4)
        self.until(lambda: run.drops == 1001)
        self.says("^drop 1,000 at row 3, column 4")
        sizes = np.concatenate([copy.drop(1000)["size"], copy.drop_at(3 * 30 + 4)["size"]])
        counts = np.histogram(sizes, [0, *(1 << np.arange(20))])[0]
        rows = self.driver.execute_script("return Array.from(document.querySelectorAll('#counts tr'), (row) => Array.from(row.cells, (cell) => cell.textContent))")
        names = ["0", "1", *(f"{1 << k} to {(2 << k) - 1}" for k in range(1, 19))]
        self.assertEqual(rows, [[name, f"{count:,}"] for name, count in zip(names, counts)][: np.flatnonzero(counts)[-1] + 1])
        code = "const [counts, done] = arguments; import('./histogram.js').then(({ densities }) => done(densities(counts)));"
        counts = np.append(counts, [0, 1])
        points = self.driver.execute_async_script(code, counts.tolist())
        known = [(2 ** (bits - 0.5), count / 2 ** (bits - 1) / counts.sum()) for bits, count in enumerate(counts.tolist()) if bits and count]
        np.testing.assert_allclose([(point["size"], point["density"]) for point in points], known)
        ink = self.pixels("histogram")[..., 3] > 0
        self.assertGreater(ink.sum(), 1000)

    def test_what_is_saved(self):
        from matplotlib.image import imread

        run = self.show((20, 30), 3)
        self.press("thousand")
        self.says("^1,000 grains")
        table = sandpile.Drive(sandpile.random_recurrent((20, 30), 3), 3).drop(1000)
        self.assertEqual(self.text("rows"), "with 1,000 of 1,000 drops")
        picture, rows = (self.saves(name, file) for name, file in SAVED.items())
        self.assertTrue(same(np.load(rows), table))
        picture = (imread(picture)[..., :3] * 255).round().astype(int)
        self.assertEqual(picture.shape, (20 * 34, 30 * 34, 3))
        self.assertTrue(np.array_equal(picture, np.array(COLOURS)[run.pile].repeat(34, axis=0).repeat(34, axis=1)))


class Views(OfPage):
    def test_burning_outlines_what_stays(self):
        pile = np.full((12, 12), 3)
        pile[4:7, 5:9] = 0
        self.show(pile)
        self.press("see-burning")
        self.says("^12 sites never burn: they are the greatest forbidden set, in red with an outline. So it is not recurrent.$")
        red = (self.pixels()[..., :3] == RED).all(axis=-1)
        self.assertEqual(red.tolist(), sandpile.burn(pile).forbidden.tolist())
        height, width, _ = (lines := self.pixels("outlines")).shape
        drawn = (lines[..., 3] > 0).nonzero()
        edges = [drawn[0].min() * 12 / height, drawn[0].max() * 12 / height, drawn[1].min() * 12 / width, drawn[1].max() * 12 / width]
        np.testing.assert_allclose(edges, [4, 7, 5, 9], atol=0.2)
        steps = self.driver.execute_script("return window.notes")
        self.assertRegex(steps[0], "^burning: step 1 of [0-9]+$")

    def test_burning_step_by_step(self):
        run = self.show((12, 12), 3)
        times = sandpile.burn(run).time
        self.press("pause", "see-burning")
        self.says(f"^burning: step 1 of {times.max()}$")
        pixels = self.pixels()[..., :3]
        self.assertEqual((pixels == RED).all(axis=-1).tolist(), (times == 1).tolist())
        self.assertEqual((pixels == GREY).all(axis=-1).tolist(), (times > 1).tolist())

    def test_a_recurrent_pile_burns(self):
        run = self.show((12, 12), 3)
        self.press("see-burning", "finish")
        self.says(f"^All sites burn, in {sandpile.burn(run).time.max()} steps: the pile is recurrent.$")
        self.assertEqual((self.pixels("outlines")[..., 3] > 0).sum(), 0)

    def test_the_tree(self):
        for cylinder in (False, True):
            run = self.show((12, 9), 3, cylinder=cylinder)
            self.press("see-tree")
            self.until(lambda: self.pixels().shape[0] == 25)
            self.assertEqual(self.heights().tolist(), sandpile.Recurrent(run).tree()._shown().tolist())
        self.press("empty")
        self.says("^Started from the empty pile")
        self.shows_the_run()
        self.press("see-tree")
        self.says("no spanning tree, since it is not recurrent: 108 sites never burn", "error")
        self.shows_the_run()

    def test_odometer_and_last_avalanche(self):
        run = self.show((12, 9), 3)
        self.press("see-last")
        self.says("no grain has been dropped since this start", "error")
        self.at_once()
        self.press("thousand")
        self.says("^1,000 grains")
        last = sandpile.Drive(sandpile.random_recurrent((12, 9), 3), 3).drop(1000, odometers=True)[1][-1]
        for name, values in (("odometer", run.odometer), ("last", last)):
            self.press(f"see-{name}")
            self.says(f"^0 to {values.max():,} topplings", "legend")
            light = self.pixels()[..., :3].sum(axis=-1)
            order = np.argsort(values, axis=None)
            self.assertTrue((np.diff(light.ravel()[order]) >= 0).all())
        self.press("empty")  # of which there is no last avalanche
        self.says("^Started from the empty pile")
        self.assertEqual((self.get("see-heights").get_attribute("aria-pressed"), self.get("error").is_displayed()), ("true", False))
        self.shows_the_run()


class Files(OfPage):
    def test_a_file_that_is_no_pile_changes_nothing(self):
        run, folder = self.show((12, 9), 3), new_folder(self)
        for name, content, sentence in (
            ("picture.png", b"\x89PNG\r\n", "this file is no pile: byte 0 is no text"), ("poem.txt", b"hello\n", "'hello' is no height"),
            ("large.txt", " ".join("1" * 9000).encode(), "fault 1 Side"),
        ):
            (folder / name).write_bytes(content)
            self.get("file").send_keys(str(folder / name))
            self.says(re.escape(sentence), "error")
            self.assertTrue(self.get("error").is_displayed())
            self.assertIs(self.page.run, run)
            self.shows_the_run()
        self.press("one")
        self.until(lambda: run.drops == 1 and not self.get("error").is_displayed())

    def test_piles_of_the_reader(self):
        self.show((12, 9), 3)
        path, pile = new_folder(self) / "pile.npy", np.arange(20).reshape(4, 5)
        np.save(path, pile)
        self.get("seed").send_keys("17")
        self.get("file").send_keys(str(path))
        self.says("^Started from the reader's pile, 4 by 5, 190 grains, settled")
        self.assertEqual((self.page.run.pile.tolist(), self.page.run.seed), (sandpile.settle(pile).pile.tolist(), 17))
        self.shows_the_run()
        self.driver.execute_script(DROPPED, "3 1\n0 4 0\n")
        self.says("^Started from the reader's pile, 1 by 3, 4 grains")
        self.assertEqual(self.page.run.pile.tolist(), [[1, 0, 1]])

    def test_what_is_typed_wrong(self):
        run = self.show((12, 9), 3)
        self.get("seed").send_keys("-1")
        self.press("uniform")
        self.says("the seed is -1, but must be from 0", "error")
        self.get("seed").clear()
        for grains, sentence in (("many", "grains must be a whole number, not 'many'"), ("1e5", "grains must be"), ("9999999999999", "fault 3")):
            self.get("grains").clear()
            self.get("grains").send_keys(grains)
            self.press("heap")
            self.says(sentence, "error")
        self.assertIs(self.page.run, run)
        self.shows_the_run()


class OtherPages(OfPage):
    """Other pages, and other origins."""

    def test_without_the_token(self):
        self.show((5, 5))
        self.driver.get(self.page.address[:-5])
        self.assertIn("this is not the address of the page", self.driver.page_source)

    def test_another_origin(self):
        run = self.show((5, 5))
        server = http.server.ThreadingHTTPServer(("127.0.0.1", 0), Elsewhere)
        threading.Thread(target=server.serve_forever, kwargs={"poll_interval": 0.05}, daemon=True).start()
        self.addCleanup(server.server_close)
        self.addCleanup(server.shutdown)
        there = f"http://127.0.0.1:{server.server_port}/"
        self.driver.get(there)
        for name, how in (("drop", {"method": "POST"}), ("drop", {"method": "POST", "mode": "no-cors"}), ("state", {}), ("state", {"mode": "no-cors"})):
            said = self.driver.execute_async_script(FETCHED, f"{self.page.address}{name}", how)
            self.assertIn(said, ("TypeError", "opaque"))
        self.assertEqual(run.drops, 0)
        self.driver.get(there + self.page.address)  # in a frame, as a notebook shows it
        self.driver.switch_to.frame(0)
        self.until(lambda: self.text("drops") == "0")
        self.press("thousand")
        self.until(lambda: run.drops == 1000)
        self.driver.switch_to.default_content()

    def may_log(self, message):
        return super().may_log(message) or "CORS" in message or "ERR_BLOCKED" in message or "net::ERR_FAILED" in message

    def test_two_pages_and_the_owner(self):
        run = self.show((20, 20), 3)
        first = self.driver.current_window_handle
        self.driver.switch_to.new_window("window")
        self.driver.get(self.page.address)
        self.until(lambda: self.text("drops") == "0")
        self.at_once()
        self.press("thousand")
        self.says("^1,000 grains")
        self.shows_the_run()
        self.driver.close()
        self.driver.switch_to.window(first)
        self.at_once()
        self.click(3, 3)  # on a picture that may be old
        self.until(lambda: self.text("drops") == "1,001")
        self.shows_the_run()
        run.drop(1000)
        self.until(lambda: self.text("drops") == "2,001")
        self.says("^The run has changed elsewhere.$")
        self.shows_the_run()

    def test_a_click_on_an_old_picture(self):
        run = self.show(np.full((12, 12), 3), 3)
        self.driver.execute_script("Object.defineProperty(document, 'hidden', { get: () => true })")  # so it does not look again
        time.sleep(0.2)
        run.drop(100)
        self.click(6, 6)
        self.says("^drop 100 at row 6, column 6")
        self.assertFalse(self.get("error").is_displayed())
        self.shows_the_run()
        self.click(6, 6)
        self.says("^(drop 101|wave 1)")
        self.press("finish")
        self.says("^drop 101 at row 6, column 6")
        self.shows_the_run()
        self.assertFalse(self.get("error").is_displayed())

    def test_a_stopped_server(self):
        self.show((5, 5))
        self.page.close()
        self.press("one")
        self.says("^The server does not answer: it has been stopped. Start it again with", "error")
        self.may_log = lambda message: "ERR_CONNECTION_REFUSED" in message


class Windows(OfPage):
    def test_wide_and_narrow(self):
        for start in ((64, 64), (512, 512), (3, 200), (200, 3), (1, 1)):
            with contextlib.suppress(sandpile.Fault):
                self.show(start, 3)
                for size in (WIDE, NARROW):
                    self.driver.set_window_size(*size)
                    self.until(lambda: self.driver.execute_script("return document.documentElement.scrollWidth <= window.innerWidth"))
                    stage = self.get("stage").rect
                    self.assertGreater(min(stage["width"], stage["height"]), 11)
                    self.assertLess(stage["height"], 0.85 * size[1] + 24)
                    row, column = start[0] // 2, start[1] - 1
                    self.click(row, column)
                    drops = 1 if size == WIDE else 2
                    self.until(lambda: self.page.run.drops == drops)
                    found = divmod(int(self.page.run.table["site"][0]), start[1])
                    apart = 0 if max(start) < 256 else 1  # where a site has hardly a pixel
                    self.assertLessEqual(max(abs(found[0] - row), abs(found[1] - column)), apart)
