"""The page's server: what it answers, what it refuses, and that the run is a real one."""

import io
import itertools
import json
import os
import re
import signal
import socket
import subprocess
import sys
import threading
import time
import types
import unittest
from unittest import mock

import numpy as np
import sandpile
from play_tools import SECONDS, asked, changed, opened, place_of, read, refused, unpacked
from sandpile import playing
from tools import TOP, needs_module, new_folder, same

os.environ["PYDEVD_DISABLE_FILE_VALIDATION"] = "1"  # else ipykernel warns that Python's own modules cannot be debugged
MODULE = {**os.environ, "PYTHONPATH": os.pathsep.join(sys.path), "PYTHONUNBUFFERED": "1"}


def copy_of(run):
    """A run that makes the same drops, from the same start."""
    return sandpile.Drive(run.pile, run.seed, run.stream, run.cylinder)


class Asked(unittest.TestCase):
    """What is not refused."""

    def setUp(self):
        self.page = opened(self, (12, 9), 7, cylinder=True)
        self.run = self.page.run

    def test_the_state(self):
        told = read(self.page, "state")
        self.assertEqual((told["height"], told["width"], told["cylinder"], told["drops"]), (12, 9, True, 0))
        self.assertEqual((told["mean"], told["lost"], told["seed"]), (self.run.pile.mean(), 0, "7"))
        self.assertEqual(told["heights"].tobytes(), self.run.pile.astype(np.uint8).tobytes())
        self.assertEqual(self.run.pile.tolist(), sandpile.random_recurrent((12, 9), 7, cylinder=True).pile.tolist())
        self.assertNotIn("heights", read(self.page, f"state?known={told['version']}"))
        self.run.drop(1)  # by whoever has the run
        self.assertIn("heights", read(self.page, f"state?known={told['version']}"))

    def test_a_drop_is_that_of_a_copy(self):
        copy = copy_of(self.run)
        for words, site in (("", {}), ("?row=5&column=8", {"row": 5, "column": 8}), ("?row=0&column=0", {"site": 0}), ("", {})):
            before, told = read(self.page, "state")["version"], changed(self.page, f"drop{words}")
            avalanche, topplings = copy.avalanche(**site)
            self.assertEqual(told["avalanche"], {name: int(avalanche[name]) for name in avalanche.dtype.names})
            self.assertEqual(told["topplings"].tolist(), topplings.ravel().tolist())
            self.assertEqual(told["heights"].tolist(), copy.pile.ravel().tolist())
            self.assertEqual(told["from"], before)
            self.assertEqual(read(self.page, "last")["last"].tolist(), topplings.ravel().tolist())
        self.assertTrue(np.array_equal(self.run.pile, copy.pile))

    def test_many_drops_are_those_of_a_copy(self):
        copy, left = copy_of(self.run), 3000
        while left:
            told = changed(self.page, f"drops?n={left}")
            self.assertTrue(1 <= told["made"] <= left)
            left -= told["made"]
        table = copy.drop(3000)
        sizes = [0, *(1 << np.arange(48))]
        self.assertEqual(told["counts"], np.histogram(table["size"], sizes)[0].tolist()[: len(told["counts"])])
        self.assertEqual(sum(told["counts"]), 3000)
        self.assertEqual((told["drops"], told["lost"], told["rows"]), (3000, copy.lost, 3000))
        self.assertEqual(told["heights"].tolist(), copy.pile.ravel().tolist())
        self.assertTrue(same(np.load(io.BytesIO(asked(self.page, "table.npy")[2])), table))

    def test_endless_drops_end_soon(self):
        begun = time.monotonic()
        told = changed(self.page, "drops?n=1000000000000")
        self.assertLess(time.monotonic() - begun, SECONDS / 4)
        self.assertEqual(told["made"], self.run.drops)

    def test_the_table_keeps_the_last_drops(self):
        copy = copy_of(self.run)
        with mock.patch("sandpile._session._MOST_ROWS", 100):
            for _ in range(40):
                changed(self.page, "drops?n=9")
        rows, table = read(self.page, "state")["rows"], copy.drop(360)
        self.assertTrue(100 <= rows < 110, rows)
        self.assertTrue(same(np.load(io.BytesIO(asked(self.page, "table.npy")[2])), table[-rows:]))

    def test_the_views(self):
        changed(self.page, "drops?n=50")
        run = self.run
        self.assertEqual(read(self.page, "odometer")["odometer"].tolist(), run.odometer.ravel().tolist())
        burning, burned = read(self.page, "burning"), sandpile.burn(run)
        self.assertEqual((burning["time"].tolist(), burning["recurrent"]), (burned.time.ravel().tolist(), True))
        tree = sandpile.Recurrent(run).tree()
        self.assertEqual(read(self.page, "tree")["directions"].tolist(), tree.directions.ravel().tolist())
        for site in (0, 50, 107):
            row, column = divmod(site, 9)
            told = read(self.page, f"site?row={row}&column={column}")
            self.assertEqual((told["height"], told["odometer"]), (run.pile[row, column], run.odometer[row, column]))

    def test_what_does_not_burn(self):
        pile = np.full((4, 5), 3)
        pile[1:3, 1:3] = 0
        page = opened(self, pile)
        told = read(page, "burning")
        self.assertEqual(told["recurrent"], False)
        self.assertEqual(np.flatnonzero(told["time"] == 0).tolist(), [6, 7, 11, 12])
        status, sentence = refused(page, "tree", "GET")
        self.assertEqual(status, 400)
        self.assertIn("not recurrent: 4 sites never burn", sentence)

    def test_the_starts_and_what_they_are_in_python(self):
        for words in ("uniform", "uniform&seed=18446744073709551615", "empty&seed=3", "threes&seed=3", "identity&seed=3", "heap&grains=5000&seed=4"):
            with self.subTest(words):
                told = changed(self.page, f"start?kind={words}")
                *before, last = told["code"].split("; ")
                names = {"numpy": np, "sandpile": sandpile}
                exec("; ".join(before), names)
                again = eval(last, names)
                self.assertEqual(told["heights"].tolist(), again.pile.ravel().tolist())
                self.assertEqual((told["drops"], told["counts"], told["rows"]), (0, [0] * len(told["counts"]), 0))
                self.assertTrue(same(self.page.run.drop(50), again.drop(50)))
                self.assertEqual((self.page.run.cylinder, told["lost"]), (True, sandpile.settle(again).lost or told["lost"]))
        self.assertIn("4", told["seed"])
        self.assertIn("5,000 grains in row 6, column 4", told["start"])

    def test_a_file_of_the_reader(self):
        pile = np.random.default_rng(1).integers(0, 9, (5, 7))
        rows = "\n".join(" ".join(map(str, row)) for row in pile.tolist())

        def npy(array):
            file = io.BytesIO()
            np.save(file, array)
            return file.getvalue()

        for content, cylinder in (
            (npy(pile), True), (npy(pile.astype(np.uint8)), True), (npy(np.asfortranarray(pile)), True), (rows.encode(), True),
            (rows.replace(" ", ",").encode() + b"\n\n", True), (f"7 5\n{rows}\n".encode(), False), (f"7 5 c\n{rows}".encode(), True),
            (f" 7\n5 {rows}".replace("\n", "\r\n").encode(), False),
        ):
            with self.subTest(content[:20]):
                told = changed(self.page, "file?seed=5", content)
                settled = sandpile.settle(pile, cylinder)
                self.assertEqual((told["height"], told["width"], told["cylinder"]), (5, 7, cylinder))
                self.assertEqual((told["heights"].tolist(), told["lost"]), (settled.pile.ravel().tolist(), settled.lost))
                self.assertEqual((self.page.run.shape, self.page.run.seed), ((5, 7), 5))
                changed(self.page, "start?kind=empty")

    def test_the_files_of_the_page(self):
        names = ("", *(path.name for path in (TOP / "python" / "sandpile" / "page").iterdir() if path.name != "index.html"))
        self.assertGreater(len(names), 5)
        for name in names:
            status, headers, content = asked(self.page, name)
            self.assertEqual(status, 200, name)
            self.assertGreater(len(content), 500)
            self.assertIn("default-src 'none'", headers["Content-Security-Policy"])
            self.assertEqual((headers["Cache-Control"], headers["X-Content-Type-Options"]), ("no-store", "nosniff"))
            self.assertNotRegex(content.decode(), r"https?://(?!www\.w3\.org/)")
        self.assertEqual(asked(self.page, "icon.png")[2][:4], b"\x89PNG")


class Refused(unittest.TestCase):
    """What is refused, and that nothing has changed then."""

    def setUp(self):
        self.page = opened(self, (6, 5), 7)
        self.run, self.before = self.page.run, self.page.run.pile

    def tearDown(self):
        self.assertIs(self.page.run, self.run)
        self.assertEqual((self.run.drops, self.run.pile.tolist()), (0, self.before.tolist()))

    def test_an_address_without_the_token(self):
        _, _, top = place_of(self.page)
        for path in ("/", "/state", "//state", "/play.js", top[:-2] + "/", top.upper(), f"/x{top}", "*", "", "/é/".encode().decode("latin-1")):
            for method, name in (("GET", ""), ("GET", "state"), ("POST", "drop")):
                with self.subTest(path + name):
                    status, _, content = asked(self.page, "", method, path=path + name or "/")
                    self.assertIn(status, (403, 404))
                    self.assertNotIn(top.strip("/").encode(), content)
                    self.assertLess(len(content), 200)

    def test_another_host(self):
        _, port, _ = place_of(self.page)
        for host in ("example.org", f"example.org:{port}", "127.0.0.1", f"127.0.0.1:{port + 1}", f"127.0.0.1:{port}.example.org", "", None):
            for method, name in (("GET", ""), ("GET", "state"), ("POST", "drop")):
                status, sentence = refused(self.page, name, method, Host=host)
                self.assertEqual(status, 421, host)
                self.assertIn(f"this server is 127.0.0.1:{port}", sentence)
        self.assertEqual(asked(self.page, "state", Host=f"localhost:{port}")[0], 200)

    def test_another_origin(self):
        _, port, _ = place_of(self.page)
        for origin in ("http://example.org", "null", f"https://127.0.0.1:{port}", f"http://127.0.0.1:{port + 1}", f"http://localhost:{port}", ""):
            for method, name in (("GET", "state"), ("POST", "drop")):
                status, sentence = refused(self.page, name, method, Origin=origin)
                self.assertEqual((status, sentence), (403, "a page of another origin may not use this one"))
        for site in ("cross-site", "same-site"):
            for method, name in (("GET", "state"), ("GET", "play.js"), ("POST", "drop")):
                self.assertEqual(refused(self.page, name, method, Sec_Fetch_Site=site)[0], 403)
            self.assertEqual(asked(self.page, "", Sec_Fetch_Site=site)[0], 200)  # a notebook shows it in a frame
        self.assertEqual(asked(self.page, "state", Origin=f"http://127.0.0.1:{port}", Sec_Fetch_Site="same-origin")[0], 200)

    def test_what_names_nothing(self):
        for name in ("../__init__.py", "..%2f__init__.py", "page/play.js", "index.html", "play.js/", "/play.js", "py.typed", "drop/", "é".encode().decode("latin-1")):
            self.assertEqual(asked(self.page, name)[0], 404, name)
        for method, name, status in (("GET", "drop", 405), ("POST", "state", 405), ("POST", "", 405), ("PUT", "drop", 501), ("HEAD", "", 501)):
            self.assertEqual(asked(self.page, name, method)[0], status, name)

    def test_what_is_too_long(self):
        self.assertEqual(refused(self.page, f"state?known={'1' * 400}", "GET")[0], 414)
        self.assertEqual(refused(self.page, "drop", content=b" " * 1001)[0], 413)
        status, sentence = refused(self.page, "file", Content_Length=str(2**27 + 1))
        self.assertEqual((status, sentence), (413, "this request sends 134,217,729 bytes, but at most 134,217,728 are read"))
        for length in ("-1", "1e3", "", "٣".encode().decode("latin-1")):
            self.assertEqual(refused(self.page, "drop", Content_Length=length)[0], 411)
        self.assertEqual(refused(self.page, "drop", Transfer_Encoding="chunked")[0], 411)
        self.assertEqual(asked(self.page, "x" * 70000)[0], 414)

    def test_a_request_that_breaks_off(self):
        host, port, top = place_of(self.page)
        with socket.create_connection((host, port), SECONDS) as connection:
            connection.sendall(f"POST {top}file HTTP/1.1\r\nHost: {host}:{port}\r\nContent-Length: 9\r\n\r\n3 3".encode())
            connection.shutdown(socket.SHUT_WR)
            answer = b"".join(iter(lambda: connection.recv(4096), b""))
        self.assertIn(b"the request ended after 3 of 9 bytes", answer)

    def test_who_says_nothing_is_let_go(self):
        host, port, _ = place_of(self.page)
        with mock.patch("sandpile._server._Handler.timeout", 0.1), socket.create_connection((host, port), SECONDS) as connection:
            self.assertEqual(connection.recv(100), b"")

    def test_what_cannot_be_done(self):
        for name, sentence in (
            ("drop?row=6&column=0", "the drop is at row 6, column 0, but the grid has only rows 0 to 5 and columns 0 to 4"),
            ("drop?row=-1&column=0", "row -1"), ("drop?row=1", "column must be a whole number, not ''"), ("drop?row=x&column=1", "row must be"),
            ("drops?n=0", "n is 0, but must be from 1"), ("drops?n=-5", "n is -5"), ("drops?n=many", "n must be a whole number, not 'many'"),
            ("drops", "n must be"), ("start?kind=full", "a start is one of uniform, empty, threes, identity, heap, not 'full'"),
            ("start?kind=empty&seed=-1", "the seed is -1, but must be from 0"), ("start?kind=empty&seed=18446744073709551616", "the seed is"),
            ("start?kind=uniform&seed=abc", "the seed must be a whole number"), ("start?kind=heap&grains=-1", "grains is -1"),
            ("start?kind=heap&grains=1099511627776", "more than 1,099,511,627,775 grains"), ("start?kind=heap", "grains must be"),
            (f"start?kind=heap&grains={'9' * 100}", "grains is 999"),
        ):
            with self.subTest(name):
                status, said = refused(self.page, name)
                self.assertEqual(status, 400)
                self.assertIn(sentence, said)
        status, said = refused(self.page, "last", "GET")
        self.assertIn("no grain has been dropped since this start", said)

    def test_a_file_that_is_no_pile(self):
        def npy(array, **how):
            file = io.BytesIO()
            np.save(file, array, **how)
            return file.getvalue()

        whole = npy(np.full((3, 3), 3))
        for content, sentence in (
            (b"", "this file is empty"), (b"\n \n", "this file is empty"), (b"hello\n", "'hello' is no height"), (b"1 2\n3\n", "line 2 has 1 numbers"),
            (b"1.5 2\n3 4\n", "'1.5' is no height"), (b"1 -2\n3 4\n", "row 0, column 1 is -2"), (b"3 2 c\n1 2 3\n", "this text has 3 heights, but"),
            (b"\x89PNG\r\n", "byte 0 is no text"), (b"PK\x03\x04", "this is an archive"), (b"2 1 c\n1 1", "fault 24"),
            (" ".join("1" * 9000).encode(), "fault 1 Side"), (b"1099511627775 1\n", "fault 3"), (b"9" * 40, "is no height"),
            (npy(np.full((3, 3), 1.5)), "integers"), (npy(np.zeros((2, 2, 2), int)), "has shape (2, 2, 2)"), (npy(np.zeros((0, 3), int)), "fault 1"),
            (npy(np.array([[{}]]), allow_pickle=True), "cannot be read"), (whole[:-1], "cannot be read"), (whole[:-80], "cannot be read"), (whole[:20], "cannot be read"),
            (whole.replace(b"(3, 3)", b"(-3,3)"), "fault 1"), (whole.replace(b"(3, 3)", b"(3,9**9)"), "cannot be read"),
            (whole.replace(b"(3, 3), }   ", b"(8000, 8000)}"), "needs 512,000,000"), (npy(np.array([["3"]])), "integers"),
        ):
            with self.subTest(content[:20]):
                status, said = refused(self.page, "file", content=content)
                self.assertEqual(status, 400)
                self.assertIn(sentence, said)

    def test_while_its_owner_drops_grains(self):
        with self.run._handle.dropping():
            for name in ("drop", "drops?n=5"):
                status, said = refused(self.page, name)
                self.assertEqual(status, 400)
                self.assertIn("another call is dropping grains on this Drive", said)


class Several(unittest.TestCase):
    def test_two_pages_on_one_run(self):
        page, start, failed = opened(self, (20, 20), 7), None, []
        start, drops = page.run.pile, 40

        def clicks(k):
            try:
                for at in range(drops):
                    changed(page, f"drop?row={at % 20}&column={k}" if at % 2 else "drops?n=10")
                    told = read(page, "state")
                    if told["heights"].max() > 3:
                        failed.append(told)
            except Exception as error:
                failed.append(error)

        threads = [threading.Thread(target=clicks, args=(k,)) for k in range(4)]
        for thread in threads:
            thread.start()
        for thread in threads:
            thread.join(SECONDS)
        self.assertEqual(failed, [])
        table = np.load(io.BytesIO(asked(page, "table.npy")[2]))
        self.assertEqual(table["number"].tolist(), list(range(4 * (drops // 2) * 11)))
        given = start + np.bincount(table["site"], minlength=400).reshape(20, 20)
        self.assertEqual(page.run.pile.tolist(), sandpile.settle(given).pile.tolist())

    def test_two_servers_of_one_run(self):
        run, made, said = sandpile.Drive(np.full((30, 30), 3), 7), [], set()
        pages = [opened(self, run) for _ in range(2)]

        def clicks(page):
            for _ in range(30):
                status, _, content = asked(page, "drops?n=100", "POST")
                made.append(unpacked(content)["made"]) if status == 200 else said.add(json.loads(content)["error"])

        threads = [threading.Thread(target=clicks, args=(page,)) for page in pages]
        for thread in threads:
            thread.start()
        for thread in threads:
            thread.join(SECONDS)
        self.assertLessEqual(len(said), 1)
        self.assertLessEqual(said, {"another call is dropping grains on this Drive: use it in one thread at a time"})
        self.assertTrue(sum(made) <= run.drops <= 6000)
        copy = sandpile.Drive(np.full((30, 30), 3), 7)
        copy.drop(run.drops)
        self.assertEqual(run.pile.tolist(), copy.pile.tolist())

    def test_a_start_between_two_requests(self):
        page = opened(self, (5, 5), 7)
        version = read(page, "state")["version"]
        changed(page, "start?kind=empty")
        told = read(page, f"state?known={version}")
        self.assertEqual((told["drops"], told["heights"].tolist()), (0, [0] * 25))

    def test_large_grids(self):
        try:
            page = opened(self, (1024, 1024), 7)
        except sandpile.Fault:
            self.skipTest("the library has no such grids")
        status, _, content = asked(page, "state")
        self.assertLess(len(content), 1024**2 + 2000)
        told, run = changed(page, "drop?row=512&column=512"), page.run
        self.assertEqual(told["heights"].tobytes(), run.pile.astype(np.uint8).tobytes())
        self.assertEqual(told["topplings"].sum(dtype=int), told["avalanche"]["size"])
        begun = time.monotonic()
        changed(page, "drops?n=100000")
        self.assertLess(time.monotonic() - begun, SECONDS / 2)


class Opened(unittest.TestCase):
    def test_only_on_this_machine(self):
        page = opened(self, (3, 3))
        _, port, _ = place_of(page)
        self.assertEqual(page._server.socket.getsockname(), ("127.0.0.1", port))
        with self.assertRaises(OSError):
            socket.create_connection(("127.0.0.2", port), SECONDS)

    def test_each_page_has_its_token(self):
        pages = [opened(self, (3, 3)) for _ in range(3)]
        tokens = {place_of(page)[2] for page in pages}
        self.assertEqual((len(tokens), {len(token) for token in tokens}), (3, {34}))
        self.assertEqual(asked(pages[0], "", path=f"{place_of(pages[1])[2]}state")[0], 403)

    def test_what_a_page_takes(self):
        pile = np.full((4, 5), 6)
        for page, run in (
            (opened(self, pile, seed=3, stream=2, cylinder=True), sandpile.Drive(pile, 3, 2, True)),
            (opened(self, [[3, 3]], 3), sandpile.Drive([[3, 3]], 3)),
            (opened(self, sandpile.identity((3, 4), cylinder=True), 3), sandpile.Drive(sandpile.identity((3, 4), cylinder=True), 3)),
            (opened(self, seed=3, stream=4), sandpile.Drive(sandpile.random_recurrent((64, 64), 3), 3, 4)),
            (opened(self, (3, 4), np.random.SeedSequence(5)), None),
        ):
            run = run or sandpile.Drive(sandpile.random_recurrent((3, 4), page.run.seed), np.random.SeedSequence(5))
            self.assertEqual((page.run.seed, page.run.stream, page.run.cylinder), (run.seed, run.stream, run.cylinder))
            self.assertEqual(page.run.pile.tolist(), run.pile.tolist())
            self.assertTrue(same(page.run.drop(100), run.drop(100)))

    def test_a_run_is_shown_itself(self):
        run = sandpile.Drive(np.full((4, 5), 3), 3)
        page = opened(self, run)
        self.assertIs(page.run, run)
        changed(page, "drop?row=1&column=1")
        self.assertEqual(run.drops, 1)
        run.drop(5)
        self.assertEqual(read(page, "state")["drops"], 6)
        for given in ({"seed": 3}, {"stream": 1}, {"cylinder": False}):
            self.assertRaisesRegex(TypeError, "a run has its own seed, stream and edge", opened, self, run, **given)

    def test_what_is_refused(self):
        before = threading.active_count()
        for start, kind, sentence in (
            (((0, 5),), ValueError, "fault 1 Side"), (((5, 2), 1, 0, True), ValueError, "fault 24"), (((5, "a"),), TypeError, "two integers"),
            (((5, 5, 5),), ValueError, "two integers"), (([[1.5]],), TypeError, "integers"), (([[-1]],), ValueError, "row 0, column 0 is -1"),
            (([3, 3],), ValueError, "shape"), (((5, 5), -1), ValueError, "seed is -1"), (((5, 5), "x"), TypeError, "seed"),
            (((5, 5), 1, -1), ValueError, "stream is -1"), (((5, 5), 1, 0, "c"), TypeError, "cylinder must be True or False"),
        ):
            with self.assertRaisesRegex(kind, sentence):
                opened(self, *start)
        for port, kind, sentence in (
            (-1, ValueError, "port is -1, but must be from 0 to 65535"), (65536, ValueError, "port is 65536"), ("80", TypeError, "port must be an integer"),
            (8000.5, TypeError, "port must be"), (None, TypeError, "port must be"),
        ):
            with self.assertRaisesRegex(kind, sentence):
                opened(self, (3, 3), port=port)
        self.assertEqual(threading.active_count(), before)

    def test_a_port_in_use(self):
        taken = opened(self, (3, 3))
        _, port, _ = place_of(taken)
        with mock.patch("sandpile._server._TRIED", 200), mock.patch("builtins.print") as said:
            page = opened(self, (3, 3), port=port, browser=True)
        self.assertGreater(place_of(page)[1], port)
        self.assertEqual(said.call_args_list[0].args, (f"port {port} is in use, so the page is at port {place_of(page)[1]}",))
        with mock.patch("sandpile._server._TRIED", 1), self.assertRaisesRegex(OSError, f"the ports from {port} to {port} are all in use: choose"):
            opened(self, (3, 3), port=port)

    @unittest.skipIf(os.geteuid() == 0, "root may use each port")
    def test_a_port_of_root(self):
        self.assertRaisesRegex(OSError, "port 1 cannot be used .*: choose another", opened, self, (3, 3), port=1)

    def test_it_closes(self):
        with opened(self, (3, 3), 7) as page:
            self.assertTrue(page.is_open)
            self.assertRegex(repr(page), r"^<Page: http://127.0.0.1:\d+/[-\w]{32}/, <Drive: 3 by 3, seed 7, stream 0, 0 drops>>$")
            host, port, _ = place_of(page)
        self.assertFalse(page.is_open)
        self.assertRaises(ConnectionRefusedError, socket.create_connection, (host, port), SECONDS)
        page.close()
        page.wait()
        self.assertEqual(repr(page), "<Page: closed, <Drive: 3 by 3, seed 7, stream 0, 0 drops>>")
        self.assertEqual(len(page.run.drop(5)), 5)

    def test_it_is_closed_by_another_thread(self):
        closing = []

        def close(page):
            closing.append(page)
            threading.Timer(0.2, page.close).start()
            return "closing"

        with mock.patch.object(sandpile.playing, "_tell", lambda page, *_: close(page)):
            begun = time.monotonic()
            page = opened(self, (3, 3), wait=True)
        self.assertEqual((closing, page.is_open), ([page], False))
        self.assertLess(time.monotonic() - begun, SECONDS)

    def test_the_browser(self):
        for env, opens in (({}, False), ({"DISPLAY": ":0"}, True), ({"BROWSER": "x"}, True)):
            with mock.patch.dict(os.environ, env), mock.patch("webbrowser.open", return_value=True) as opening, mock.patch("builtins.print") as said:
                if not env:
                    for name in ("DISPLAY", "WAYLAND_DISPLAY", "BROWSER"):
                        os.environ.pop(name, None)
                page = opened(self, (3, 3), browser=True)
            self.assertEqual(opening.call_args_list, [mock.call(page.address)] * opens)
            lines = [call.args[0] for call in said.call_args_list]
            self.assertEqual(lines[0], f"the page: {page.address}")
            self.assertEqual([line.partition(":")[0] for line in lines[1:]], [] if opens else ["no browser was found"])


class InNotebooks(unittest.TestCase):
    def notebook(self, **env):
        shell = types.SimpleNamespace(get_ipython=lambda: types.SimpleNamespace(kernel=object()))
        for patch in (mock.patch.dict(sys.modules, IPython=shell), mock.patch.dict(os.environ, env)):
            patch.start()
            self.addCleanup(patch.stop)
        for name in sandpile.playing._HUBS:
            if name not in env:
                os.environ.pop(name, None)

    def test_it_returns_at_once_and_shows_itself(self):
        self.notebook(DISPLAY=":0")
        with mock.patch("webbrowser.open") as opening, mock.patch("builtins.print") as said:
            page = sandpile.play((3, 3), port=0)
        self.addCleanup(page.close)
        self.assertEqual((opening.call_count, said.call_count), (0, 0))
        shown = page._repr_html_()
        self.assertIn(f"<iframe src='{page.address}'", shown)
        self.assertIn("another machine", shown)
        page.close()
        self.assertNotIn("iframe", page._repr_html_())
        self.assertIn("This page is closed", page._repr_html_())

    def test_on_a_hub_it_says_why_there_is_no_page(self):
        self.notebook(JUPYTERHUB_API_TOKEN="secret")
        page = sandpile.play((3, 3), port=0)
        self.addCleanup(page.close)
        shown = page._repr_html_()
        self.assertNotIn("iframe", shown)
        self.assertNotIn("secret", shown)
        self.assertRegex(shown, f"JUPYTERHUB_API_TOKEN says .*another machine.*ssh -L {place_of(page)[1]}:")


@needs_module("jupyter_client", "ipykernel")
class InAKernel(unittest.TestCase):
    def setUp(self):
        from jupyter_client import KernelManager

        folder, manager = new_folder(self), KernelManager()
        manager.kernel_spec.argv[0] = sys.executable
        without = {name: value for name, value in MODULE.items() if name not in sandpile.playing._HUBS}
        manager.start_kernel(cwd=str(folder), env={**without, "HOME": str(folder)})
        self.addCleanup(manager.shutdown_kernel, now=True)
        self.client = manager.client()
        self.client.start_channels()
        self.addCleanup(self.client.stop_channels)
        self.client.wait_for_ready(timeout=60)

    def shown(self, code):
        """What a cell shows, as text and as a page."""
        found = []
        self.client.execute_interactive(code, timeout=60, output_hook=lambda message: found.append(message["content"]))
        told = [(content.get("text", ""), content.get("data", {}).get("text/html", "")) for content in found]
        return [one for one in told if any(one)]

    def test_a_cell_shows_the_page_and_ends(self):
        (said, html), = self.shown("import sandpile\npage = sandpile.play((3, 4), 7, port=0)\npage")
        page = types.SimpleNamespace(address=re.search("<iframe src='([^']*)'", html)[1])
        self.assertEqual(said, "")
        self.assertEqual(changed(page, "drop?row=1&column=2")["avalanche"]["site"], 6)
        (said, _), = self.shown("page.run.drop(2)\nprint(page.run.drops)\npage.close()")
        self.assertEqual(said, "3\n")
        self.assertRaises(OSError, asked, page, "state")


class Waiting(unittest.TestCase):
    def test_ctrl_c_at_any_moment(self):
        for number in itertools.count():
            page, steps, ended = sandpile.play((2, 2), 7, port=0, browser=False, wait=False), itertools.count(), []

            def trace(frame, event, _):
                if ended or frame.f_code.co_filename not in (playing.__file__, threading.__file__):
                    return None
                if frame.f_code.co_name != "wait" and next(steps) == number:
                    ended.append("stopped")
                    raise KeyboardInterrupt
                return trace

            def sleep(_):
                ended.append("asleep")
                raise KeyboardInterrupt

            before = sys.gettrace()
            with mock.patch.object(playing.time, "sleep", sleep):
                sys.settrace(trace)
                try:
                    page.wait()
                finally:
                    sys.settrace(before)
            self.assertFalse(page.is_open)
            if ended == ["asleep"]:
                break


class ByName(unittest.TestCase):
    """``python -m sandpile``."""

    def words(self, *words):
        return [sys.executable, "-m", "sandpile", *words]

    def test_until_ctrl_c(self):
        words = self.words("--shape", "5", "7", "--cylinder", "--seed", "7", "--port", "0", "--no-browser")
        pipes = {"stdout": subprocess.PIPE, "stderr": subprocess.PIPE, "text": True}

        def heed():
            signal.signal(signal.SIGINT, signal.SIG_DFL)  # what a shell starts by `&` ignores it

        with subprocess.Popen(words, **pipes, env=MODULE, cwd=new_folder(self), preexec_fn=heed) as process:
            watch = threading.Timer(SECONDS, process.kill)  # so that nothing below waits for ever
            watch.start()
            try:
                address = re.fullmatch(r"the page: (http\S+)\n", process.stdout.readline())[1]
                self.assertEqual(process.stdout.readline(), "Ctrl-C ends it\n")
                page = types.SimpleNamespace(address=address)
                told = read(page, "state")
                process.send_signal(signal.SIGINT)
                said = process.communicate(timeout=SECONDS)
            finally:
                process.kill()
                watch.cancel()
        self.assertEqual((process.returncode, said), (0, ("", "")))
        self.assertEqual((told["height"], told["width"], told["cylinder"], told["seed"], told["stream"]), (5, 7, True, "7", "0"))
        self.assertEqual(told["heights"].tolist(), sandpile.random_recurrent((5, 7), 7, cylinder=True).pile.ravel().tolist())

    def test_what_is_refused_in_one_line(self):
        for words, status, sentence in (
            (["--shape", "0", "5"], 1, "fault 1 Side"), (["--shape", "5", "2", "--cylinder"], 1, "fault 24"), (["--port", "70000"], 1, "port is 70000"),
            (["--seed", "-1"], 1, "seed is -1"), (["--shape", "5"], 2, "expected 2 arguments"), (["--port", "x"], 2, "invalid int value"), (["x"], 2, "unrecognized"),
        ):
            with self.subTest(words), mock.patch("sys.stderr", io.StringIO()) as said, self.assertRaises(SystemExit) as ended:
                from sandpile.__main__ import main

                main(words)
            self.assertEqual(ended.exception.code, status)
            self.assertIn(sentence, said.getvalue().splitlines()[-1])

    def test_its_help(self):
        ended = subprocess.run(self.words("--help"), capture_output=True, text=True, env=MODULE, timeout=SECONDS)
        self.assertEqual((ended.returncode, ended.stderr), (0, ""))
        self.assertIn("usage: python -m sandpile [-h] [--shape ROWS COLUMNS] [--cylinder] [--seed N] [--port N]", " ".join(ended.stdout.split()))


class Colours(unittest.TestCase):
    """That readers who see no red, no green or no blue tell the colours apart (Machado, Oliveira and Fernandes 2009)."""

    BLIND = {
        "none": np.eye(3),
        "red": [[0.152286, 1.052583, -0.204868], [0.114503, 0.786281, 0.099216], [-0.003882, -0.048116, 1.051998]],
        "green": [[0.367322, 0.860646, -0.227968], [0.280085, 0.672501, 0.047413], [-0.011820, 0.042940, 0.968881]],
        "blue": [[1.255528, -0.076749, -0.178779], [-0.078411, 0.930809, 0.147602], [0.004733, 0.691367, 0.303900]],
    }

    def lab(self, colour, blindness):
        """A colour as it is seen, as lightness and two differences (CIE 1976)."""
        part = np.frombuffer(bytes.fromhex(colour[1:]), np.uint8) / 255
        linear = np.where(part > 0.04045, ((part + 0.055) / 1.055) ** 2.4, part / 12.92)
        seen = np.clip(np.array(self.BLIND[blindness]) @ linear, 0, 1)
        xyz = np.array([[0.4124, 0.3576, 0.1805], [0.2126, 0.7152, 0.0722], [0.0193, 0.1192, 0.9505]]) @ seen / [0.9505, 1, 1.089]
        x, y, z = np.where(xyz > 0.008856, np.cbrt(xyz), 7.787 * xyz + 16 / 116)
        return np.array([116 * y - 16, 500 * (x - y), 200 * (y - z)])

    def test_they_are_apart(self):
        told = read(opened(self, (3, 3)), "state")
        self.assertEqual((told["colours"], told["red"]), (list(sandpile._png.COLOURS), sandpile._png.RED))
        unburnt = re.search('GREY = "(#.*)"', (TOP / "python/sandpile/page/picture.js").read_text())[1]
        for blindness in self.BLIND:
            seen = [self.lab(colour, blindness) for colour in [*told["colours"], told["red"], unburnt]]
            apart = [np.linalg.norm(one - other) for at, one in enumerate(seen) for other in seen[:at]]
            self.assertGreater(min(apart), 20, blindness)
            self.assertGreater(min(np.diff([lightness for lightness, *_ in seen[:4]])), 15, blindness)
