"""The scripts at the top, each in a small checkout with stand-ins for what it calls. The checkout's path has a space."""

import os
import shutil
import signal
import subprocess
import unittest
from pathlib import Path

import processor
from tools import TOP, files_in, needs, new_folder, ran, stand_in

PARTS = [
    "tools/wrong-bodies", "tools/statement", "build", "tools/cases", "tools/at-a-terminal", "python/tests/run", "tools/try-examples",
    "tools/other-debian", "tools/refusals",
]
SHARED = ["tools/paths.py", "tools/running.py", "tools/crate_list.py", "tools/processor.py", "python/sandpile/_processor.py"]
SYSTEM = "/usr/bin:/bin"
lacks_rt = unittest.skipIf(shutil.which("rt", path=SYSTEM), "`rt` is one of the system's commands")


class OfScripts(unittest.TestCase):
    """Has a checkout with the scripts named, and a folder for stand-ins that is on the path."""

    scripts = ()

    def setUp(self):
        folder = new_folder(self)
        self.top, self.bin, self.log, self.room = folder / "a checkout", folder / "bin", folder / "log", folder / "room"
        self.room.mkdir()
        self.log.write_text("")
        for name in (*SHARED, *self.scripts):
            (self.top / name).parent.mkdir(parents=True, exist_ok=True)
            shutil.copy2(TOP / name, self.top / name)
        self.env = {"PATH": f"{self.bin}:{SYSTEM}", "TMPDIR": str(self.room), "LOG": str(self.log), "PYTHONDONTWRITEBYTECODE": "1"}

    def run_in(self, *words, env=None, **how):
        """Runs a script of the checkout: its status, what it writes, and what it reports."""
        ended = subprocess.run(words, cwd=self.top, env=env or self.env, capture_output=True, text=True, timeout=60, **how)
        return ended.returncode, ended.stdout, ended.stderr

    def noted(self):
        """What the stand-ins have noted since the last call."""
        lines = self.log.read_text().splitlines()
        self.log.write_text("")
        return lines


def heed_signals():
    """A child inherits which signals are ignored: SIGHUP under nohup, SIGINT in what a shell starts in the background."""
    for number in (signal.SIGINT, signal.SIGHUP):
        signal.signal(number, signal.SIG_DFL)


class OfCheck(OfScripts):
    scripts = ("check", "tools/checkout.py", ".gitignore")

    def setUp(self):
        super().setUp()
        for part in PARTS:
            stand_in(self.top / part, "echo 'part: 2 passed, 0 failed'")
        stand_in(self.bin / "rt", 'echo "rt $*" >> "$LOG"', "rm -rf crates/*/out", "mkdir crates/low/out", "echo '3 passed, 0 failed'")
        for name in ("crates/low/src/lib.rt", "crates/low/out/low", "python/build/low", "python/__pycache__/low.pyc"):
            (self.top / name).parent.mkdir(parents=True, exist_ok=True)
            (self.top / name).write_text(name)

    def test_the_checkout_stays_as_it_is(self):
        before = files_in(self.top)
        status, said, _ = self.run_in("./check")
        self.assertEqual((status, said.splitlines()[-1]), (0, "27 passed, 0 failed"))
        self.assertEqual(files_in(self.top), before)
        self.assertEqual(list(self.room.iterdir()), [])

    @needs("git")
    def test_the_copy_has_what_git_sees(self):
        git = ["git", "-c", "user.name=a", "-c", "user.email=a@b"]
        for words in (["init", "--quiet"], ["add", "."], ["commit", "--quiet", "-m", "all"]):
            ran(*git, *words, cwd=self.top)
        (self.top / "crates/low/src/lib.rt").write_text("changed")
        (self.top / "crates/low/src/new.rt").write_text("new")
        (self.top / "crates/low/specs").symlink_to("src")
        seen = ran("git", "ls-files", "--cached", "--others", "--exclude-standard", cwd=self.top).splitlines()
        stand_in(self.bin / "rt", 'find . -type f -o -type l | cut -c3- > "$LOG"', 'cat crates/low/src/lib.rt >> "$LOG"', "exit 1")
        for git_folder in (".git", ".hidden"):
            (self.top / ".git").rename(self.top / git_folder)
            self.run_in("./check")
            lines = [line for line in self.noted() if not line.startswith(".hidden/")]
            self.assertEqual((sorted(lines[:-1]), lines[-1]), (sorted(seen), "changed"))

    def test_anew(self):
        rt = self.bin / "rt"
        proves, has_word = rt.read_text(), '[ $1 = help ] && echo "ci --anew" && exit'
        for words, lines, call in (([], [], "rt ci"), (["--anew"], [], "rt ci"), (["--anew"], [has_word], "rt ci --anew")):
            stand_in(rt, *lines, '[ $1 = help ] && echo ci && exit', *proves.splitlines()[1:])
            status, said, _ = self.run_in("./check", *words)
            self.assertEqual((status, said.splitlines()[-1]), (0, "27 passed, 0 failed"))
            self.assertEqual(self.noted(), [call])

    def test_a_failed_part_is_the_last(self):
        stand_in(self.top / "tools/cases", "echo 'cases: 7 passed, 1 failed'; exit 1")
        status, said, _ = self.run_in("./check")
        self.assertEqual((status, said.splitlines()[-1]), (1, "18 passed, 1 failed"))

    def test_another_debian_is_tried_beside_the_tests(self):
        meet = 'touch "$LOG.$1"; for _ in {1..3000}; do [ -e "$LOG.$2" ] && break; sleep 0.01; done; [ -e "$LOG.$2" ]'
        stand_in(self.top / "tools/other-debian", "set debian tests", f"{meet} && echo 'on trixie: 2 passed, 0 failed'")
        stand_in(self.top / "tools/at-a-terminal", "set tests debian", f"{meet} && echo 'terminal: 2 passed, 0 failed'")
        status, said, _ = self.run_in("./check")
        lines = said.splitlines()
        self.assertEqual((status, lines[-1]), (0, "27 passed, 0 failed"))
        self.assertLess(lines.index("terminal: 2 passed, 0 failed"), lines.index("on trixie: 2 passed, 0 failed"))

    def test_a_failed_test_ends_what_is_tried_beside_it(self):
        trap = """trap 'kill $! 2> /dev/null; echo ended >> "$LOG"; exit 1' TERM"""
        stand_in(self.top / "tools/other-debian", trap, 'touch "$LOG.begun"; sleep 60 & wait')
        stand_in(self.top / "tools/cases", 'for _ in {1..3000}; do [ -e "$LOG.begun" ] && break; sleep 0.01; done', "exit 1")
        status, said, _ = self.run_in("./check")
        self.assertEqual((status, self.noted()), (1, ["rt ci", "ended"]))

    def test_the_refusals_and_the_build_read_what_the_proof_wrote(self):
        stand_in(self.top / "tools/wrong-bodies", 'cat >> "$LOG"', "echo 'part: 2 passed, 0 failed'")
        stand_in(self.top / "build", '[ "$1" != --after-ci ] || cat >> "$LOG"', "echo 'part: 2 passed, 0 failed'")
        self.run_in("./check")
        self.assertEqual(self.noted(), ["rt ci", "3 passed, 0 failed", "3 passed, 0 failed"])

    def test_a_signal_ends_it_in_good_order(self):
        stand_in(self.bin / "rt", """trap 'kill $! 2> /dev/null; echo ended >> "$LOG"; exit 1' INT TERM""", "sleep 60 & echo begun; wait")
        for number in (signal.SIGINT, signal.SIGTERM, signal.SIGHUP):
            with self.subTest(number.name):
                with subprocess.Popen(
                    ["./check"], cwd=self.top, env=self.env, stdout=subprocess.PIPE, start_new_session=True, preexec_fn=heed_signals
                ) as process:
                    while process.stdout.readline() != b"begun\n":
                        pass
                    if number == signal.SIGINT:  # as a terminal does
                        os.killpg(process.pid, number)
                    else:
                        process.send_signal(number)
                    process.stdout.read()
                self.assertEqual((process.returncode, list(self.room.iterdir())), (128 + number, []))
                self.assertEqual(self.noted(), ["ended"])


class WithToolchain(OfScripts):
    """Has three crates, and a toolchain that proves whatever it is given."""

    scripts = ("build", "sandpile", "tools/products.py", "tools/release.py")

    def setUp(self):
        super().setUp()
        sources = ("crates/low/src/lib.rt", "crates/sandpile/src/main.rt", "crates/sand_c/src/lib.rt")
        for name in ("HANDLES", "include/sandpile.map", "examples/three.txt", *sources):
            (self.top / name).parent.mkdir(parents=True, exist_ok=True)
            (self.top / name).write_text(name)
        (self.top / "crates.txt").write_text("low:\nsandpile: low\nsand_c staticlib: low\n")
        self.kit = self.bin.with_name("kit")
        self.is_kit("kit")
        # The toolchain makes what `-o` names, of the crate's source; a library is a folder.
        stand_in(
            self.kit / "bin/rattle",
            'for word; do [ "$before" = -o ] && made=$word; [[ $word = *=*/statements/*.rlib ]] && used=$word',
            '[ "$before" = --cpu ] && cpu=" for $word"; before=$word; done', 'echo "$3 over $used$cpu" >> "$LOG"',
            '[ ! -e "$LOG.fail" ] || exit 1',
            '[[ $made = *.rlib ]] && mkdir -p "$made" && made=$made/format', 'cat src/*.rt > "$made"',
        )
        stand_in(
            self.kit / "bin/rattle-link", "printf '#!/bin/sh\\necho %s\\n' \"$(cat sandpile.o)\" > sandpile", "chmod +x sandpile"
        )
        stand_in(self.kit / "toolchain/bin/llvm-ar", 'echo "with ${4##*/}" >> "$2"')
        stand_in(self.kit / "toolchain/bin/clang")
        stand_in(self.kit / "toolchain/bin/ld.lld", "cp libsandpile.a libsandpile.so.1; chmod +x libsandpile.so.1")
        stand_in(self.bin / "cc", 'echo "cc $*" >> "$LOG"', "touch sandpile-static")

    def is_kit(self, line):
        stand_in(self.bin / "rt", f"[ $1 = version ] && echo {line} || echo ${{0%/*}}/../kit/START-HERE.md")

    def built(self, crate):
        return sorted(path.name for path in (self.top / "crates" / crate / "out").iterdir())

    def proved(self):
        """The crates that were proved since the last call."""
        return [line.partition(" ")[0] for line in self.noted() if " over " in line]

    def change(self, crate, text):
        source, = (self.top / "crates" / crate / "src").iterdir()
        source.write_text(text)

    def remove_what_is_built(self):
        for crate in self.top.joinpath("crates").iterdir():
            shutil.rmtree(crate / "out", ignore_errors=True)


class OfBuild(WithToolchain):
    def test_a_change_is_built(self):
        self.assertEqual(self.run_in("./sandpile")[:2], (0, "crates/sandpile/src/main.rt\n"))
        low = self.top / "crates/low/out/statements/low.rlib"
        self.assertEqual(self.noted()[:2], ["low over ", f"sandpile over low={low} for {processor.newest()}"])
        self.assertEqual(self.run_in("./sandpile"), (0, "crates/sandpile/src/main.rt\n", ""))
        self.assertEqual(self.noted(), [])
        self.change("sandpile", "changed")
        self.assertEqual(self.run_in("./sandpile")[:2], (0, "changed\n"))
        self.assertEqual(self.proved(), ["sandpile"])
        self.change("low", "changed")
        self.assertEqual(self.run_in("./sandpile")[:2], (0, "changed\n"))
        self.assertEqual(self.proved(), ["low", "sandpile"])

    def test_the_program_is_linked_for_older_systems_if_that_can_be(self):
        codes = f"sandpile.o {self.kit}/c/libos_c.a {self.kit}/c/liblibc_c.a".replace(str(self.kit), f"{self.bin}/../kit")
        for status, has_static in ((0, True), (1, False)):  # the second machine has no static C library
            stand_in(self.bin / "cc", 'echo "cc $*" >> "$LOG"', f"[ {status} = 0 ] && touch sandpile-static", f"exit {status}")
            self.change("sandpile", f"changed {status}")
            self.assertEqual(self.run_in("./sandpile")[:2], (0, f"changed {status}\n"))
            self.assertIn(f"cc -static-pie -o sandpile-static {codes}", self.noted())
            self.assertEqual("sandpile-static" in self.built("sandpile"), has_static)

    def test_another_toolchain_builds_again_if_that_is_asked_for(self):
        self.run_in("./build")
        self.is_kit("another")
        self.noted()
        self.assertEqual(self.run_in("./sandpile"), (0, "crates/sandpile/src/main.rt\n", ""))
        self.assertEqual(self.proved(), [])
        self.run_in("./build")
        self.assertEqual(self.proved(), ["low", "sandpile"])

    def test_each_processor_has_products_of_its_own(self):
        other = ({processor.OLDEST, processor.NEWER} - {processor.newest()}).pop()
        self.run_in("./build")
        for words, proved, cpu in (
            (["--cpu", other], ["sandpile"], other), (["--cpu", other], [], other), ([], ["sandpile"], processor.newest()),
            (["--cpu", "x86-64-v9"], None, ""), (["wheel", "--cpu", other], None, ""),
        ):
            self.noted()
            status, _, reported = self.run_in("./build", *words)
            self.assertEqual((status, self.proved()), (2, []) if proved is None else (0, proved), reported)
            self.assertEqual(f"for processors of {cpu}\n" in reported, bool(proved), reported)
        made_by = self.top / "crates/sandpile/out/made-by"
        self.assertEqual(made_by.read_text(), "kit\n" if processor.newest() == processor.OLDEST else "kit, for x86-64-v3\n")

    def test_a_library_for_newer_processors_says_so(self):
        linker = self.kit / "toolchain/bin/ld.lld"
        linker.write_text(f'{linker.read_text()}echo "links $*" >> "$LOG"\n')
        for cpu in (processor.OLDEST, processor.NEWER):
            self.run_in("./build", "library", "--cpu", cpu)
            linked, = (line for line in self.noted() if line.startswith("links "))
            for word in ("--defsym=sandpile_x86_64_v3=1", "needs.o"):
                self.assertEqual(word in linked.split(), cpu == processor.NEWER)

    @lacks_rt
    def test_without_the_toolchain(self):
        without = {**self.env, "PATH": SYSTEM}
        self.assertIn("`rt` is not on the PATH", self.run_in("./sandpile", env=without)[2])
        self.run_in("./build")
        self.assertEqual(self.run_in("./sandpile", env=without), (0, "crates/sandpile/src/main.rt\n", ""))
        self.change("low", "changed")
        status, said, reported = self.run_in("./sandpile", env=without)
        self.assertEqual((status, said), (1, ""))
        self.assertEqual(reported.splitlines(), [
            "build: sandpile was built from other sources, by another toolchain or for another processor",
            "build: `rt` is not on the PATH, and it is the Rattle toolchain, which proves and builds everything",
        ])

    def test_what_a_failed_build_has_proved_is_kept(self):
        self.run_in("./build")
        self.change("sandpile", "changed")
        Path(f"{self.log}.fail").touch()
        self.assertEqual(self.run_in("./build")[0], 1)
        Path(f"{self.log}.fail").unlink()
        self.noted()
        self.run_in("./build", "library")
        self.assertEqual(self.proved(), ["sand_c"])

    def test_what_a_failed_build_has_made_is_not_run(self):
        main, failing = self.top / "crates/sandpile/src/main.rt", Path(f"{self.log}.fail")
        self.run_in("./build")
        before = main.read_text()
        main.write_text("changed")
        failing.touch()
        self.assertEqual(self.run_in("./build")[0], 1)
        main.write_text(before)
        failing.unlink()
        self.noted()
        self.assertEqual(self.run_in("./sandpile")[:2], (0, f"{before}\n"))
        self.assertEqual(self.proved(), ["sandpile"])

    def test_a_source_that_changes_while_it_is_proved(self):
        rattle = self.kit / "bin/rattle"
        rattle.write_text(rattle.read_text() + '[ $3 = low ] && echo changed > src/lib.rt; true\n')
        status, _, reported = self.run_in("./build")
        self.assertEqual((status, (self.top / "crates/low/out/statements/made-from").exists()), (1, False))
        self.assertIn("low failed: a source has changed meanwhile: start ./build again", reported)

    def test_what_rt_has_proved_stays(self):
        theirs = self.top / "crates/low/out/rlib/stamp"
        theirs.parent.mkdir(parents=True)
        theirs.write_text("theirs")
        self.run_in("./build")
        self.assertEqual((self.built("low"), theirs.read_text()), (["rlib", "statements"], "theirs"))

    def test_rt_is_lent_what_is_built(self):
        (self.kit / "bin/rtlib.py").write_text(
            "class Crate:\n    def __init__(self, name): self.name = name\n    def stamp(self): return f'stamp of {self.name}'\n"
            "    def makes_rlib(self): return self.name == 'low'\n"
            "def crates_below(top): return [Crate('low'), Crate('sandpile')]\n"
        )
        self.run_in("./build")
        self.assertEqual(self.run_in("./build", "for-rt"), (0, "", "build: `rt` has low\n"))
        lent = self.top / "crates/low/out/rlib"
        self.assertEqual((lent / "stamp").read_text(), "stamp of low")
        self.assertEqual((lent / "low.rlib/format").read_text(), "crates/low/src/lib.rt")
        (lent / "low.rlib/theirs").touch()
        self.assertEqual(self.run_in("./build", "for-rt"), (0, "", ""))
        self.assertTrue((lent / "low.rlib/theirs").exists())
        shutil.copytree(lent, lent.with_name("of rt"))
        shutil.rmtree(lent)
        lent.with_name("of rt").rename(lent)
        self.assertEqual(self.run_in("./build", "for-rt"), (0, "", "build: `rt` has low\n"))
        self.assertFalse((lent / "low.rlib/theirs").exists())

    def test_the_wheel_is_packed_after_both_are_built(self):
        stand_in(self.top / "tools/wheel", 'echo "wheel $*" >> "$LOG"', 'touch "$1/sandpile-2.whl"; echo sandpile-2.whl')
        for name in ("sandpile-1.whl", "theirs.whl"):
            (self.top / "dist").mkdir(exist_ok=True)
            (self.top / "dist" / name).touch()
        status, said, reported = self.run_in("./build", "wheel")
        self.assertEqual((status, said), (0, ""), reported)
        self.assertIn("build: dist/sandpile-2.whl is packed", reported.splitlines())
        noted = self.noted()
        self.assertEqual([line.partition(" ")[0] for line in noted if " over " in line], ["low", "sandpile", "sand_c"])
        self.assertEqual(noted[-1], f"wheel {self.top}/dist")
        names = ["made-by", "made-from", "sandpile-2.whl", "theirs.whl"]
        self.assertEqual(sorted(path.name for path in (self.top / "dist").iterdir()), names)

    def test_what_is_not_built_is_not_packed(self):
        stand_in(self.top / "tools/wheel", 'echo "wheel $*" >> "$LOG"')
        Path(f"{self.log}.fail").touch()
        self.assertEqual(self.run_in("./build", "wheel")[0], 1)
        self.assertNotIn(f"wheel {self.top}/dist", self.noted())

    def test_a_crate_lets_others_go_first_until_it_is_the_longest_left(self):
        (self.top / "crates.txt").write_text(
            "low:\nsand_lab: low\nsand_guess: sand_lab\nsand_plan:\nsandpile: sand_guess sand_plan\nsand_c staticlib: low\n"
        )
        for crate in ("sand_lab", "sand_guess", "sand_plan"):
            (self.top / "crates" / crate / "src").mkdir(parents=True)
            (self.top / "crates" / crate / "src/lib.rt").touch()
        rattle, go_on = self.kit / "bin/rattle", self.room / "go on"
        tell = """tell() { echo "$1 $(cut -d' ' -f19 /proc/self/stat)" >> "$LOG"; }"""
        low = f'if [ $3 = low ]; then tell low; until [ -e "{go_on}" ]; do sleep 0.1; done; fi'
        is_done = 'until [ -e ../sand_guess/out/statements/made-from ]; do sleep 0.1; done'
        plan = f'if [ $3 = sand_plan ]; then sleep 1; tell plan; touch "{go_on}"; {is_done}; sleep 1; tell plan; fi'
        stand_in(rattle, tell, low, plan, *rattle.read_text().splitlines()[1:])
        self.assertEqual(self.run_in("./build")[0], 0)
        said, nice = [line for line in self.noted() if " over " not in line], os.nice(0)
        self.assertIn(f"low {nice}", said)
        plans = [f"plan {nice + 5}", f"plan {nice + 5 if os.geteuid() else nice}"]
        self.assertEqual([line for line in said if line.startswith("plan")], plans)

    def leave_as_ci_does(self):
        stand_in(self.top / "crates/sandpile/out/sandpile", "echo by ci")
        (self.top / "crates/low/out/rlib/low.rlib").mkdir(parents=True)

    def test_after_ci_only_the_library_is_left_to_build(self):
        self.leave_as_ci_does()
        for words, proved in (([], []), (["library"], ["sand_c"])):
            status, _, reported = self.run_in("./build", "--after-ci", *words, input="rt: ok\n3 passed, 0 failed\n")
            self.assertEqual((status, self.proved()), (0, proved), reported)
            self.assertEqual(self.run_in("./build", "--if-changed", *words), (0, "", ""))
        self.assertEqual(self.run_in("./sandpile"), (0, "by ci\n", ""))
        self.remove_what_is_built()
        self.leave_as_ci_does()
        stand_in(self.top / "tools/wheel", "touch $1/sandpile-2.whl; echo sandpile-2.whl")
        status, _, reported = self.run_in("./build", "--after-ci", "wheel", input="3 passed, 0 failed\n")
        self.assertEqual((status, self.proved()), (0, ["sand_c"]), reported)

    def test_what_a_stopped_ci_has_left_is_proved_again(self):
        part = "3 passed, 0 failed (low and the crates below alone: not the gate)\n"
        for said in ("", "rt: low proved\n", "2 passed, 1 failed\n", part, "3 passed, 0 failed\nrt: stopped\n"):
            with self.subTest(said=said):
                self.remove_what_is_built()
                self.leave_as_ci_does()
                status, _, reported = self.run_in("./build", "--after-ci", input=said)
                self.assertEqual((status, self.proved()), (0, ["low", "sandpile"]), reported)
                again = "build: what `rt ci` has left is proved again: standard input has to be all that it wrote, to '0 failed'"
                self.assertIn(again, reported.splitlines())

    def test_what_rt_check_has_left_is_proved_again(self):
        self.leave_as_ci_does()
        (self.top / "crates/low/out/rlib/stamp").write_text("of other sources")
        status, _, reported = self.run_in("./build", "--after-ci", input="3 passed, 0 failed\n")
        self.assertEqual((status, self.proved()), (0, ["low"]), reported)


class OfRelease(WithToolchain):
    """The program that is built here is the system's `echo`, so that it runs from memory, too."""

    def setUp(self):
        super().setUp()
        stand_in(self.kit / "bin/rattle-link", "cat /bin/echo sandpile.o > sandpile", "chmod +x sandpile")
        pack = "import sys, zipfile as z; w = z.ZipFile(sys.argv[1] + '/sandpile-2.whl', 'w'); "
        packed = {"sandpile/out/sandpile": "sandpile-2.data/scripts/sandpile", "sand_c/out/libsandpile.so.1": "sandpile/libsandpile.so.1"}
        for product, name in packed.items():
            pack += f"w.writestr(z.ZipInfo('{name}'), open('crates/{product}', 'rb').read()); "
        stand_in(self.top / "tools/wheel", f'cd "{self.top}" && python3 -c "{pack} w.close()" "$1" && echo sandpile-2.whl')
        self.program, self.wheel = self.top / "crates/sandpile/out/sandpile", self.top / "dist/sandpile-2.whl"
        self.assertEqual(self.run_in("./build", "release")[0], 0)
        self.noted()

    def last_line(self, *words):
        if words[0] == "./build" and "wheel" not in words:
            words += ("--cpu", processor.OLDEST)
        status, said, reported = self.run_in(*words)
        self.assertEqual(said, "")
        return status, reported.splitlines()[-1]

    @needs("sha256sum")
    def test_the_checksums(self):
        checked = subprocess.run(["sha256sum", "-c", "release/SHA256SUMS"], cwd=self.top, capture_output=True, text=True)
        products = ("crates/sandpile/out/sandpile", "crates/sand_c/out/libsandpile.so.1", "dist/sandpile-2.whl")
        files = [file for product in products for file in (f"{Path(product).parent}/made-from", product)]
        self.assertEqual((checked.returncode, checked.stdout), (0, "".join(f"{file}: OK\n" for file in files)))
        self.assertEqual((self.top / "release/SHA256SUMS").read_text().splitlines()[0], "# proved by kit")

    def test_the_same_bytes(self):
        said = "build: crates/sandpile/out/sandpile has the same bytes as in release/SHA256SUMS"
        said += ": this machine has proved what the release is"
        self.assertEqual(self.last_line("./build"), (0, said))
        self.remove_what_is_built()
        self.assertEqual(self.last_line("./build"), (0, said))
        said = said.replace("crates/sandpile/out/sandpile", "dist/sandpile-2.whl")
        self.assertEqual(self.last_line("./build", "wheel"), (0, said))

    def test_one_for_newer_processors_is_not_the_release(self):
        said = self.run_in("./build", "--cpu", processor.NEWER)[2].splitlines()[-1]
        self.assertEqual(said, "build: crates/sandpile/out/sandpile is for x86-64-v3; release/SHA256SUMS has the one for x86-64-v2")

    def test_a_bit_is_flipped(self):
        for file, words in ((self.program, []), (self.top / "crates/sand_c/out/libsandpile.so.1", ["library"])):
            content = bytearray(file.read_bytes())
            content[-1] ^= 1
            file.write_bytes(content)
            status, line = self.last_line("./build", *words)
            self.assertEqual(status, 1)
            said = f"build: {file.relative_to(self.top)} has other bytes than in release/SHA256SUMS"
            self.assertIn(f"{said}, which is of the same sources and kit", line)

    def test_what_is_built(self):
        built = [self.program, self.top / "crates/sand_c/out/libsandpile.so.1", self.wheel]
        names = [file.relative_to(self.top) for file in built]
        for file in built:
            os.utime(file.with_name("made-from"), (0, 0))
        self.change("low", "changed")
        status, said, _ = self.run_in("./build", "what", env={**self.env, "TZ": "UTC"})
        here = "proved and built in this checkout by kit, 1970-01-01 00:00; a source has changed since"
        self.assertEqual((status, said), (0, "".join(f"{name}: {here}\n" for name in names)))
        for file in built:
            file.with_name("made-from").unlink()
        self.program.unlink()
        hints = ["not built", "the release, not proved on this machine", "the release, not proved on this machine"]
        self.assertEqual(self.run_in("./build", "what")[1], "".join(f"{name}: {it}\n" for name, it in zip(names, hints)))

    def test_another_kit_may_make_other_bytes(self):
        self.is_kit("another")
        self.assertIn("has the same bytes", self.last_line("./build")[1])
        link = self.kit / "bin/rattle-link"
        link.write_text(link.read_text().replace("/bin/echo", "/bin/true"))
        self.is_kit("a third")
        said = "build: crates/sandpile/out/sandpile has other bytes than in release/SHA256SUMS, which kit proved"
        said += ": that kit's compiler may differ"
        self.assertEqual(self.last_line("./build"), (0, said))

    def test_other_sources(self):
        self.change("low", "changed")
        said = "build: crates/sandpile/out/sandpile is made from other sources than those of release/SHA256SUMS"
        self.assertEqual(self.last_line("./build"), (0, said))

    def test_the_released_program_runs_where_nothing_is_built(self):
        self.remove_what_is_built()
        without = {**self.env, "PATH": SYSTEM}
        said = "sandpile: the released program, made from these sources; not proved on this machine\n"
        for folder in self.top.rglob("*"):
            folder.chmod(0o555)
        self.assertEqual(self.run_in("./sandpile", "settle", "it", env=without), (0, "settle it\n", said))
        self.assertEqual(self.run_in("./sandpile", env=without), (0, "\n", said))

    def test_a_closed_pipe_ends_the_released_program_as_any_other(self):
        self.remove_what_is_built()
        ours, theirs = os.pipe()
        os.close(ours)
        ended = subprocess.run(["./sandpile", "settle"], cwd=self.top, env=self.env, stdout=theirs, stderr=subprocess.PIPE)
        os.close(theirs)
        self.assertEqual(ended.returncode, -signal.SIGPIPE)

    @lacks_rt
    def test_a_changed_source_is_built_and_not_taken_from_the_release(self):
        self.remove_what_is_built()
        self.change("low", "changed")
        without = {**self.env, "PATH": SYSTEM}
        self.assertIn("`rt` is not on the PATH", self.run_in("./sandpile", "settle", env=without)[2])

    def test_a_wheel_with_another_checksum_is_refused(self):
        self.remove_what_is_built()
        self.wheel.write_bytes(self.wheel.read_bytes() + b" ")
        status, line = self.last_line("./sandpile", "settle")
        self.assertEqual(status, 1)
        said = "has another checksum than in release/SHA256SUMS, so it is not what was released"
        self.assertRegex(line, f"^build: .*/dist/sandpile-2.whl {said}")
        self.assertEqual(self.proved(), [])

    def test_what_is_built_comes_before_the_released_program(self):
        self.wheel.write_bytes(b"garbage")
        self.assertEqual(self.run_in("./sandpile", "settle"), (0, "settle\n", ""))


HANDLE = """\
ghost use Rattle.std.specs.Prelude.{◌≡◌, Option, None};
ghost use Rattle.low.specs.Loads.{Load, load_coded, load_owns};

pub struct Handle {
    at: *mut u8,
    pub ghost held: { Option Load } by { load_coded },
}

impl Model for Handle {
    ghost also_owns = { λ h. load_owns h.at h.held };
}

pub fn clear(handle: &mut Handle)
    ensures { handle.new.held ≡ None }
{
}
"""
LOADS = """\
use Rattle.std.specs.Prelude.{ℕ, Option}
use Rattle.low.specs.contracts.Handle.{the_row}

pub record Load : Type 0 where
  pub grains : ℕ

abbrev pub load_coded : Coded Load
load_coded = the_row.coded
"""


class OfStatement(OfScripts):
    scripts = ("tools/statement", "tools/sources.py")

    def setUp(self):
        super().setUp()
        for name, text in {"crates.txt": "low\n", "crates/low/src/handle.rt": HANDLE, "crates/low/specs/Loads.antt": LOADS}.items():
            (self.top / name).parent.mkdir(parents=True, exist_ok=True)
            (self.top / name).write_text(text, encoding="utf-8")

    def test_a_ghost_field_has_its_type_and_neither_coding_nor_memory(self):
        status, said, reported = self.run_in("tools/statement", "clear")
        self.assertEqual((status, reported), (0, ""))
        self.assertIn("    pub ghost held: { Option Load },\n}\n", said)
        self.assertIn("pub record Load : Type 0 where\n", said)
        for word in ("load_coded", "load_owns", "the_row"):
            self.assertNotIn(word, said)
        self.assertEqual(said.splitlines()[-1], "2 definitions in 6 lines and 1 contract in 2 lines without comments, from 2 files")

    def test_what_a_call_is_lent(self):
        uses = "ghost use types.Logic.{sem};\nghost use Rattle.low.specs.Loads.{Load, lends};\n\n"
        clauses = "    ghost lent: { Load }\n    requires* { sem 𝓛 (lends handle.now.0 lent) }\n"
        call = f"pub fn look(handle: &Handle)\n{clauses}"
        (self.top / "crates/low/src/lent.rt").write_text(f"{uses}use crate::handle::Handle;\n\n{call}{{\n}}\n", encoding="utf-8")
        lends = "-- what is lent at a pointer\nabbrev pub lends : Ptr → Load → Fml\nlends p l = said p\n"
        (self.top / "crates/low/specs/Loads.antt").write_text(f"use denote.Sharing.{{Ptr, Fml, said}}\n{LOADS}\n{lends}", encoding="utf-8")
        status, said, reported = self.run_in("tools/statement", "look")
        self.assertEqual((status, reported), (0, ""))
        self.assertIn(lends, said)
        self.assertIn(call, said)
        self.assertRegex(said, "== standard library and toolchain: .*said sem")

    def test_the_page_names_a_function_by_its_crate(self):
        (self.top / "docs").mkdir()
        (self.top / "tools/theorem-template.md").write_text("@ Handle\n\nIt empties a handle.\n\n@ low::clear\n", encoding="utf-8")
        self.assertEqual(self.run_in("tools/statement", "--page"), (0, "", ""))
        first, _, last = (self.top / "docs/THEOREM.md").read_text(encoding="utf-8").partition("It empties a handle.")
        self.assertIn("pub struct Handle", first)
        self.assertIn("pub fn clear", last)
        self.assertEqual(self.run_in("tools/statement", "--check"), (0, "", ""))


class OfAWrongBody(OfScripts):
    scripts = ("tools/wrong-bodies", "tools/products.py")
    files = {
        "crates.txt": "low: std\nhigh: low std\nother: low\n",
        "HANDLES": "Handles allowed: none.\n",
        "crates/low/src/lib.rt": "// low\n",
        "crates/low/out/rlib/low.rlib": "a library",
        "crates/high/src/lib.rt": "mod piles;\n",
        "crates/high/src/piles.rt": "impl Pile {\n    fn one() -> u8 {\n        1\n    }\n}\n",
        "crates/high/must-fail/two.edit": "file: src/piles.rt\nold:         1\nnew:         2\n",
        "crates/high/src/runs.rt": "impl Run for Pile {\n    fn run() {\n        go()\n    }\n}\n",
        "crates/high/must-fail/stays.edit": "file: src/runs.rt\nold: go()\nnew: stay()\n",
    }

    def test_an_edit_alone(self):
        for name, text in self.files.items():
            (self.top / name).parent.mkdir(parents=True, exist_ok=True)
            (self.top / name).write_text(text)
        stand_in(self.bin / "rt", 'echo "$*"', "cat src/piles.rt ../../crates.txt ../low/out/rlib/low.rlib", "ls ..", "exit 1")
        before = files_in(self.top)
        status, said, _ = self.run_in("tools/wrong-bodies", "high/two")
        edited = self.files["crates/high/src/piles.rt"].replace("1", "2")
        lines = "check --only piles::Pile::one\n" + edited + "low: std\nhigh: low std\na libraryhigh\nlow\n"
        self.assertEqual((status, said), (1, lines))
        self.assertEqual((files_in(self.top), list(self.room.iterdir())), (before, []))
        self.assertTrue(self.run_in("tools/wrong-bodies", "high/stays")[1].startswith("check --only runs::PileRun::run\n"))
        self.assertEqual(self.run_in("tools/wrong-bodies", "high/three")[:2], (2, ""))


class OfWhatTestsShow(OfScripts):
    scripts = ("tools/wrong-bodies", "tools/products.py")
    files = {
        "crates.txt": "low: std\n",
        "crates/low/src/piles.rt": "#[test]\nfn adds() {\n}\n",
        "tools/by-tests.txt": "# two entries\n\nwrong: it adds 2\nwhy: no clause counts\ntest: low/piles: adds; crates\n\n"
        "example: 1 + 1\ntest: low/piles\n",
    }

    def test_each_test_that_is_named_is_looked_for(self):
        for name, text in self.files.items():
            (self.top / name).parent.mkdir(parents=True, exist_ok=True)
            (self.top / name).write_text(text)
        said = "wrong bodies and what tests show: 2 passed, 0 failed\n"
        self.assertEqual(self.run_in("tools/wrong-bodies", "--check"), (0, said, ""))
        self.assertIn("| it adds 2 | no clause counts | low/piles: adds; crates |\n", self.run_in("tools/wrong-bodies", "--by-tests")[1])
        (self.top / "crates/low/src/piles.rt").write_text("#[test]\nfn adds_up() {\n}\n\nfn adds() {\n}\n")
        status, said, _ = self.run_in("tools/wrong-bodies", "--check")
        self.assertEqual(status, 1)
        self.assertTrue(said.startswith("tools/by-tests.txt: there is no test `adds` in low/piles\n"), said)
        (self.top / "crates/low/src/piles.rt").write_text("fn adds() {\n}\n")
        self.assertTrue(self.run_in("tools/wrong-bodies", "--check")[1].endswith(": 0 passed, 2 failed\n"))


class OfTheGate(OfScripts):
    scripts = (".ci/run", "tools/try-examples", "tools/program_help.py", "python/with-numpy")

    def test_the_shell_looks_for_no_other_folder(self):
        stand_in(self.bin / "dpkg-query")
        for top in (self.top, self.room):
            stand_in(top / "check", f"echo {top.name}")
        (self.room / ".ci").mkdir()
        self.assertEqual(self.run_in("bash", ".ci/run", env={**self.env, "CDPATH": str(self.room)})[:2], (0, "a checkout\n"))

    @lacks_rt
    def test_examples_without_the_toolchain(self):
        stand_in(self.top / "crates/sandpile/out/sandpile", "echo 'Usage:'")
        (self.top / "docs").mkdir()
        (self.top / "examples").mkdir()
        (self.top / "README.md").write_text("```text\n$ echo 4\n4\n```\n")
        status, said, _ = self.run_in("tools/try-examples")
        self.assertEqual((status, said.splitlines()[-1]), (0, "examples: 1 passed, 0 failed, 1 left out"))
