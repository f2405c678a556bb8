"""What is installed, by pip without a network or by ./install, works outside the checkout, with its library."""

import os
import re
import shlex
import shutil
import stat
import subprocess
import sys
import unittest
from pathlib import Path

import sandpile
from tools import LIBRARY, PROGRAM, TOP, files_in, needs, needs_module, new_folder, ran, release_in, stand_in

PATHS = ("PATH", "PYTHONPATH", "PKG_CONFIG_PATH", "LD_LIBRARY_PATH")

SHARED_AND_STATIC = (LIBRARY / "libsandpile.so.1", LIBRARY / "libsandpile.a")

TRIED = """
import sandpile, numpy as np
from sandpile import _library
print(sandpile.settle(np.array([[0, 4, 0]])).topplings, _library.library._name)
"""


def copied(folder):
    """Copies what pip needs of the checkout but for what is built."""
    for name in ("tools", "include", "python"):
        shutil.copytree(TOP / name, folder / name, ignore=shutil.ignore_patterns("build", "*.egg-info", "__pycache__"))
    shutil.copy2(TOP / "crates.txt", folder)


def in_cmake(version):
    """A project of CMake with a program for each of the two libraries."""
    return f"""
cmake_minimum_required(VERSION 3.13)
project(tried C)
find_package(sandpile {version} REQUIRED)
add_executable(shared settle.c)
target_link_libraries(shared sandpile::sandpile)
add_executable(alone settle.c)
target_link_libraries(alone sandpile::static)
"""


class ByPip(unittest.TestCase):
    @needs_module("pip")
    def test_pip_carries_the_library_along(self):
        for words in ([], ["--no-build-isolation"]):
            with self.subTest(words):
                folder = new_folder(self)
                checkout, target = folder / "checkout", folder / "target"
                copied(checkout)
                shutil.copytree(LIBRARY, checkout / "crates" / "sand_c" / "out", symlinks=True)
                offline = [*words, "--no-deps", "--no-index", "--quiet", "--root-user-action=ignore"]
                ran(sys.executable, "-m", "pip", "install", *offline, "--target", target, "./python", cwd=checkout)
                shutil.rmtree(checkout)
                env = {**os.environ, "PYTHONPATH": str(target)}
                env.pop("LIBSANDPILE", None)
                said = ran(sys.executable, "-c", TRIED, cwd=folder, env=env).split()
                self.assertEqual(said, ["1", str(target / "sandpile" / "libsandpile.so.1")])

    @needs_module("pip")
    def test_pip_says_what_to_build_first(self):
        folder = new_folder(self)
        copied(folder)
        words = ["--no-build-isolation", "--no-deps", "--no-index", "--target", folder / "target", "./python"]
        with self.assertRaises(AssertionError) as caught:
            ran(sys.executable, "-m", "pip", "install", *words, cwd=folder)
        self.assertIn("run ./build library first", str(caught.exception))
        self.assertNotIn("Traceback", str(caught.exception))


class ByInstall(unittest.TestCase):
    """Installs from a copy of what is built, with stand-ins for ./build and for the loader's `ldconfig`."""

    def setUp(self):
        self.assertTrue(PROGRAM.exists(), "the program is not built: run ./build first")
        self.folder = new_folder(self)
        self.top, self.log, self.prefix = self.folder / "a checkout", self.folder / "log", self.folder / "prefix"
        for name in ("tools", "include", "python"):
            shutil.copytree(TOP / name, self.top / name, ignore=shutil.ignore_patterns("tests", "__pycache__", "build", "*.egg-info"))
        for path in (TOP / "install", TOP / "crates.txt", PROGRAM, *SHARED_AND_STATIC):
            copy = self.top / path.relative_to(TOP)
            copy.parent.mkdir(parents=True, exist_ok=True)
            shutil.copy2(path, copy)
        stand_in(self.top / "build", f'echo "build $*" >> {shlex.quote(str(self.log))}')
        self.has_loader(knows=self.folder / "elsewhere")
        names = ("DESTDIR", "LIBDIR", "VIRTUAL_ENV", *PATHS[1:])
        self.env = {name: value for name, value in os.environ.items() if name not in names}
        self.env["PATH"] = f"{self.folder}/bin:{os.environ['PATH']}"
        self.prefix.mkdir()

    def has_loader(self, knows, status=0):
        """Puts a stand-in for `ldconfig` on the path, whose configuration names one folder."""
        stand_in(
            self.folder / "bin" / "ldconfig", f'[ "$1" ] && echo {shlex.quote(str(knows))}: && exit',
            f"echo ldconfig >> {shlex.quote(str(self.log))}", f"exit {status}",
        )

    def installed(self, *words, **env):
        """Runs ./install, and returns what it says: what it installed, and the other lines."""
        lines = ran(self.top / "install", *words, cwd=self.folder, env={**self.env, **env}).splitlines()
        done = [line.partition(" ") for line in lines if line.startswith(("installed ", "removed "))]
        return {path for _, _, path in done}, lines[len(done):]

    def noted(self):
        return self.log.read_text().splitlines()

    @needs("cc", "pkg-config")
    def test_all_is_found_below_any_prefix(self):
        page = (TOP / "docs" / "PYTHON.md").read_text()
        block, want = re.search(r"^```python\n(.*?)^```\n\n```text\n(.*?)^```$", page, re.M | re.S).groups()
        for name in ("prefix", "it's a \"prefix\""):
            prefix = self.folder / name
            _, lines = self.installed(prefix)
            lines = [line.removeprefix("add to your profile: ") for line in lines]
            self.assertEqual([line.split("=")[0] for line in lines], [f"export {name}" for name in PATHS])
            script = "\n".join([
                *lines,
                f"{sys.executable} -c '{block}'",
                f"{sys.executable} -c 'from sandpile import _library; print(_library.library._name)'",
                f"cp {shlex.quote(str(TOP))}/examples/settle.c .",
                "eval cc settle.c $(pkg-config --cflags --libs sandpile) -o settle",
                "./settle | tail -n 1",
                "pkg-config --modversion sandpile && sandpile --version | cut -d, -f1",
            ])
            with self.subTest(name):
                text = ran("bash", "-euc", script, cwd=prefix, env={"PATH": os.environ["PATH"]})
                self.assertEqual(text, want + "\n".join([
                    f"{prefix}/lib/python3/site-packages/sandpile/libsandpile.so.1",
                    "8193 wide: the width or the height of a grid is outside 1 to 8192",
                    sandpile.__version__, f"sandpile {sandpile.__version__}", "",
                ]))

    def test_the_lines_to_add_are_quoted(self):
        prefix = self.folder / "`it's` a \"\\$HOME\""
        _, lines = self.installed(prefix)
        script = "\n".join([*(line.removeprefix("add to your profile: ") for line in lines), 'echo "$PATH"'])
        for shell in ("bash", "sh"):
            self.assertTrue(ran(shell, "-euc", script, env=self.env).startswith(f"{prefix}/bin:"), lines)

    def test_what_is_built_is_checked_each_time(self):
        for _ in range(2):
            self.installed(self.prefix)
        self.assertEqual(self.noted(), ["build --if-changed", "build --if-changed library"] * 2)

    def test_the_released_wheel_is_installed_where_nothing_is_built(self):
        release_in(self.top)
        self.installed(self.prefix)
        self.assertEqual(ran(self.prefix / "bin/sandpile", "identity", "--width=1", "--height=1"), "1 1\n0\n")
        self.assertEqual((self.prefix / "lib/libsandpile.so.1").read_bytes(), SHARED_AND_STATIC[0].read_bytes())
        self.assertFalse((self.prefix / "lib/libsandpile.a").exists())
        wheel, = (self.top / "dist").iterdir()
        wheel.write_bytes(wheel.read_bytes() + b" ")
        with self.assertRaises(AssertionError) as caught:
            self.installed(self.prefix)
        self.assertIn("has another checksum than in release/SHA256SUMS", str(caught.exception))

    def test_a_build_that_fails_installs_nothing(self):
        stand_in(self.top / "build", "exit 3")
        ended = subprocess.run([self.top / "install", self.prefix], env=self.env, capture_output=True)
        self.assertEqual((ended.returncode, ended.stdout, list(self.prefix.iterdir())), (3, b"", []))

    def test_others_can_read_what_is_installed(self):
        for path in self.top.rglob("*"):
            path.chmod(0o700)
        before = os.umask(0o077)
        self.addCleanup(os.umask, before)
        self.installed(self.prefix / "new")
        modes = {path: stat.S_IMODE(path.stat().st_mode) for path in (self.prefix / "new", *self.prefix.rglob("*"))}
        self.assertEqual({path for path, mode in modes.items() if not mode & 0o044 or (path.is_dir() and mode != 0o755)}, set())
        programs = {path for path, mode in modes.items() if mode & 0o111 and path.is_file()}
        self.assertEqual(programs, {self.prefix / "new/bin/sandpile"})
        self.assertEqual(modes[self.prefix / "new/bin/sandpile"], 0o755)

    def test_uninstall_removes_what_was_installed_and_nothing_else(self):
        theirs = ["bin/theirs", "lib/python3/site-packages/sandpile/theirs", "share/man/man1/theirs.1"]
        for name in theirs:
            (self.prefix / name).parent.mkdir(parents=True, exist_ok=True)
            (self.prefix / name).write_text(name)
        (self.prefix / "share/zsh").mkdir()
        before = files_in(self.prefix)
        self.installed(self.prefix)
        said, _ = self.installed(self.prefix)
        self.assertEqual(said, {str(self.prefix / name) for name in files_in(self.prefix).keys() - before.keys()})
        ran(sys.executable, "-c", "import sandpile", env={**self.env, "PYTHONPATH": f"{self.prefix}/lib/python3/site-packages"})
        self.installed("--uninstall", self.prefix)
        self.assertEqual(files_in(self.prefix), before)
        folders = {str(path.relative_to(self.prefix)) for path in self.prefix.rglob("*") if path.is_dir()}
        self.assertEqual(folders, {str(above) for name in [*theirs, "share/zsh/it"] for above in Path(name).parents} - {"."})
        again = subprocess.run([self.top / "install", "--uninstall", self.prefix], env=self.env, capture_output=True, text=True)
        self.assertEqual(again.stderr, f"install: there is no list of what is installed: {self.prefix}/share/sandpile/installed\n")

    def test_uninstall_leaves_no_new_folder(self):
        self.installed(self.folder / "new" / "prefix")
        self.installed("--uninstall", self.folder / "new" / "prefix")
        self.assertFalse((self.folder / "new").exists())

    def test_what_an_older_version_installed_goes(self):
        self.installed(self.prefix)
        module, made = self.prefix / "lib/python3/site-packages/sandpile", self.prefix / "share/sandpile/installed"
        # One is from before there was a list.
        for path in (module / "older.py", module / "oldest.py", self.prefix / "share/older"):
            path.write_text("")
        made.write_text(made.read_text() + "share/older\nlib/python3/site-packages/sandpile/older.py\n")
        before = files_in(self.prefix)
        said, _ = self.installed(self.prefix)
        gone = {"share/older", *(f"lib/python3/site-packages/sandpile/{name}.py" for name in ("older", "oldest"))}
        self.assertEqual(files_in(self.prefix).keys(), before.keys() - gone)
        self.assertLess({str(self.prefix / name) for name in gone}, said)

    def test_destdir_is_before_all_paths(self):
        stage, prefix = self.folder / "stage", self.folder / "later"
        self.has_loader(knows=prefix / "lib")
        said, _ = self.installed(prefix, DESTDIR=str(stage))
        moved = Path(f"{stage}{prefix}")
        self.assertEqual(said, {str(moved / name) for name in files_in(moved)})
        self.assertFalse(prefix.exists())
        self.assertNotIn("ldconfig", self.noted())
        self.assertIn(f"prefix={prefix}\n", (moved / "lib/pkgconfig/sandpile.pc").read_text())
        self.installed("/usr", DESTDIR=str(stage))
        self.assertFalse((stage / "usr/local").exists())
        moved.rename(prefix)
        self.assertEqual(ran(prefix / "bin/sandpile", "--version").partition(",")[0], f"sandpile {sandpile.__version__}")
        self.installed("--uninstall", prefix)
        self.assertFalse(prefix.exists())

    def test_completions_are_where_shells_look(self):
        is_debian = Path("/etc/debian_version").exists()  # whose zsh does not look into /usr/share/zsh/site-functions
        for prefix, zsh in (("/usr", "vendor-completions" if is_debian else "site-functions"), ("/usr/local", "site-functions")):
            stage = new_folder(self)
            self.installed(prefix, DESTDIR=str(stage))
            found = {name.removeprefix(f"{prefix[1:]}/share/") for name in files_in(stage) if name.startswith(f"{prefix[1:]}/share/")}
            with self.subTest(prefix):
                shells = {"bash-completion/completions/sandpile", f"zsh/{zsh}/_sandpile", "fish/vendor_completions.d/sandpile.fish"}
                self.assertEqual(found, {*shells, "man/man1/sandpile.1", "sandpile/installed"})

    def test_libdir_is_where_the_library_is(self):
        elsewhere = self.folder / "else where"
        for libdir, place in (("lib/x86_64", self.prefix / "lib/x86_64"), (str(elsewhere), elsewhere), ("", self.prefix / "lib")):
            self.has_loader(knows=place)
            self.log.write_text("")
            said, lines = self.installed(self.prefix, LIBDIR=libdir)
            with self.subTest(libdir):
                names = ("libsandpile.so.1", "libsandpile.so", "libsandpile.a", "pkgconfig/sandpile.pc", "cmake/sandpile/sandpile-config.cmake")
                self.assertEqual({str(place / name) for name in names} - said, set())
                self.assertEqual(set(self.folder.rglob("*.pc")), {place / "pkgconfig/sandpile.pc"})
                module = self.prefix / "lib/python3/site-packages/sandpile"
                self.assertEqual((module / "libsandpile.so.1").resolve(), place / "libsandpile.so.1")
                shown = str(place).replace(str(self.prefix), "${prefix}", 1).replace(" ", "\\ ")
                self.assertIn(f"libdir={shown}\n", (place / "pkgconfig/sandpile.pc").read_text())
                self.assertIn(f"{place}/pkgconfig", "".join(lines))
                self.installed("--uninstall", self.prefix)
                self.assertEqual(self.noted()[-2:], ["ldconfig"] * 2)
                self.assertEqual((list(self.prefix.iterdir()), elsewhere.exists()), ([], False))
                self.installed(self.prefix, LIBDIR="lib/older")  # which goes with the next install

    @needs("cc", "pkg-config")
    def test_a_program_links_with_the_static_library_alone(self):
        self.installed(self.prefix)
        flags = ran("pkg-config", "--static", "--cflags", "--libs", self.prefix / "lib/pkgconfig/sandpile.pc").split()
        shared = flags.index("-lsandpile")
        ways = {"all": ["-static", *flags], "one": [*flags[:shared], "-l:libsandpile.a", *flags[shared + 1 :]]}
        for name, words in ways.items():
            ran("cc", TOP / "examples" / "settle.c", *words, "-o", self.folder / name, env={"PATH": "/usr/bin:/bin"})
        shutil.rmtree(self.prefix)
        for name in ways:
            self.assertIn("8193 wide: ", ran(self.folder / name))

    @needs("cc", "cmake", "make")
    def test_cmake_finds_the_library(self):
        project = self.folder / "a project"
        project.mkdir()
        shutil.copy2(TOP / "examples" / "settle.c", project)
        for libdir in ("lib", str(self.folder / "else where" / "lib")):
            self.installed(self.prefix, LIBDIR=libdir)
            folder = self.prefix / libdir / "cmake/sandpile"
            with self.subTest(libdir):
                (project / "CMakeLists.txt").write_text(in_cmake("1.0"))
                words = ["cmake", "-S", project, "-B", project / "built", f"-Dsandpile_DIR={folder}"]
                ran(*([*words[:-1], f"-DCMAKE_PREFIX_PATH={self.prefix}"] if libdir == "lib" else words))
                ran("cmake", "--build", project / "built")
                for name in ("shared", "alone"):
                    self.assertIn("8193 wide: ", ran(project / "built" / name))
                shutil.rmtree(project / "built")
                for version in ("0.9", "1.1", "2.0"):
                    (project / "CMakeLists.txt").write_text(in_cmake(version))
                    with self.assertRaises(AssertionError) as caught:
                        ran(*words)
                    self.assertIn("sandpile-config.cmake, version: 1.0.0", str(caught.exception))
                    shutil.rmtree(project / "built")

    @needs_module("venv")
    def test_an_active_environment_has_the_module(self):
        environment = self.folder / "an environment"
        ran(sys.executable, "-m", "venv", "--without-pip", environment)
        _, lines = self.installed(self.prefix, VIRTUAL_ENV=str(environment))
        self.assertNotIn("PYTHONPATH", "".join(lines))
        find = "import importlib.util as util; print(util.find_spec('sandpile').origin)"
        found = Path(ran(environment / "bin/python", "-c", find, cwd=self.folder, env=self.env).rstrip("\n"))
        self.assertTrue(found.is_relative_to(environment), found)
        library = found.with_name("libsandpile.so.1").resolve()
        self.assertEqual(library, self.prefix / "lib/libsandpile.so.1")
        self.installed(self.prefix)
        self.assertTrue(found.exists())
        self.installed("--uninstall", self.prefix)
        self.assertFalse(found.parent.exists())

    def test_the_loader_is_told_where_that_is_allowed(self):
        known, unknown = self.prefix / "lib", self.folder / "elsewhere"
        cases = [(known, 0, True, "PATH"), (known, 1, True, "run as root: ldconfig"), (unknown, 0, False, "LD_LIBRARY_PATH")]
        for knows, status, is_told, line in cases:
            with self.subTest(knows=knows, status=status):
                self.has_loader(knows, status)
                self.log.write_text("")
                _, lines = self.installed(self.prefix)
                self.assertEqual("ldconfig" in self.noted(), is_told)
                self.assertTrue(any(line in it for it in lines), lines)
                self.assertEqual("LD_LIBRARY_PATH" in "".join(lines), not is_told)

    def test_help_and_misuse(self):
        misuse = (["--no"], ["a", "b"], [""], ["--uninstall", ""], ["--uninstall", "a", "b"], ["a\nb"])
        for words, status in ((["--help"], 0), (["-h"], 0), *((words, 2) for words in misuse)):
            with self.subTest(words):
                how = {"cwd": self.prefix, "env": self.env, "capture_output": True, "text": True}
                ended = subprocess.run([self.top / "install", *words], **how)
                self.assertEqual((ended.returncode, bool(ended.stdout), bool(ended.stderr)), (status, not status, bool(status)))
        self.assertEqual(list(self.prefix.iterdir()), [])
