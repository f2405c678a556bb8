"""The wheel: what is in it, and that pip installs and removes it without a network, a toolchain or a checkout."""

import base64
import csv
import email
import hashlib
import io
import os
import re
import shutil
import stat
import subprocess
import sys
import tempfile
import unittest
import zipfile
from pathlib import Path

import sandpile
from paths import STATIC
from sandpile import _library
from tools import LIBRARY, PROGRAM, TOP, files_in, needs, needs_module, new_folder, ran, release_in

SHARED = LIBRARY / "libsandpile.so.1"
NAME = f"sandpile-{sandpile.__version__}"
NUMBER = sum(int(part) * scale for part, scale in zip(sandpile.__version__.split("."), (10000, 100, 1)))
# What earlier builds and other programs left in python/.
LEFT = ["build/lib/sandpile/gone.py", "build/lib/sandpile/libsandpile.so.1", "sandpile.egg-info/SOURCES.txt"]
LEFT += ["sandpile/__pycache__/gone.pyc", "sandpile/gone.so", "sandpile/notes.txt"]
# The files of `sandpile.play`.
PAGE = [path.name for path in (TOP / "python" / "sandpile" / "page").iterdir()]

TRIED = """
import sandpile
from sandpile import _library
print(sandpile.settle([[0, 4, 0]]).topplings, sandpile.lab([[0]], drops=3, epochs=2).odometer, _library.library._name)
"""


def new_checkout(folder):
    """A copy of what a wheel is packed from, with what others left there."""
    assert PROGRAM.exists(), "the program is not built: run ./build first"
    top = folder / "a checkout"
    for name in ("tools", "include", "python"):
        shutil.copytree(TOP / name, top / name, ignore=shutil.ignore_patterns("tests", "__pycache__", "build", "*.egg-info"))
    shutil.copy2(TOP / "crates.txt", top)
    for path in filter(Path.exists, (PROGRAM, STATIC, SHARED)):
        copy = top / path.relative_to(TOP)
        copy.parent.mkdir(parents=True, exist_ok=True)
        shutil.copy2(path, copy)
    for name in LEFT:
        (top / "python" / name).parent.mkdir(parents=True, exist_ok=True)
        (top / "python" / name).write_bytes(b"garbage")
    return top


def wheel_of(top, *words):
    """Packs a wheel in a new folder of a checkout, and returns its path."""
    folder = Path(tempfile.mkdtemp(dir=top))
    return folder / ran(sys.executable, top / "tools" / "wheel", *words, folder).rstrip("\n")


class Packed(unittest.TestCase):
    def setUp(self):
        self.top = new_checkout(new_folder(self))

    def test_it_has_what_is_installed_and_nothing_else(self):
        modules = {f"sandpile/{path.name}" for path in (TOP / "python" / "sandpile").glob("*.py")}
        others = {"sandpile/py.typed", "sandpile/libsandpile.so.1"}
        others |= {f"sandpile/page/{name}" for name in PAGE}
        others |= {f"{NAME}.data/scripts/sandpile", f"{NAME}.data/data/share/man/man1/sandpile.1"}
        others |= {f"{NAME}.dist-info/{name}" for name in ("METADATA", "WHEEL", "RECORD")}
        with zipfile.ZipFile(wheel_of(self.top)) as wheel:
            self.assertEqual(sorted(wheel.namelist()), sorted(modules | others))
            self.assertEqual(wheel.read("sandpile/libsandpile.so.1"), SHARED.read_bytes())
            self.assertEqual(wheel.read(f"{NAME}.data/scripts/sandpile"), PROGRAM.read_bytes())
            page = ran(TOP / "tools" / "man-page", PROGRAM)
            self.assertEqual(wheel.read(f"{NAME}.data/data/share/man/man1/sandpile.1").decode(), page)

    def test_each_file_is_recorded(self):
        with zipfile.ZipFile(wheel_of(self.top)) as wheel:
            rows = {name: row for name, *row in csv.reader(io.StringIO(wheel.read(f"{NAME}.dist-info/RECORD").decode()))}
            self.assertEqual(sorted(rows), sorted(wheel.namelist()))
            self.assertEqual(rows.pop(f"{NAME}.dist-info/RECORD"), ["", ""])
            for name, row in rows.items():
                checksum = base64.urlsafe_b64encode(hashlib.sha256(wheel.read(name)).digest()).decode().rstrip("=")
                self.assertEqual(row, [f"sha256={checksum}", str(len(wheel.read(name)))], name)

    def test_all_can_read_it_and_run_the_program(self):
        before = os.umask(0o077)
        self.addCleanup(os.umask, before)
        for path in self.top.rglob("*"):
            path.chmod(0o700)
        with zipfile.ZipFile(wheel_of(self.top)) as wheel:
            modes = {info.filename: info.external_attr >> 16 for info in wheel.infolist()}
        executable = f"{NAME}.data/scripts/sandpile"
        self.assertEqual(modes, {name: stat.S_IFREG | (0o755 if name == executable else 0o644) for name in modes})

    def test_two_wheels_of_the_same_files_are_the_same(self):
        first = wheel_of(self.top)
        for path in self.top.rglob("*"):
            os.utime(path, (2e9, 2e9))
        self.assertEqual(wheel_of(self.top).read_bytes(), first.read_bytes())
        with zipfile.ZipFile(first) as wheel:  # (two wheels may be packed in one second)
            self.assertEqual({info.date_time for info in wheel.infolist()}, {(1980, 1, 1, 0, 0, 0)})

    def test_what_it_says_of_itself(self):
        with zipfile.ZipFile(wheel_of(self.top)) as wheel:
            metadata, about = (
                email.message_from_bytes(wheel.read(f"{NAME}.dist-info/{name}")) for name in ("METADATA", "WHEEL")
            )
        self.assertEqual((metadata["Name"], metadata["Version"]), ("sandpile", sandpile.__version__))
        self.assertEqual(metadata.get_payload(), (TOP / "python" / "README.md").read_text())
        self.assertEqual((about["Wheel-Version"], about["Root-Is-Purelib"]), ("1.0", "false"))
        needs = [need.partition("; ")[::2] for need in metadata.get_all("Requires-Dist")]
        extras = [(need, extra.split("'")[1]) for need, extra in needs if extra]
        self.assertEqual([need for need, extra in needs if not extra], ["numpy>=1.21"])
        self.assertEqual(extras, [("tqdm", "progress"), ("matplotlib>=3.4", "show")])
        self.assertEqual(metadata.get_all("Provides-Extra"), [extra for _, extra in extras])

    @needs("objdump")
    def test_its_name_says_which_glibc_it_needs(self):
        symbols = "".join(ran("objdump", "-T", path) for path in (PROGRAM, SHARED))
        newest = max(int(minor) for minor in re.findall(r"\bGLIBC_2\.(\d+)", symbols))
        self.assertEqual(self.platform(), "manylinux2014_x86_64" if newest <= 17 else f"manylinux_2_{newest}_x86_64")

    @unittest.skipUnless(STATIC.exists(), "rt ci has kept the program, but not what it was linked from")
    @needs("objdump")
    def test_the_program_runs_on_older_systems(self):
        self.assertNotIn("NEEDED", ran("objdump", "-p", STATIC))
        self.assertEqual(self.platform("--static"), "manylinux2014_x86_64")
        words = ["lab", "--seed=7", "--droppers=4", "--drops=1000", "--workers=2", "--sweeps=9", "--observers=1"]
        theirs, ours = (ran(path, *words, input="3 2  9 0 0 0 0 4") for path in (PROGRAM, STATIC))
        self.assertEqual(ours, theirs)

    def test_a_newer_glibc_than_before(self):
        before = self.platform()
        for product in (PROGRAM, SHARED):
            for version, platform in [("2.5", before), ("2.3.4", before), ("2.999", "manylinux_2_999_x86_64")]:
                with self.subTest(product=product.name, version=version):
                    self.needs_glibc(product, version)
                    self.assertEqual(self.platform(), platform)
            shutil.copy2(product, self.top / product.relative_to(TOP))

    def test_what_no_name_of_a_wheel_says_is_refused(self):
        for version in ("PRIVATE", "ABI_DT_RELR", "3.0"):
            self.needs_glibc(PROGRAM, version)
            self.is_refused(f"sandpile needs GLIBC_{version}, which the name of a wheel cannot say")

    def needs_glibc(self, product, version):
        """Appends to a product, which works as before, the name of a version of glibc."""
        (self.top / product.relative_to(TOP)).write_bytes(product.read_bytes() + f"\0GLIBC_{version}\0".encode())

    def platform(self, *words):
        """The platform that a wheel names twice."""
        path = wheel_of(self.top, *words)
        with zipfile.ZipFile(path) as wheel:
            tag = re.search(r"^Tag: (.*)$", wheel.read(f"{NAME}.dist-info/WHEEL").decode(), re.M)[1]
        self.assertEqual(path.name, f"{NAME}-{tag}.whl")
        return tag.removeprefix("py3-none-")

    def is_refused(self, sentence):
        folder = new_folder(self)
        ended = subprocess.run([sys.executable, self.top / "tools/wheel", folder], capture_output=True, text=True)
        self.assertEqual((ended.returncode, ended.stdout, list(folder.iterdir())), (1, "", []))
        self.assertTrue(ended.stderr.startswith("wheel: "), ended.stderr)
        self.assertIn(sentence, ended.stderr)

    def has_library(self, version, names, more=""):
        """Puts a library with this version, these calls and more in the place of the one built."""
        source, library = self.top / "made.c", self.top / SHARED.relative_to(TOP)
        calls = "".join(f"unsigned {name}(void) {{ return {version}; }}\n" for name in names)
        source.write_text(f"unsigned other(void);\n{calls}{more}")
        library.unlink()
        ran("cc", "-shared", "-fPIC", source, "-o", library)

    def test_what_is_not_built_or_does_not_load_is_refused(self):
        library = self.top / SHARED.relative_to(TOP)
        library.write_bytes(b"garbage")
        self.is_refused("does not load")
        library.unlink()
        self.is_refused("is not built: run ./build library first")

    @needs("cc")
    def test_a_library_that_lacks_something_is_refused(self):
        names = {f"sandpile_{name}" for name in _library._TAKES}
        self.has_library(NUMBER, names - {"sandpile_burn"})
        self.is_refused("undefined symbol: sandpile_burn")
        self.has_library(NUMBER, names, "unsigned calls(void) { return other(); }\n")
        self.is_refused("undefined symbol: other")

    @needs("cc")
    def test_another_version_is_refused(self):
        self.has_library(90203, ["sandpile_version"])
        self.is_refused(f"libsandpile.so.1 has version 9.2.3, but the module has version {sandpile.__version__}")
        shutil.copy2(SHARED, self.top / SHARED.relative_to(TOP))
        (self.top / PROGRAM.relative_to(TOP)).write_text("#!/bin/sh\necho 'sandpile 9.2.3, logic 13'\n")
        self.is_refused(f"{PROGRAM.name} has version 9.2.3, but the module has version {sandpile.__version__}")

    def test_without_the_program_an_older_glibc_is_enough(self):
        (self.top / PROGRAM.relative_to(TOP)).unlink()
        self.assertEqual(self.platform(), "manylinux2014_x86_64")
        with zipfile.ZipFile(wheel_of(self.top)) as wheel:
            self.assertEqual([name for name in wheel.namelist() if ".data/" in name], [])

    def test_help_and_misuse(self):
        for words, status in ((["--help"], 0), ([], 2), ([""], 2), (["--no"], 2), (["--editable"], 2), (["a", "b"], 2)):
            with self.subTest(words):
                ended = subprocess.run([self.top / "tools/wheel", *words], cwd=self.top, capture_output=True, text=True)
                said = (bool(ended.stdout), bool(ended.stderr))
                self.assertEqual((ended.returncode, said), (status, (not status, bool(status))))


@needs_module("venv", "pip")
class Installed(unittest.TestCase):
    """By pip, in a virtual environment that is empty but for the system's packages."""

    @classmethod
    def setUpClass(cls):
        folder = tempfile.TemporaryDirectory()
        cls.addClassCleanup(folder.cleanup)
        cls.home = Path(folder.name)
        cls.env = {"PATH": "/usr/bin:/bin", "HOME": folder.name, "PIP_DISABLE_PIP_VERSION_CHECK": "1", "PIP_NO_INDEX": "1"}
        checkout = new_checkout(cls.home)
        cls.wheel = shutil.move(wheel_of(checkout), cls.home)
        shutil.rmtree(checkout)
        cls.python = cls.environment(cls.home)
        cls.pip(cls.python, "install", cls.wheel)

    @classmethod
    def environment(cls, folder):
        """The Python of a new environment."""
        ran(sys.executable, "-m", "venv", "--system-site-packages", "--without-pip", folder / "an environment")
        python = folder / "an environment" / "bin" / "python"
        if subprocess.run([python, "-c", "import numpy, pip"], env=cls.env, capture_output=True).returncode:
            raise unittest.SkipTest("the Python of the system has no NumPy or no pip")
        return python

    @classmethod
    def ran_there(cls, *words, env=None, **how):
        return ran(*words, cwd=cls.home, env=env or cls.env, **how)

    @classmethod
    def pip(cls, python, *words):
        return cls.ran_there(python, "-m", "pip", *words)

    def tried(self, python, **env):
        return self.ran_there(python, "-c", TRIED, env={**self.env, **env}).rstrip("\n")

    def test_the_module_finds_its_library_and_the_program(self):
        modules = self.ran_there(self.python, "-c", "import sysconfig; print(sysconfig.get_path('platlib'))").rstrip("\n")
        self.assertEqual(self.tried(self.python), f"1 [[3]] {modules}/sandpile/libsandpile.so.1")

    def test_the_program_runs(self):
        said = self.ran_there(self.python.with_name("sandpile"), "settle", input="3 1\n0 4 0\n")
        self.assertEqual(said, "3 1\n1 0 1\nodometer\n0 1 0\nlost 2\ntopplings 1\n")

    @needs("man")
    def test_the_page_is_found(self):
        prefix = self.python.parents[1]
        for name, value in [("MANPATH", f"{prefix}/share/man"), ("PATH", f"{prefix}/bin:{self.env['PATH']}")]:
            with self.subTest(name):
                said = self.ran_there("man", "-P", "cat", "sandpile", env={**self.env, name: value})
                self.assertIn("settle abelian sandpiles", said)

    def test_no_file_is_left_of_it(self):
        python = self.environment(new_folder(self))
        before = files_in(python.parents[1])
        self.pip(python, "install", self.wheel)
        self.tried(python)
        self.assertGreater(files_in(python.parents[1]).keys(), before.keys())
        self.pip(python, "uninstall", "--yes", "sandpile")
        self.assertEqual(files_in(python.parents[1]), before)

    def test_in_a_folder(self):
        folder = new_folder(self)
        self.pip(self.python, "install", "--no-deps", "--target", folder, self.wheel)
        self.assertEqual(self.tried(sys.executable, PYTHONPATH=str(folder)), f"1 [[3]] {folder}/sandpile/libsandpile.so.1")

    def test_from_the_checkout(self):
        top, python = new_checkout(new_folder(self)), self.environment(new_folder(self))
        for words, place in ([], f"{python.parents[1]}/lib.*"), (["--editable"], f"{top}/crates/sand_c/out"):
            with self.subTest(words):
                self.pip(python, "install", *words, top / "python")
                self.assertRegex(self.tried(python), rf"^1 \[\[3\]\] {place}/libsandpile.so.1$")

    def test_from_a_checkout_with_the_released_wheel(self):
        top, python = new_checkout(new_folder(self)), self.environment(new_folder(self))
        release_in(top)
        self.pip(python, "install", top / "python")
        self.assertRegex(self.tried(python), rf"^1 \[\[3\]\] {python.parents[1]}/lib.*/libsandpile.so.1$")
        self.assertEqual(self.ran_there(python.with_name("sandpile"), "identity", "--width=1", "--height=1"), "1 1\n0\n")

    def test_there_is_no_source_distribution(self):
        words = [sys.executable, "-B", "-c", "import backend; backend.build_sdist('.')"]
        ended = subprocess.run(words, cwd=TOP / "python" / "for-pip", env=self.env, capture_output=True, text=True)
        self.assertEqual(ended.returncode, 1)
        self.assertRegex(ended.stderr, r"^there is no source distribution, .*: \./build wheel makes a wheel\n$")

    def test_a_copy_of_the_folder_alone_says_what_to_do(self):
        copy = shutil.copytree(TOP / "python", new_folder(self) / "python", ignore=shutil.ignore_patterns("tests"))
        with self.assertRaises(AssertionError) as caught:
            self.pip(self.python, "install", copy)
        self.assertIn("./build wheel makes a wheel", str(caught.exception))
