"""Which library is loaded, and which are refused."""

import os
import shutil
import subprocess
import unittest
from unittest import mock

import processor
import sandpile
from sandpile import _library, _processor
from tools import LIBRARY, needs, new_folder, ran

NAMES = {f"sandpile_{name}" for name in _library._TAKES}
# What the x86-64 psABI asks of each kind of processor, by the kernel's names.
OLDEST = "cx16 lahf_lm pni popcnt sse4_1 sse4_2 ssse3".split()
KINDS = {"x86-64-v2": OLDEST, "x86-64-v3": [*OLDEST, *"abm avx avx2 bmi1 bmi2 f16c fma movbe xsave".split()]}


class Loaded(unittest.TestCase):
    def loaded(self, name):
        with mock.patch.dict(os.environ, LIBSANDPILE=str(name)):
            return _library._load()

    def made(self, version, names):
        """A library with this version and these calls."""
        folder = new_folder(self)
        calls = "".join(f"unsigned {name}(void) {{ return {version}; }}\n" for name in names)
        (folder / "made.c").write_text(calls)
        ran("cc", "-shared", "-fPIC", folder / "made.c", "-o", folder / "made.so")
        return folder / "made.so"

    def lacking(self, told, kind, name, missing):
        """Loads a library on a processor that has what this kind must have, but not these."""
        has = [flag for flag in ("fpu", "sse", "sse2", "syscall", "nx", "lm", *KINDS[kind]) if flag not in missing]
        told.write_text(f"processor\t: 0\nmodel name\t: \u00ae\nflags\t\t: {' '.join(has)}\nflags\t\t: fpu\n", "utf-8")
        if missing:
            with self.assertRaisesRegex(ImportError, f"needs a processor of {kind}, but .* lacks {', '.join(missing)} "):
                self.loaded(name)
        else:
            self.loaded(name)

    def test_an_old_processor_is_refused(self):
        told = new_folder(self) / "cpuinfo"
        libraries = {"x86-64-v3" if hasattr(_library.library, "sandpile_x86_64_v3") else "x86-64-v2": ""}
        if shutil.which("cc"):
            libraries = {"x86-64-v2": self.made(10000, NAMES), "x86-64-v3": self.made(10000, {*NAMES, "sandpile_x86_64_v3"})}
        with mock.patch.dict(_processor.lacking.__globals__, _TOLD=told):
            for kind, name in libraries.items():
                for missing in ([], ["sse4_2"], ["popcnt", "ssse3"], *([["avx2"], ["abm", "movbe"]] if kind == "x86-64-v3" else [])):
                    self.lacking(told, kind, name, missing)
                for text in ("", "Features\t: fp asimd\n"):  # of another kind of processor: the loader says so
                    told.write_text(text)
                    self.loaded(name)
                told.unlink()
                self.loaded(name)

    def test_a_library_that_the_loader_finds_too_new(self):
        told, refused = new_folder(self) / "cpuinfo", OSError("x: CPU ISA level is lower than required")
        with mock.patch.dict(_processor.lacking.__globals__, _TOLD=told), mock.patch("ctypes.CDLL", side_effect=refused):
            for text, words in (("sse4_2", "x86-64-v3, but .* lacks cx16, .*fma"), (" ".join(KINDS["x86-64-v3"]), "cannot be loaded")):
                told.write_text(f"flags\t\t: {text}\n")
                with self.assertRaisesRegex(ImportError, words):
                    self.loaded("x")

    @needs("cc", "qemu-x86_64")
    def test_the_loader_refuses_what_needs_a_newer_processor(self):
        folder = new_folder(self)
        (folder / "needs").write_bytes(processor.NEEDS_NEWER)
        (folder / "note.s").write_text('.section .note.gnu.property,"a",@note\n.balign 8\n.incbin "needs"\n')
        (folder / "main.c").write_text("int two(void);\nint main(void) { return two() - 2; }\n")
        (folder / "two.c").write_text("int two(void) { return 2; }\n")
        ran("cc", "-shared", "-fPIC", "two.c", "note.s", "-o", "libtwo.so", cwd=folder)
        ran("cc", "main.c", "-L.", "-ltwo", f"-Wl,-rpath,{folder}", "-o", "main", cwd=folder)
        for kind, status in (("SandyBridge", 127), ("Haswell", 0)):
            done = subprocess.run(["qemu-x86_64", "-cpu", kind, folder / "main"], capture_output=True, text=True)
            self.assertEqual((done.returncode, "CPU ISA level" in done.stderr), (status, status != 0), done.stderr)

    @needs("readelf")
    def test_the_built_libraries_say_what_they_need(self):
        is_newer = hasattr(_library.library, "sandpile_x86_64_v3")
        for name in ("libsandpile.so.1", "libsandpile.a"):
            with self.subTest(name):
                self.assertEqual("x86-64-v3" in ran("readelf", "--notes", "--wide", LIBRARY / name), is_newer)

    def test_the_newest_kind(self):
        told = new_folder(self) / "cpuinfo"
        with mock.patch.dict(_processor.lacking.__globals__, _TOLD=told):
            for text, kind in (
                (" ".join(KINDS["x86-64-v3"]), "x86-64-v3"), (" ".join(KINDS["x86-64-v2"]), "x86-64-v2"), ("", "x86-64-v2"),
                (" ".join(KINDS["x86-64-v3"]).replace("fma ", ""), "x86-64-v2"),
            ):
                told.write_text(f"flags\t\t: {text}\n")
                self.assertEqual(_processor.newest(), kind)
            told.unlink()
            self.assertEqual(_processor.newest(), "x86-64-v2")

    def test_an_empty_name_is_not_set(self):
        self.assertEqual(self.loaded("")._name, self.loaded(_library.library._name)._name)

    def test_another_library(self):
        for name in ("libc.so.6", os.devnull, "libnone.so"):
            with self.subTest(name=name), self.assertRaisesRegex(ImportError, name):
                self.loaded(name)

    @needs("cc")
    def test_another_version(self):
        for version, calls in [(20000, {"sandpile_version"}), (900, NAMES)]:
            with self.subTest(version=version), self.assertRaisesRegex(ImportError, f"version {version // 10000}.x, but"):
                self.loaded(self.made(version, calls))

    @needs("cc")
    def test_an_older_library_that_lacks_a_call(self):
        self.loaded(self.made(10000, NAMES))
        for name in NAMES:
            with self.subTest(name=name), self.assertRaisesRegex(ImportError, f"older than this module.*{name}"):
                self.loaded(self.made(10000, NAMES - {name}))
