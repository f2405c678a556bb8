"""The header and the Python module declare what the sources of sand_c export."""

import ctypes
import types
import unittest

import exports
import numpy as np
from sandpile import _library
from sandpile._dropping import _AVALANCHE
from sandpile.sharing import _HOLDING
from sandpile.waves import WAVE
from tools import TOP

HEADER = (TOP / "include" / "sandpile.h").read_text()
EXPORTED = exports.exported()


def changed(text, *pairs):
    for old, new in pairs:
        assert text.count(old) == 1, old
        text = text.replace(old, new)
    return text


def of_header(text):
    return [*exports.differences("sandpile.h", exports.declared(text), EXPORTED)]


def of_changed_header(*pairs):
    """What is wrong once each first text is replaced by the second one, and was not before."""
    return [said for said in of_header(changed(HEADER, *pairs)) if said not in of_header(HEADER)]


def of_calls(calls):
    found = {f"sandpile_{name}": exports.passed_by(call) for name, call in calls.items()}
    expected = {name: exports.in_ctypes(parts) for name, parts in EXPORTED.items() if name in found}
    return [*exports.differences("_library.py", found, expected)]


def fields(struct):
    """The type, the name and the place of each field."""
    kind = np.dtype(struct)
    return exports.numbered("field", [f"{kind[name]} {name} at {kind.fields[name][1]}" for name in kind.names])


def of_avalanche(struct):
    expected = fields(exports.laid_out(EXPORTED["sandpile_avalanche"]))
    return [*exports.differences("_dropping.py", {"_AVALANCHE": fields(struct)}, {"_AVALANCHE": expected})]


def of_holding(struct):
    expected = exports.laid_out(EXPORTED["sandpile_holding"])
    found = {"size": {"number": str(np.dtype(struct).itemsize)}, "_HOLDING": fields(struct)}
    return [*exports.differences("sharing.py", found, {"size": {"number": str(ctypes.sizeof(expected))}, "_HOLDING": fields(expected)})]


class Header(unittest.TestCase):
    def test_it_declares_what_is_exported(self):
        self.assertEqual(of_header(HEADER), [])

    def test_what_is_wrong_is_named(self):
        numbers, site, lost = "uint64_t seed, uint64_t stream, uint64_t from", "size_t site;", "uint64_t lost;"
        left, seen, other = "uint64_t left;", "uint64_t seen;", "sandpile_pass *other"
        burn, last = "sandpile_burn(size_t width, size_t height, bool cylinder, ", "#endif\n\n#endif"
        for said, *wrong in [
            ("sandpile_sites: parameter 6 is size_t *sites, but uint64_t from", ("uint64_t from, ", "")),
            ("sandpile_sites: parameter 4 is uint32_t seed, but uint64_t seed", (numbers, numbers.replace("64", "32"))),
            ("sandpile_avalanche: field 1 is uint64_t lost, but size_t site", (site, "?"), (lost, site), ("?", lost)),
            ("sandpile_avalanche: field 4 is uint16_t reach, but uint32_t reach", ("uint32_t reach", "uint16_t reach")),
            ("sandpile_holding: field 1 is uint64_t seen, but uint64_t left", (left, "?"), (seen, left), ("?", seen)),
            ("sandpile_burn: parameter 4 is uint64_t *heights, but const uint64_t *heights", (f"{burn}const ", burn)),
            (f"sandpile_pass_join: parameter 2 is sandpile_drive *other, but {other}", (other, "sandpile_drive *other")),
            ("sandpile_version: result is size_t, but uint32_t", ("uint32_t sandpile_version", "size_t sandpile_version")),
            ("SANDPILE_FULL: number is 9, but 6", ("SANDPILE_FULL = 6", "SANDPILE_FULL = 9")),
            ("sandpile_free is not", (last, f"void sandpile_free(void *pile);\n{last}")),
        ]:
            with self.subTest(said):
                self.assertEqual(of_changed_header(*wrong), [f"sandpile.h: {said} in the sources"])

    def test_a_missing_call_is_named(self):
        missing = ("uint32_t sandpile_version(void);", "")
        self.assertEqual(of_changed_header(missing), ["sandpile.h: sandpile_version is missing"])

    def test_what_c_passes(self):
        for parameter, declarations in [
            ("alloc: Global", []),
            ("n: u64", ["uint64_t n"]),
            ("sites: &[usize]", ["const size_t *sites", "size_t sites_length"]),
            ("drive: &mut SandpileDrive", ["sandpile_drive *drive"]),
            ("at: &mut *mut u8", ["void **at"]),
            ("from: *const u64", ["const uint64_t *from"]),
        ]:
            self.assertEqual(exports.passed_in_c(parameter), declarations)


class Module(unittest.TestCase):
    def test_ctypes_passes_what_is_exported(self):
        calls = {name: getattr(_library.library, f"sandpile_{name}") for name in _library._TAKES}
        self.assertEqual(of_calls(calls), [])

    def test_a_wrong_row_is_named(self):
        number, sites, multiple = ctypes.c_uint64.__name__, [*_library._TAKES["sites"]], [*_library._TAKES["multiple"]]
        for name, row, said in [
            ("sites", sites[:5] + sites[6:], f"parameter 6 is c_void_p, but {number}"),
            ("multiple", [*multiple[:5], ctypes.c_uint8], f"parameter 6 is c_ubyte, but {number}"),
        ]:
            wrong = types.SimpleNamespace(restype=ctypes.c_uint32, argtypes=row)
            self.assertEqual(of_calls({name: wrong}), [f"_library.py: sandpile_{name}: {said} in the sources"])

    def test_an_avalanche_is_laid_out_as_in_c(self):
        self.assertEqual(of_avalanche(_AVALANCHE), [])

    def test_a_wave_is_laid_out_as_in_c(self):
        without_sign = [(name, f"u{WAVE[name].itemsize}") for name in WAVE.names]
        self.assertEqual(fields(without_sign), fields(exports.laid_out(EXPORTED["sandpile_wave"])))

    def test_a_holding_is_laid_out_as_in_c(self):
        self.assertEqual(of_holding(_HOLDING), [])
        self.assertEqual(
            of_holding([(name, _HOLDING[name]) for name in _HOLDING.names]),  # without its padding
            ["sharing.py: size: number is 28, but 32 in the sources"],
        )

    def test_a_wrong_field_is_named(self):
        kinds = [(name, _AVALANCHE[name]) for name in _AVALANCHE.names]
        exchanged = [kinds[-1], *kinds[1:-1], kinds[0]]
        said = "_dropping.py: _AVALANCHE: field 1 is uint64 lost at 0, but uint64 site at 0 in the sources"
        self.assertEqual(of_avalanche(exchanged), [said])
