"""What the sources of sand_c export, as C declares it, and where include/sandpile.h and the Python module differ from that.

In C a `Global` is nothing, a slice is a pointer and a length, a reference is a pointer, and a raw pointer to bytes is a `void *`.
"""

from __future__ import annotations

import ctypes
import re
from collections.abc import Iterator
from typing import Any

from paths import TOP
from sources import SourceFile

# What each name has: a call its result and parameters, a struct its fields, a fault its number.
Declarations = dict[str, dict[str, str]]

IN_C = {f"{sign or 'i'}{bits}": f"{sign}int{bits}_t" for sign in ("u", "") for bits in (8, 16, 32, 64)}
IN_C |= {"usize": "size_t", "bool": "bool", "f32": "float", "f64": "double"}
STRUCT = re.compile(r"^#\[repr\(C\)\]\n(?:(?:#\[|//).*\n)*pub struct (\w+) \{\n([\s\S]*?)^\}", re.M)
RENAMED = re.compile(r"^pub use \w+::(\w+) as (\w+);$", re.M)
FIELD = re.compile(r"^    (?:pub(?:\([^)]*\))? )?(\w+): (.+),$", re.M)


def numbered(part: str, texts: list[str]) -> dict[str, str]:
    """`{"field 1": .., "field 2": ..}`."""
    return {f"{part} {place}": text for place, text in enumerate(texts, 1)}


def calls(declarations: Declarations) -> set[str]:
    return {name for name, its in declarations.items() if "result" in its}


# From the sources.

def snake(name: str) -> str:
    """`sandpile_avalanche` for `SandpileAvalanche`."""
    return re.sub(r"(?<=[a-z])(?=[A-Z])", "_", name).lower()


def in_c(rust: str, name: str) -> str:
    """The declaration of a name that has this type."""
    pointer = re.fullmatch(r"([&*])(mut |const |)(.+)", rust)
    if not pointer:
        return f"{IN_C.get(rust) or snake(rust)} {name}"
    const, to = "" if pointer[2] == "mut " else "const ", pointer[3]
    if to[0] in "&*":
        return in_c(to, f"{const}*{name}")
    return f"{const}void *{name}" if (pointer[1], to) == ("*", "u8") else const + in_c(to, f"*{name}")


def passed_in_c(parameter: str) -> list[str]:
    """The declarations of what C passes for a parameter such as `heights: &mut [u64]`."""
    name, _, rust = parameter.strip().partition(": ")
    if array := re.fullmatch(r"(&(?:mut )?)\[(.+)\]", rust):
        return [in_c(array[1] + array[2], name), f"size_t {name}_length"]
    return [in_c(rust, name)] if rust not in ("", "Global") else []


def exported() -> Declarations:
    """What the sources export."""
    found: Declarations = {}
    lower = dict(it for file in sorted(TOP.glob("crates/*/src/**/*.rt")) for it in STRUCT.findall(file.read_text()))
    for file in map(SourceFile, sorted(TOP.glob("crates/sand_c/src/**/*.rt"))):
        for it in file.calls():
            if call := re.search(r'extern "C" fn \w+\(([^()]*)\)(?: -> (\w+))?', it.code):
                takes = [c for parameter in call[1].split(",") for c in passed_in_c(parameter)]
                found[it.name] = {"result": in_c(call[2] or "void", "").strip(), **numbered("parameter", takes)}
        renamed = [(name, lower[struct]) for struct, name in RENAMED.findall(file.text)]
        for name, body in STRUCT.findall(file.text) + renamed:
            found[snake(name)] = numbered("field", [in_c(rust, field) for field, rust in FIELD.findall(body)])
        # No call returns Shapes: the piles of a call have one shape.
        faults = re.findall(r"^ +Fault::(?!Shapes\b)(\w+) => (\d+),$", file.text, re.M)
        found |= {f"SANDPILE_{snake(name).upper()}": {"number": number} for name, number in faults}
    return found


# From the header.

def declared(header: str) -> Declarations:
    """What a header declares."""
    code = re.sub(r"/\*[\s\S]*?\*/|//.*|^#.*", "", header, flags=re.M)

    def split(text: str, end: str) -> list[str]:
        return [" ".join(one.split()) for one in text.split(end) if one.strip() not in ("", "void")]

    found: Declarations = {}
    for result, name, takes in re.findall(r"^(\w[\w ]*[ *]+)(\w+)\(([^()]*)\);", code, re.M):
        found[name] = {"result": result.strip(), **numbered("parameter", split(takes, ","))}
    for body, name in re.findall(r"^typedef struct \w+ \{([^}]*)\} (\w+);", code, re.M):
        found[name] = numbered("field", split(body, ";"))
    return found | {name: {"number": number} for name, number in re.findall(r"^ +(\w+) = (\d+)\b", code, re.M)}


# For ctypes.

def ctype(declaration: str) -> Any:
    """The type of a declaration."""
    if "*" in declaration:
        return ctypes.c_void_p
    name = declaration.split()[0]
    return None if name == "void" else getattr(ctypes, f"c_{name if name == 'size_t' else name.removesuffix('_t')}")


def spelled(kind: Any) -> str:
    return kind.__name__ if kind else "nothing"


def passed_by(call: Any) -> dict[str, str]:
    """What a call of a library that ctypes has loaded is given, and what it returns."""
    return {"result": spelled(call.restype), **numbered("parameter", [spelled(kind) for kind in call.argtypes])}


def in_ctypes(parts: dict[str, str]) -> dict[str, str]:
    """The same, for a call as C declares it."""
    return {part: spelled(ctype(text)) for part, text in parts.items()}


def laid_out(parts: dict[str, str]) -> type[ctypes.Structure]:
    """A struct with these fields, as C lays it out."""
    fields = [(re.findall(r"\w+", text)[-1], ctype(text)) for text in parts.values()]
    return type("Struct", (ctypes.Structure,), {"_fields_": fields})


# The comparison.

def differences(where: str, found: Declarations, expected: Declarations) -> Iterator[str]:
    """What is wrong with each declaration, in words: the first part that differs."""
    for name in sorted({*found, *expected}):
        if name not in found or name not in expected:
            yield f"{where}: {name} is {'missing' if name in expected else 'not in the sources'}"
            continue
        here, there = found[name], expected[name]
        for part in {**there, **here}:
            if here.get(part) != there.get(part):
                yield f"{where}: {name}: {part} is {here.get(part, 'missing')}, but {there.get(part, 'missing')} in the sources"
                break
