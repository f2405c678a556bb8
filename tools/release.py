"""The release: release/SHA256SUMS has the checksums of the program, the library and the wheel, and of the notes of what they are made
from, and the kit that proved them. Whoever proves the same sources with that kit gets the same bytes. The released wheel, in dist/,
has both products; they are used where neither is built."""

from __future__ import annotations

import contextlib
import hashlib
import os
import re
import signal
import sys
import time
import zipfile
from collections.abc import Iterator
from pathlib import Path
from typing import NamedTuple, NoReturn

import paths
import processor
import products
import running
from paths import TOP
from products import LIBRARY, PROGRAM

SUMS = TOP / "release" / "SHA256SUMS"
DIST = TOP / "dist"
LINE = re.compile(r"([0-9a-f]{64})  (.+)")
PROVED_BY = "# proved by "
WHERE = {PROGRAM: re.compile(r".*\.data/scripts/sandpile"), LIBRARY: re.compile(rf"sandpile/{re.escape(paths.LIBRARY.name)}")}
# What a wheel is packed from, apart from the program and the library.
MODULE = (
    *(f"python/sandpile/{name}" for name in ("*.py", "py.typed", "page/*.html", "page/*.css", "page/*.js")), "python/README.md",
    "python/for-pip/METADATA.in",
)
PACKED = (*MODULE, "tools/wheel", "tools/man-page")


class Release(NamedTuple):
    kit: str  # the toolchain's line
    sums: dict[str, str]  # by path

    def has(self, path: Path, content: bytes) -> bool:
        return self.sums.get(str(path.relative_to(TOP))) == checksum(content)


def released() -> Release:
    lines = products.read(SUMS).splitlines()
    kit = next((line.removeprefix(PROVED_BY) for line in lines if line.startswith(PROVED_BY)), "")
    return Release(f"{kit}\n", {found[2]: found[1] for found in map(LINE.fullmatch, lines) if found})


def checksum(content: bytes) -> str:
    return hashlib.sha256(content).hexdigest()


def sources_of_wheel() -> str:
    """What a wheel is made from."""
    files = sorted(path for name in PACKED for path in TOP.glob(name))
    own = "".join(f"{checksum(path.read_bytes())}  {path.relative_to(TOP)}\n" for path in files)
    return products.sources(PROGRAM) + products.sources(LIBRARY) + own


def compared(product: Path) -> tuple[int, str]:
    """Compares what was built with the release: an exit status, which is 1 only if sources and kit are those of the release, but
    not the bytes; and a sentence."""
    name, release = product.relative_to(TOP), released()
    made_from, made_by = product.with_name(products.MADE_FROM), product.with_name(products.MADE_BY)
    if not release.has(made_from, made_from.read_bytes()):
        return 0, f"{name} is made from other sources than those of release/SHA256SUMS"
    kit, by = release.kit.strip(), made_by.read_text().strip()
    if by.endswith(f", for {processor.NEWER}"):
        return 0, f"{name} is for {processor.NEWER}; release/SHA256SUMS has the one for {processor.OLDEST}"
    if release.has(product, product.read_bytes()):
        return 0, f"{name} has the same bytes as in release/SHA256SUMS: this machine has proved what the release is"
    if by != kit:
        return 0, f"{name} has other bytes than in release/SHA256SUMS, which {kit} proved: that kit's compiler may differ"
    return 1, (
        f"{name} has other bytes than in release/SHA256SUMS, which is of the same sources and kit: the file was changed after it "
        f"was built, or one of the two builds went wrong; remove {name.parent}, and build again"
    )


def origin(product: Path) -> str:
    """Whether a product is built in this checkout, when and by which kit, and whether from its sources as they are."""
    name, note = product.relative_to(TOP), product.with_name(products.MADE_FROM)
    if not (product.exists() and note.exists()):
        is_released = product.exists() and released().has(product, product.read_bytes())
        return f"{name}: " + ("the release, not proved on this machine" if is_released else "not built")
    goal = next((goal for goal, file in products.FILES.items() if file == product), None)
    sources = products.sources(goal) if goal else sources_of_wheel()
    when = time.strftime("%Y-%m-%d %H:%M", time.localtime(note.stat().st_mtime))
    kit = product.with_name(products.MADE_BY).read_text().strip()
    changed = "no source has changed since" if note.read_text() == sources else "a source has changed since"
    return f"{name}: proved and built in this checkout by {kit}, {when}; {changed}"


def write() -> None:
    """Brings release/SHA256SUMS up to date with what is built."""
    wheel, = DIST.glob("sandpile-*.whl")
    files = [file for product in (*products.FILES.values(), wheel) for file in (product.with_name(products.MADE_FROM), product)]
    lines = [f"{checksum(file.read_bytes())}  {file.relative_to(TOP)}\n" for file in files]
    SUMS.parent.mkdir(exist_ok=True)
    SUMS.write_text(PROVED_BY + products.toolchain() + "".join(lines))


def wheel_for(goal: str) -> Path | None:
    """The released wheel, if it is in dist/, its program or library is made from the sources of this checkout, and neither is
    built. One with another checksum is refused."""
    release = released()
    wheels = [TOP / name for name in release.sums if name.endswith(".whl") and (TOP / name).exists()]
    made_from = {product: products.out_of(product) / products.MADE_FROM for product in products.FILES}
    is_built = any(note.exists() for note in made_from.values())
    if is_built or not wheels or not release.has(made_from[goal], products.sources(goal).encode()):
        return None
    if not release.has(wheels[0], wheels[0].read_bytes()):
        sys.exit(
            f"{Path(sys.argv[0]).name}: {wheels[0]} has another checksum than in release/SHA256SUMS, so it is not what was "
            "released, and is not used: get it again or, to build from the sources, remove it"
        )
    return wheels[0]


def content(wheel: Path, goal: str) -> bytes:
    """The program or the library in a wheel."""
    with zipfile.ZipFile(wheel) as archive:
        return next(archive.read(name) for name in archive.namelist() if WHERE[goal].fullmatch(name))


def tell(what: str) -> None:
    sys.stderr.write(f"sandpile: the released {what}, made from these sources; not proved on this machine\n")


@contextlib.contextmanager
def files() -> Iterator[tuple[Path, Path]]:
    """The program and the library: as they are built or, if neither is, as they are released, in a temporary folder."""
    wheels = {goal: wheel_for(goal) for goal in products.FILES}
    if not all(wheels.values()):
        yield paths.PROGRAM, paths.LIBRARY
        return
    tell("program and library")
    with running.new_room("sandpile-released-") as room:
        for goal, wheel in wheels.items():
            made = room / products.FILES[goal].name
            made.write_bytes(content(wheel, goal))
            made.chmod(0o755)
        yield room / paths.PROGRAM.name, room / paths.LIBRARY.name


def run(words: list[str]) -> NoReturn:
    """Runs the released program from memory, so that the checkout may be read-only."""
    wheel = wheel_for(PROGRAM)
    if not wheel:
        sys.exit("sandpile: there is no released wheel of these sources in dist/")
    tell("program")
    handle = os.memfd_create("sandpile")
    with open(handle, "wb", closefd=False) as memory:
        memory.write(content(wheel, PROGRAM))
    for number in (signal.SIGPIPE, signal.SIGXFSZ):  # which Python ignores, and the program would, too
        signal.signal(number, signal.SIG_DFL)
    os.execve(handle, ["sandpile", *words], os.environ)


if __name__ == "__main__":
    running.start(run)
