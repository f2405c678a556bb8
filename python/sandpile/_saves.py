"""The file of a saved run: written in one step, whatever stops it, and checked when it is read."""

from __future__ import annotations

import contextlib
import errno
import io
import os
import zipfile
from dataclasses import dataclass, fields
from pathlib import Path
from typing import Any, Iterator, NamedTuple, Optional

import numpy as np
from numpy.lib import format as _format
from numpy.typing import NDArray

from . import _memory
from ._arrays import Heights, count_of, heights_of
from ._limits import MOST_SIDE
from .faults import MEMORY, Fault
from .settling import settle

# A save is shorter than its arrays, and each array in it than this.
_MOST_BYTES = 8 * MOST_SIDE**2 + (1 << 16)
_UNSIGNED = ("seed", "stream")
# NumPy gives them no types.
_read_magic: Any = _format.read_magic
_read_header: Any = _format.read_array_header_1_0
_write_array: Any = _format.write_array


@dataclass(frozen=True)
class Saved:
    """A run, without its last table. The file has an array with the name of each field."""

    pile: Heights
    odometer: Heights
    seed: int
    stream: int
    cylinder: int  # 0 or 1
    start_grains: int
    lost: int
    drops: int
    drawn: int

    def given(self) -> Heights:
        """The grains that each site was given, at the start and by drops: what it has and what it passed on, less what it
        took from its neighbours. Settled, they are the pile, the odometer and the lost grains of the run, whatever the
        order of the drops. With the odometer of no run, this may wrap around; settling then shows it."""
        with _memory.room_for("the grains of a run"):
            given: Heights = self.odometer << 2
            given += self.pile
        given[1:] -= self.odometer[:-1]
        given[:-1] -= self.odometer[1:]
        given[:, 1:] -= self.odometer[:, :-1]
        given[:, :-1] -= self.odometer[:, 1:]
        if self.cylinder:
            given[:, 0] -= self.odometer[:, -1]
            given[:, -1] -= self.odometer[:, 0]
        return given


@contextlib.contextmanager
def naming(path: Path) -> Iterator[None]:
    """Has an error of the system name this file, unless it names one."""
    try:
        yield
    except OSError as error:
        if error.errno is not None and error.filename is None:
            error.filename = str(path)
        raise


class Rows(NamedTuple):
    """What the save of a recording also has: how many rows the file of rows had, and the CRC-32 of these."""

    rows: int
    crc: int


def write(path: str | os.PathLike[str], saved: Saved, rows: Optional[Rows] = None) -> None:
    """Writes a file under another name, then renames it: nobody ever reads a part of it, even after a power cut. With `rows`, that
    name is always the same, so one that a killed process has left is overwritten."""
    path, content = npz(path), io.BytesIO()
    values = {**vars(saved), **(rows._asdict() if rows else {})}
    # Not into the file: if writing to it failed, zipfile would go on, and fail in its `__del__`, too. NumPy's own packing takes
    # several times as long, for little.
    with _memory.room_for("a save"), zipfile.ZipFile(content, "w", zipfile.ZIP_DEFLATED, compresslevel=1) as archive:
        for name, value in values.items():
            with archive.open(f"{name}.npy", "w", force_zip64=True) as member:
                _write_array(member, np.asarray(value, _type_of(name)))
    unique = "" if rows else f".{os.urandom(8).hex()}"
    beside = path.with_name(f"{path.name}{unique}.part")
    try:
        with naming(beside), open(beside, "wb" if rows else "xb") as file:
            file.write(content.getbuffer())
            file.flush()
            os.fsync(file.fileno())
        os.replace(beside, path)
    finally:
        beside.unlink(missing_ok=True)
    sync_folder(path)


def sync_folder(path: Path) -> None:
    """Has the names in the folder of a file outlast a power cut, if the folder can be read and its file system can do so."""
    with contextlib.suppress(PermissionError):
        folder = os.open(path.parent, os.O_RDONLY | os.O_DIRECTORY)
        try:
            os.fsync(folder)
        except OSError as error:
            if error.errno not in (errno.EINVAL, errno.ENOTSUP):
                raise
        finally:
            os.close(folder)


def _type_of(name: str) -> Any:
    return np.uint64 if name in _UNSIGNED else np.int64


def read(path: str | os.PathLike[str]) -> tuple[Saved, Optional[Rows]]:
    """Reads a file, and raises a ValueError unless it holds a possible run. Only the save of a recording has `Rows`."""
    with open(npz(path), "rb") as file:
        content = file.read(2 * _MOST_BYTES)
    try:
        arrays = _arrays_of(content)
        rows = {name: _number(arrays.pop(name), name) for name in Rows._fields if name in arrays}
        return _checked(arrays), Rows(**rows) if rows else None
    except MemoryError:
        raise Fault(MEMORY) from None
    except Exception as error:  # of a damaged file, zipfile and NumPy raise many kinds
        raise ValueError(f"{path} is not a saved run, or is damaged: {error}") from None


def _arrays_of(content: bytes) -> dict[str, NDArray[Any]]:
    """The arrays in the content of a file. Each is read to its end, where its CRC-32 is compared."""
    with zipfile.ZipFile(io.BytesIO(content)) as archive:
        also = {f"{name}.npy" for name in Rows._fields} & {*archive.namelist()}
        names = [*(field.name for field in fields(Saved)), *(name[:-4] for name in also)]
        return {name: _array_of(_member(archive, f"{name}.npy")) for name in names}


def _member(archive: zipfile.ZipFile, name: str) -> bytes:
    _memory.check(min(archive.getinfo(name).file_size, _MOST_BYTES), "a save")
    return archive.open(name).read(_MOST_BYTES)


def _array_of(member: bytes) -> NDArray[Any]:
    """The array in a file of NumPy's. `numpy.load` would first make room for the shape that the file names."""
    file = io.BytesIO(member)
    _read_magic(file)
    shape, is_fortran, kind = _read_header(file)
    return np.frombuffer(file.read(), kind).reshape(shape, order="F" if is_fortran else "C")


def _checked(arrays: dict[str, NDArray[Any]]) -> Saved:
    """The run of these arrays, if settling all its grains at once yields its pile, odometer and lost grains."""
    pile, odometer = heights_of(arrays.pop("pile")), heights_of(arrays.pop("odometer"))
    saved = Saved(pile, odometer, **{name: _number(array, name) for name, array in arrays.items()})
    given = saved.given()
    settled = settle(given, bool(saved.cylinder))
    if not (
        saved.cylinder <= 1
        and saved.drawn <= saved.drops
        and int(given.sum()) == saved.start_grains + saved.drops
        and np.array_equal(settled.pile, pile)
        and np.array_equal(settled.odometer, odometer)
        and settled.lost == saved.lost
    ):
        raise ValueError("its values contradict each other")
    return saved


def _number(array: NDArray[Any], name: str) -> int:
    if array.dtype.kind not in "iu" or array.shape:
        raise ValueError(f"{name} must be an integer, but is an array of shape {array.shape} and type {array.dtype}")
    return count_of(int(array), name)


def npz(path: str | os.PathLike[str]) -> Path:
    """The file that a name means, which may lack its `.npz`."""
    path = Path(path)
    if not path.name:
        raise IsADirectoryError(errno.EISDIR, os.strerror(errno.EISDIR), str(path))
    return path if path.suffix == ".npz" else path.with_name(f"{path.name}.npz")
