"""A pile driven by single grains (Bak, Tang and Wiesenfeld 1987), with the avalanche of each drop.

A drop takes time at most proportional to the topplings of its avalanche, and 48 bytes in a table. The run itself takes space
proportional to the sites.
"""

from __future__ import annotations

import ctypes
import os
from pathlib import Path
from typing import Any, Iterator, Literal, SupportsIndex, overload

import numpy as np
from numpy.typing import ArrayLike, NDArray

from . import _hints, _saves, faults, recording, waves as _waves
from ._arrays import HasPile, Heights, count_of, heights_and_edge, new_array, seed_of, site_at, sites_at
from ._dropping import AVALANCHE, NO_HEIGHTS, NO_ROWS, OF_THIS_PROCESS, Check, Dropping, Sites, State, listed
from ._places import by_name
from .faults import Fault


class Drive(Dropping, HasPile, _hints.Hinted):
    """A pile on which grains drop one by one, at random or given sites. Each settles before the next. A run can be passed
    as a pile.

    Parameters
    ----------
    pile : array_like of int
        The start, shape (height, width), sides from 1 to 8,192, any integer type. Settled first; the
        argument is not modified.
    seed : int or numpy.random.SeedSequence, optional
        The seed of the random sites: an integer from 0 to 2**64 - 1, or a sequence, whose
        ``generate_state(1, np.uint64)[0]`` it then is. So the children that a sequence spawns give independent runs.
        Without a seed, one is drawn from fresh entropy. The attribute `seed` is the integer.
    stream : int
        The stream of the seed, from 0 to 2**64 - 1. Streams of one seed are independent, so give each replica its own.
        ``sandpile drops --count N --seed S --stream T`` drops at the same sites.
    cylinder : bool, optional
        Whether the first and the last column are neighbours. By default as in `pile` if that has a `cylinder`, else False.
    progress : bool
        Whether to show how long it takes to settle the start, as `settle` does.

    Raises
    ------
    Fault
        Side (1), Narrow (24), TooManyGrains (3), Memory (4), Shapes (9) if `pile` has the other edge, or Plan (15) if `seed`
        or `stream` is outside its limits.
    ValueError
        If a height is below 0, or `pile` is not two-dimensional; the latter is also a `TypeError`.
    TypeError
        If the heights or `stream` are not integers, or `seed` is neither an integer nor a sequence.

    See Also
    --------
    random_recurrent : a start from which no burn-in is needed
    replicas : the runs of many streams, in parallel
    settle : settles a pile without drops
    SharedPile : many threads drop grains on one pile at once
    lab : a run on many threads, by the program

    Notes
    -----
    This is the driven model of Bak, Tang and Wiesenfeld [1]_.

    Use a `Drive` in one thread at a time: while a call drops grains, another one that would is refused, but other
    threads may read the run and save it, between two blocks of drops. Different ones can run in parallel in different
    threads. A copy is a run of its own, and so is that of a forked child.

    References
    ----------
    .. [1] P. Bak, C. Tang and K. Wiesenfeld, "Self-organized criticality: an explanation of the 1/f noise", Physical
       Review Letters 59 (1987) 381-384.

    Examples
    --------
    >>> import sandpile
    >>> run = sandpile.Drive([[3, 3, 3], [3, 3, 3]], seed=7)
    >>> table = run.drop(1000)
    >>> table.dtype.names
    ('number', 'site', 'size', 'area', 'reach', 'lost')
    >>> run.drops == len(table) == 1000, run.lost == int(table["lost"].sum())
    (True, True)
    """

    _HINTS = _hints.OF_RUN

    def __init__(
        self,
        pile: ArrayLike,
        seed: SupportsIndex | np.random.SeedSequence | None = None,
        stream: SupportsIndex = 0,
        cylinder: bool | None = None,
        progress: bool = False,
    ) -> None:
        heights, self._cylinder = heights_and_edge(pile, cylinder)
        self._seed, self._stream = seed_of(seed), count_of(stream, "stream")
        self._start_grains = int(heights.sum())
        self._hold(heights, State(0, 0, NO_ROWS), progress)

    @property
    def pile(self) -> Heights:
        """The current heights, each from 0 to 3; a new array of shape (height, width), int64."""
        pile = new_array(self._shape, np.int64, "the heights")
        self._read(pile=pile)
        return pile

    @property
    def odometer(self) -> Heights:
        """How often each site has toppled, the settling of the start included; a new array of shape (height, width),
        int64."""
        odometer = new_array(self._shape, np.int64, "the odometer")
        self._read(odometer=odometer)
        return odometer

    @by_name()
    def height(
        self, site: SupportsIndex | None = None, *, row: SupportsIndex | None = None, column: SupportsIndex | None = None
    ) -> int:
        """The current height of one site, from 0 to 3; faster than `pile` is to read.

        Parameters
        ----------
        site : int
            The number of the site, row * width + column.
        row, column : int
            Instead of `site`, its row and its column, each from 0.

        Raises
        ------
        Fault
            NoSite (25) if the site is outside the grid.
        TypeError
            If the site, or its row and its column, are not integers.

        Examples
        --------
        >>> import sandpile
        >>> sandpile.Drive([[5, 0, 2]]).height(2)
        2
        """
        number = site_at(site, row, column, self._shape, "the height asked for")
        with self._handle.use:
            return self._handle.site(number)[0]

    @property
    def lost(self) -> int:
        """Grains lost over the edge so far, the settling of the start included."""
        return self._read()[1]

    @property
    def topplings(self) -> int:
        """Topplings so far, the settling of the start included."""
        return self._read()[0]

    @property
    def drops(self) -> int:
        """Grains dropped so far."""
        return self._current().drops

    @property
    def table(self) -> NDArray[np.void]:
        """The avalanches of the last call of `drop`, `drop_at`, `avalanche` or `waves`: the array that it returned, or if Ctrl-C
        stopped it, those until then, the same array at each look."""
        return self._current().table

    @property
    def seed(self) -> int:
        """The seed of the random sites: as given, drawn, or generated by the sequence given."""
        return self._seed

    @property
    def stream(self) -> int:
        """The stream of the random sites."""
        return self._stream

    @property
    def cylinder(self) -> bool:
        """Whether the first and the last column are neighbours."""
        return self._cylinder

    @property
    def shape(self) -> tuple[int, int]:
        """The height and the width of the grid."""
        height, width = self._shape
        return height, width

    @overload
    def drop(
        self, n: SupportsIndex, progress: bool = False, odometers: Literal[False] = False, waves: Literal[False] = False
    ) -> NDArray[np.void]: ...

    @overload
    def drop(
        self, n: SupportsIndex, progress: bool = False, *, odometers: Literal[True], waves: Literal[False] = False
    ) -> tuple[NDArray[np.void], Heights]: ...

    @overload
    def drop(
        self, n: SupportsIndex, progress: bool = False, odometers: Literal[False] = False, *, waves: Literal[True]
    ) -> tuple[NDArray[np.void], NDArray[np.void]]: ...

    @overload
    def drop(self, n: SupportsIndex, progress: bool = False, odometers: bool = False, waves: bool = False) -> Any: ...

    def drop(self, n: SupportsIndex, progress: bool = False, odometers: bool = False, waves: bool = False) -> Any:
        """Drops `n` grains at the next random sites.

        Ctrl-C stops between two blocks of drops, of about a twentieth of a second, unless one avalanche takes longer. It raises
        `KeyboardInterrupt`; the pile then has all drops so far, and `table` has their avalanches, but their topplings or waves are
        lost. The next call continues from there.

        Parameters
        ----------
        n : int
            Number of grains.
        progress : bool
            Whether to show the progress on standard error, with tqdm if it is installed. If it cannot be shown, the
            drops are made without.
        odometers : bool
            Whether to return also how often each site topples in each avalanche. A block is then a single drop.
        waves : bool
            Whether to return also the sizes of the waves of each avalanche [1]_; `Drive.waves` says what a wave is. Not with
            `odometers`: a copy of the run makes the same drops again.

        Returns
        -------
        table : numpy.ndarray
            A structured array of shape (n,), with a row for each drop: its `number` from 0 over all calls, its `site` (row *
            width + column), the `size` (topplings), the `area` (sites that toppled), the `reach` and the grains `lost`. The
            reach is the greatest distance from the site to one that toppled, in columns plus rows, the shorter way around a
            cylinder. It is 0 if no site toppled, and also if only the site of the drop did. ``table["size"]`` is the column;
            ``table.size`` is NumPy's number of rows. No column has the duration of an avalanche. A row has 48 bytes; `record`
            and `blocks` make the rows of a long run without having all in memory.
        topplings : numpy.ndarray
            Only with `odometers`: how often each site topples in each avalanche; shape (n, height, width), int64.
        sizes : numpy.ndarray
            Only with `waves`: a structured array with a row for each wave: the `number` of its drop, which `wave` of the drop
            it is, from 0, and its `size`, the sites that topple in it, once each. There are as many waves as the site of the
            drop topples, and the sizes of all waves of a drop sum to the size in `table`.

        Raises
        ------
        Fault
            Plan (15) if `n` is negative, Full (6) if the start and all drops exceed the `grain_limit` together, or Memory
            (4): before the first drop if a table or the topplings need more than is available, and with `waves` after any block
            of drops, which keeps the blocks before it, like Ctrl-C.
        TypeError
            If `n` is not an integer, or both `odometers` and `waves` are asked for.
        RuntimeError
            If another call is dropping grains on this run, in another thread.

        See Also
        --------
        Drive.waves : one drop, and which sites topple in each wave of its avalanche

        References
        ----------
        .. [1] E. V. Ivashkevich, D. V. Ktitarev and V. B. Priezzhev, "Waves of topplings in an Abelian sandpile", Physica A
           209 (1994) 347-360.

        Examples
        --------
        >>> import sandpile
        >>> sandpile.Drive([[3]]).drop(5)["size"]
        array([1, 0, 0, 0, 1])
        >>> table, topplings = sandpile.Drive([[3, 3]]).drop(5, odometers=True)
        >>> topplings.shape, bool((topplings.sum(axis=(1, 2)) == table["size"]).all())
        ((5, 1, 2), True)
        >>> table, sizes = sandpile.Drive([[3]]).drop(5, waves=True)
        >>> sizes["number"], sizes["wave"], sizes["size"]
        (array([0, 4]), array([0, 0]), array([1, 1]))
        """
        return self._drop_with(lambda: (count_of(n, "n"), self._draw), True, progress, odometers, waves)

    @overload
    def blocks(
        self, n: SupportsIndex, size: SupportsIndex, odometers: Literal[False] = False, waves: Literal[False] = False
    ) -> Iterator[NDArray[np.void]]: ...

    @overload
    def blocks(
        self, n: SupportsIndex, size: SupportsIndex, odometers: Literal[True], waves: Literal[False] = False
    ) -> Iterator[tuple[NDArray[np.void], Heights]]: ...

    @overload
    def blocks(
        self, n: SupportsIndex, size: SupportsIndex, odometers: Literal[False] = False, *, waves: Literal[True]
    ) -> Iterator[tuple[NDArray[np.void], NDArray[np.void]]]: ...

    @overload
    def blocks(
        self, n: SupportsIndex, size: SupportsIndex, odometers: bool = False, waves: bool = False
    ) -> Iterator[Any]: ...

    def blocks(
        self, n: SupportsIndex, size: SupportsIndex, odometers: bool = False, waves: bool = False
    ) -> Iterator[Any]:
        """Drops `n` grains at the next random sites, and yields their table in parts, so not all rows are in memory at once.

        Each part is a call of `drop`, made when it is asked for. So between two of them the run has the drops of the parts
        so far, and can be saved, used or left.

        Parameters
        ----------
        n : int
            Number of grains.
        size : int
            The rows of each part, at least 1; the last part may have fewer.
        odometers, waves : bool
            As for `drop`.

        Returns
        -------
        iterator
            The parts, each as from `drop`.

        Raises
        ------
        Fault
            Plan (15) if `n` is negative or `size` is not positive. From the iterator Full (6) or Memory (4), as from `drop`.
        TypeError
            If `n` or `size` is not an integer.
        RuntimeError
            From the iterator, as from `drop`.

        Examples
        --------
        >>> import sandpile
        >>> [len(table) for table in sandpile.Drive([[3, 3]]).blocks(1000, 300)]
        [300, 300, 300, 100]
        """
        drops, most = count_of(n, "n"), count_of(size, "size", least=1)
        return (
            self.drop(min(most, drops - begin), odometers=odometers, waves=waves) for begin in range(0, drops, most)
        )

    @overload
    def drop_at(
        self, sites: ArrayLike | None = None, *, rows: ArrayLike | None = None, columns: ArrayLike | None = None,
        odometers: Literal[False] = False, waves: Literal[False] = False,
    ) -> NDArray[np.void]: ...

    @overload
    def drop_at(
        self, sites: ArrayLike | None = None, *, rows: ArrayLike | None = None, columns: ArrayLike | None = None,
        odometers: Literal[True], waves: Literal[False] = False,
    ) -> tuple[NDArray[np.void], Heights]: ...

    @overload
    def drop_at(
        self, sites: ArrayLike | None = None, *, rows: ArrayLike | None = None, columns: ArrayLike | None = None,
        odometers: Literal[False] = False, waves: Literal[True],
    ) -> tuple[NDArray[np.void], NDArray[np.void]]: ...

    @overload
    def drop_at(
        self, sites: ArrayLike | None = None, *, rows: ArrayLike | None = None, columns: ArrayLike | None = None,
        odometers: bool = False, waves: bool = False,
    ) -> Any: ...

    @by_name("rows", "columns")
    def drop_at(
        self, sites: ArrayLike | None = None, *, rows: ArrayLike | None = None, columns: ArrayLike | None = None,
        odometers: bool = False, waves: bool = False,
    ) -> Any:
        """Drops a grain at each of these sites in turn. Uses no random sites.

        Parameters
        ----------
        sites : array_like of int
            Site numbers, row * width + column, shape (n,), or a single one. So ``drop_at([1, 2])`` drops a grain at site 1
            and one at site 2; ``drop_at(rows=1, columns=2)`` drops one in row 1, column 2. A tuple of two numbers that could be
            meant so is two sites as well, with a warning.
        rows, columns : array_like of int
            Instead of `sites`, their rows and their columns, each from 0. They are broadcast, and taken row by row if there
            are several dimensions.
        odometers, waves : bool
            As for `drop`.

        Returns
        -------
        table : numpy.ndarray
            The avalanches, as from `drop`.
        topplings, sizes : numpy.ndarray
            One of them, only with `odometers` or `waves`, as from `drop`.

        Raises
        ------
        Fault
            NoSite (25) if a site is outside the grid, Full (6) or Memory (4), as from `drop`.
        TypeError
            If the sites are not integers, have more than one dimension (which is also a `ValueError`), or are not given in one
            of the two ways.
        ValueError
            If the rows and the columns cannot be broadcast.
        RuntimeError
            As from `drop`.

        Examples
        --------
        >>> import sandpile
        >>> sandpile.Drive([[0, 3, 0]]).drop_at([1, 1])["size"]
        array([1, 0])
        >>> sandpile.Drive([[3, 2], [3, 3]]).drop_at(rows=[0, 1], columns=1)["site"]
        array([1, 3])
        >>> sandpile.Drive([[0, 3, 0]]).drop_at([1, 1], odometers=True)[1]
        array([[[0, 1, 0]],
        <BLANKLINE>
               [[0, 0, 0]]])
        """

        return self._drop_with(lambda: listed(sites_at(sites, rows, columns, self._shape)), False, False, odometers, waves)

    def _at(self, site: Any, row: Any, column: Any) -> tuple[Check, bool]:
        """One drop at a site, or at the next random one if none is given, and whether it is random."""
        if site is None and row is None and column is None:
            return lambda: (1, self._draw), True

        def one() -> Sites:
            place = ctypes.c_int64(site_at(site, row, column, self._shape))
            return 1, lambda _, __: ctypes.addressof(place)

        return one, False

    @by_name()
    def avalanche(
        self, site: SupportsIndex | None = None, *, row: SupportsIndex | None = None, column: SupportsIndex | None = None
    ) -> tuple[np.void, Heights]:
        """Drops a grain at a site, and returns how often each site topples in its avalanche.

        Parameters
        ----------
        site : int, optional
            The number of the site, row * width + column. Without it, or its row and its column, it is the next random one;
            with it, no random site is used.
        row, column : int
            Instead of `site`, its row and its column, each from 0.

        Returns
        -------
        avalanche : numpy.void
            Its row in `table`, as from `drop`.
        topplings : numpy.ndarray
            How often each site toppled in it; shape (height, width), int64. The sum is the size.

        Raises
        ------
        Fault
            NoSite (25) if the site is outside the grid, or Full (6), as from `drop`.
        TypeError
            If the site, or its row and its column, are not integers.
        RuntimeError
            As from `drop`.

        Examples
        --------
        >>> import sandpile
        >>> row, topplings = sandpile.Drive([[3, 3, 1]]).avalanche(0)
        >>> int(row["size"]), int(row["reach"]), topplings
        (2, 1, array([[1, 1, 0]]))
        """
        table, topplings = self._with_odometers(*self._at(site, row, column))
        return table[0], topplings[0]

    @by_name()
    def waves(
        self, site: SupportsIndex | None = None, *, row: SupportsIndex | None = None, column: SupportsIndex | None = None
    ) -> tuple[np.void, NDArray[np.int64], NDArray[np.bool_]]:
        """Drops a grain at a site, and returns the waves of its avalanche [1]_.

        In each wave, the site of the drop topples once, and then each other site that has four grains or more, once each; if
        the site of the drop then has four grains again, another wave follows.

        Parameters
        ----------
        site : int, optional
            The number of the site, row * width + column. Without it, or its row and its column, it is the next random one;
            with it, no random site is used.
        row, column : int
            Instead of `site`, its row and its column, each from 0.

        Returns
        -------
        avalanche : numpy.void
            Its row in `table`, as from `drop`.
        sizes : numpy.ndarray
            How many sites topple in each wave; shape (waves,), int64. There are as many waves as the site of the drop topples.
        waves : numpy.ndarray
            Which sites topple in each; shape (waves, height, width), bool. The sum over all waves is how often each site
            topples.

        Raises
        ------
        Fault
            NoSite (25) if the site is outside the grid, Full (6), as from `drop`, or Memory (4), after the drop: a byte for each
            site and wave.
        TypeError
            If the site, or its row and its column, are not integers.
        RuntimeError
            As from `drop`.

        See Also
        --------
        Drive.drop : with ``waves=True``, the sizes of the waves of many drops

        Notes
        -----
        The sizes are proved. The sites are found by the definition, in time proportional to sites and topplings, and compared with
        the sizes. A drop has at most ``(min(height, width) + 1) // 2`` waves, on a cylinder ``(height + 1) // 2``.

        References
        ----------
        .. [1] E. V. Ivashkevich, D. V. Ktitarev and V. B. Priezzhev, "Waves of topplings in an Abelian sandpile", Physica A
           209 (1994) 347-360.

        Examples
        --------
        >>> import sandpile
        >>> _, sizes, waves = sandpile.Drive([[3, 3, 3], [3, 3, 3], [3, 3, 3]]).waves(4)
        >>> sizes
        array([9, 1])
        >>> waves[1]
        array([[False, False, False],
               [False,  True, False],
               [False, False, False]])
        """
        check, draws = self._at(site, row, column)
        before: Heights = NO_HEIGHTS

        def check_and_look() -> Sites:
            nonlocal before
            sites = check()
            before = self.pile
            return sites

        table, found = self._with_waves(check_and_look, draws)
        sizes = found["size"].copy()
        return table[0], sizes, _waves.masks(before, int(table["site"][0]), self._cylinder, sizes)

    def __getstate__(self) -> dict[str, Any]:
        """All but the handle, locks and rooms for the library: a copy has its own. Its handle is made of the grains that were
        given."""
        kept = {name: value for name, value in vars(self).items() if name not in OF_THIS_PROCESS}
        saved, state = self._saved()
        return {**kept, "_state": state, "_given": saved.given()}

    def __setstate__(self, kept: dict[str, Any]) -> None:
        given, state = kept.pop("_given"), kept.pop("_state")
        vars(self).update(kept)
        self._hold(given, state)

    def _saved(self) -> tuple[_saves.Saved, State]:
        """What a file keeps of the run, and the state at that time."""
        pile, odometer = (new_array(self._shape, np.int64, what) for what in ("the heights", "the odometer"))
        _, lost, state = self._read(pile, odometer)
        numbers = (self._seed, self._stream, self._cylinder, self._start_grains, lost, state.drops, state.drawn)
        return _saves.Saved(pile, odometer, *numbers), state

    def save(self, path: str | os.PathLike[str]) -> None:
        """Saves the run to a file, for `Drive.load`. Tables are not saved.

        Parameters
        ----------
        path : str or path
            The file; `.npz` is added to a name without it. It is replaced in one step: if writing fails, an existing
            file is unchanged, and if threads or processes save to one name at once, the file is one of their saves.

        Raises
        ------
        OSError
            If the file cannot be written.

        Examples
        --------
        >>> import os, sandpile, tempfile
        >>> run = sandpile.Drive([[3, 3], [3, 3]], seed=7)
        >>> _ = run.drop(100)
        >>> with tempfile.TemporaryDirectory() as folder:
        ...     run.save(os.path.join(folder, "run.npz"))
        ...     again = sandpile.Drive.load(os.path.join(folder, "run.npz"))
        >>> bool((run.drop(50) == again.drop(50)).all())
        True
        """
        _saves.write(path, self._saved()[0])

    @classmethod
    def load(cls, path: str | os.PathLike[str]) -> Drive:
        """Loads a saved run, which continues as if it had never stopped.

        Parameters
        ----------
        path : str or path
            The file; `.npz` is added to a name without it.

        Raises
        ------
        OSError
            If the file cannot be read.
        ValueError
            If the file was not written by `save`, or is damaged. Settling all grains that the run was given must yield
            its pile, its odometer and its lost grains.
        Fault
            Memory (4).

        Examples
        --------
        >>> import os, sandpile, tempfile
        >>> with tempfile.TemporaryDirectory() as folder:
        ...     sandpile.Drive([[3, 3]], seed=7, stream=2).save(os.path.join(folder, "run"))
        ...     sandpile.Drive.load(os.path.join(folder, "run"))
        <Drive: 1 by 2, seed 7, stream 2, 0 drops>
        """
        return cls._of(_saves.read(path)[0])

    @classmethod
    def _of(cls, saved: _saves.Saved) -> Drive:
        run = cls(saved.given(), saved.seed, saved.stream, bool(saved.cylinder))
        run._start_grains = saved.start_grains
        run._continue(State(saved.drops, saved.drawn, NO_ROWS))
        return run

    def _go_to(self, saved: _saves.Saved) -> None:
        """Continues from a save of this run. Only under the lock for drops."""
        if saved.drops == self.drops:
            return
        again, was = Drive._of(saved), self._handle
        again._go_on = self._go_on
        with was.use:
            # Both locks stay, since other threads may wait for them. In one step, so Ctrl-C can come at any time.
            again._handle.use, again._handle._dropping = was.use, was._dropping
            vars(self).update({name: vars(again)[name] for name in OF_THIS_PROCESS})

    def record(
        self,
        n: SupportsIndex,
        rows: str | os.PathLike[str],
        save: str | os.PathLike[str],
        every: float = 10.0,
        progress: bool = False,
    ) -> NDArray[np.void]:
        """Drops grains at the next random sites until a file has `n` rows of this run, with a save beside it.

        If the same lines run again, the run goes on, whatever has ended it: Ctrl-C, an error, a kill or a power cut. In the
        end the file has the same bytes as if nothing had. At most the drops of the last `every` seconds are made again; after
        Ctrl-C, none.

        Parameters
        ----------
        n : int
            The rows of the file at the end. With a greater one, the file of an ended recording grows.
        rows : str or path
            The file, made if it does not exist: the rows of the tables, 48 bytes each, one after another. So
            ``numpy.fromfile(rows, sandpile.AVALANCHE)`` reads it, and `numpy.memmap` reads what is asked of it.
        save : str or path
            The file of the save, for `load`; `.npz` is added to a name without it. It also has the number of rows, and their
            CRC-32. Before it is written, the rows are on the disk.
        every : float
            Seconds from one save to the next, at least; 0 saves after each block of drops. The run is also saved at the end.
        progress : bool
            Whether to show the progress on standard error, as `drop` does.

        Returns
        -------
        numpy.ndarray
            The rows, shape (n,), read-only: those of the file, of which only what is used is read. `table` has the last block.

        Raises
        ------
        Fault
            Plan (15) if `n` is negative or the file has more rows, or `every` is negative, Full (6) as from `drop`, or
            Memory (4).
        ValueError
            If the files do not fit the run: the save is damaged, of another run, or not from this call; or the file lacks
            rows that the save tells of, has others, or has rows but no save. Then nothing has changed.
        TypeError
            If `n` is not an integer, or `every` not a number.
        RuntimeError
            If another process or thread is recording to the file, or dropping grains on this run.
        OSError
            If a file cannot be read, locked or written, or the file of rows is removed, renamed or replaced meanwhile. The next
            call goes on from the last save.

        See Also
        --------
        blocks : the same rows, in parts

        Notes
        -----
        If there is a save, the run goes to where the save is, before or after. The drops between must all be at random sites.
        The rows of the save are read first, to compare their CRC-32, in about a second for a gigabyte.

        Examples
        --------
        >>> import os, sandpile, tempfile
        >>> with tempfile.TemporaryDirectory() as folder:
        ...     files = os.path.join(folder, "rows.bin"), os.path.join(folder, "run.npz")
        ...     first = sandpile.Drive([[3, 3]], seed=7).record(100, *files)
        ...     rows = sandpile.Drive([[3, 3]], seed=7).record(300, *files)
        >>> len(rows), bool((rows == sandpile.Drive([[3, 3]], seed=7).drop(300)).all())
        (300, True)
        """
        count, at, beside = count_of(n, "n"), Path(rows), _saves.npz(save)
        if at.resolve() == beside.resolve():
            raise ValueError(f"the rows and the save must be two files, but both are {at}")
        if not every >= 0:
            raise Fault(faults.PLAN, f"every is {every}, but must be 0 or more")
        with self._handle.dropping():
            recording.record(self, count, at, beside, every, progress)
        return np.memmap(at, AVALANCHE, "r", shape=(count,)) if count else NO_ROWS

    def __repr__(self) -> str:
        height, width = self._shape
        edge = ", cylinder" if self._cylinder else ""
        return f"<Drive: {height} by {width}{edge}, seed {self._seed}, stream {self._stream}, {self.drops} drops>"
