"""The exceptions for invalid input and for running out of memory."""

from __future__ import annotations

# Number: name and meaning, as in docs/FORMATS.md. The missing numbers cannot reach Python.
_FAULTS = {
    1: ("Side", "the width or the height of a grid is outside 1 to 8192"),
    2: ("Length", "an array has the wrong length"),
    3: ("TooManyGrains", "the pile has more grains than the limit of its grid"),
    4: ("Memory", "an allocation failed"),
    6: ("Full", "the pile and its drops exceed the grain limit of the grid together"),
    7: ("Unstable", "a site has more than 3 grains"),
    8: ("NotRecurrent", "a pile is not recurrent: some of its sites form a forbidden set"),
    9: ("Shapes", "the two piles differ in width or height, or only one is a cylinder"),
    10: ("TooMuch", "the quota exceeds what the pass has left"),
    11: ("Rows", "more rows than the pass has"),
    12: ("Apart", "the rows of the two passes are not adjacent"),
    13: ("Spent", "more drops than the pass has left"),
    14: ("Missing", "the pass is missing quota, drops or rows"),
    15: ("Plan", "a parameter of the run is out of range"),
    17: ("Taken", "the handle already holds something"),
    19: ("TooLarge", "a height is over 1,099,511,627,775"),
    22: ("TooLong", "the pile is longer than 1,048,576 bytes as text"),
    23: ("Usage", "the program rejects its options"),
    24: ("Narrow", "a cylinder is less than 3 wide"),
    25: ("NoSite", "a site is outside the grid"),
    26: ("Empty", "the handle holds nothing"),
    27: ("OtherPile", "the two passes belong to different piles"),
    28: ("NotTree", "the directions are not a spanning tree"),
}

# The numbers of those that this module raises itself, or treats in its own way.
SIDE, TOO_MANY_GRAINS, MEMORY, FULL, NOT_RECURRENT, SHAPES = 1, 3, 4, 6, 8, 9
ROWS, APART, MISSING, PLAN, USAGE, NO_SITE = 11, 12, 14, 15, 23, 25
EMPTY, OTHER_PILE, NOT_TREE = 26, 27, 28


class Fault(ValueError):
    """The input of a call is invalid, or memory is missing. Nothing has changed, except that `Drive.drop` and `Drive.drop_at` keep
    the blocks of drops before memory for waves was missing, and `Drive.waves` its drop. A fault of Memory is also a `MemoryError`.

    Attributes
    ----------
    number : int
        The number of the fault, the same as in C and in the program.
    name : str
        Its name, such as ``"NotRecurrent"``.
    sentence : str
        What is wrong.

    Examples
    --------
    >>> import sandpile
    >>> try:
    ...     sandpile.identity((4, 9000))
    ... except sandpile.Fault as fault:
    ...     print(fault.number, fault.name, fault.sentence)
    1 Side 9,000 columns; a grid has at most 8,192
    """

    def __new__(cls, number: int, sentence: str | None = None, name: str | None = None) -> Fault:
        if cls is Fault and number == MEMORY:
            return super().__new__(OutOfMemory)
        return super().__new__(cls)

    def __init__(self, number: int, sentence: str | None = None, name: str | None = None) -> None:
        known_name, meaning = _FAULTS.get(number, ("Unknown", "the library reported a fault unknown to this module"))
        self.number = number
        self.name = name or known_name
        self.sentence = sentence or meaning
        super().__init__(f"fault {self.number} {self.name}: {self.sentence}")

    def __reduce__(self) -> tuple[type[Fault], tuple[int, str, str]]:
        return Fault, (self.number, self.sentence, self.name)


class OutOfMemory(Fault, MemoryError):
    """The `Fault` Memory: an allocation failed."""


class ShapeError(ValueError, TypeError):
    """An array has the wrong number of dimensions, or lists in a list have different lengths."""
