"""``python -m sandpile``: a page on which grains drop by clicks."""

from __future__ import annotations

import argparse
from typing import Sequence

from .playing import PORT, play


def _parser() -> argparse.ArgumentParser:
    parser = argparse.ArgumentParser(
        "python -m sandpile", description="Drops grains on a sandpile by clicks, on a page that this machine alone can see.",
        epilog="The start is sandpile.random_recurrent(shape, seed=N), and grains drop as those of sandpile.Drive(start, seed=N).",
    )
    shape = "of the grid, each from 1 to 8,192; 64 64 by default"
    seed = "of the start and of the random sites, whose stream is 0: from 0 to 2^64 - 1; a new one by default"
    port = f"where the page is, or the next free one; {PORT} by default"
    parser.add_argument("--shape", nargs=2, type=int, default=(64, 64), metavar=("ROWS", "COLUMNS"), help=shape)
    parser.add_argument("--cylinder", action="store_true", help="make the first and the last column neighbours")
    parser.add_argument("--seed", type=int, metavar="N", help=seed)
    parser.add_argument("--port", type=int, default=PORT, metavar="N", help=port)
    parser.add_argument("--no-browser", action="store_true", help="only print the address of the page")
    return parser


def main(words: Sequence[str] | None = None) -> None:
    """Shows the page until Ctrl-C. What cannot be done is said in one line."""
    parser = _parser()
    asked = parser.parse_args(words)
    try:
        play(tuple(asked.shape), asked.seed, cylinder=asked.cylinder, port=asked.port, browser=not asked.no_browser, wait=True)
    except (ValueError, OSError) as error:
        parser.exit(1, f"sandpile: {error.strerror if isinstance(error, OSError) else error}\n")


if __name__ == "__main__":
    main()
