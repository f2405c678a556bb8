"""How a script of this repository runs commands, and how it ends."""

from __future__ import annotations

import contextlib
import os
import re
import shutil
import signal
import subprocess
import sys
import tempfile
import time
from collections.abc import Callable, Iterator
from pathlib import Path
from typing import Any, NoReturn

from paths import TOP

SIGNALS = (signal.SIGINT, signal.SIGTERM, signal.SIGHUP)


class Stopped(KeyboardInterrupt):
    """SIGTERM, or the end of the terminal, tells the script to end, as Ctrl-C does."""


def end_by_signal(number: int, _: object) -> NoReturn:
    raise Stopped(number)


def start(main: Callable[[list[str]], int]) -> NoReturn:
    """Runs a script with the words of its command line. Ctrl-C, SIGTERM and SIGHUP end it in good order: what it runs is ended, and
    its temporary folders are removed. A failed command or call of the system is reported in one line."""
    name = Path(sys.argv[0]).name
    for number in (signal.SIGTERM, signal.SIGHUP):
        if signal.getsignal(number) != signal.SIG_IGN:
            signal.signal(number, end_by_signal)
    sys.stdout.reconfigure(line_buffering=True)
    try:
        sys.exit(main(sys.argv[1:]))
    except KeyboardInterrupt as stop:
        sys.exit(128 + (stop.args[0] if stop.args else signal.SIGINT))
    except BrokenPipeError:
        os.dup2(os.open(os.devnull, os.O_WRONLY), sys.stdout.fileno())
        sys.exit(128 + signal.SIGPIPE)
    except (OSError, shutil.Error, subprocess.SubprocessError) as error:
        sys.exit(f"{name}: {reason(error)}")


def reason(error: Exception) -> str:
    """What went wrong, in one line."""
    if isinstance(error, subprocess.CalledProcessError):
        ended = f"was ended by signal {-error.returncode}" if error.returncode < 0 else f"ended with status {error.returncode}"
        return f"`{spelled(error.cmd)}` {ended}"
    if isinstance(error, subprocess.TimeoutExpired):
        return f"`{spelled(error.cmd)}` took over {error.timeout:.0f} seconds"
    if isinstance(error, shutil.Error) and isinstance(error.args[0], list):  # of all files that could not be copied
        return re.sub(r"^\[Errno \d+\] ", "", str(error.args[0][0][2]))
    if isinstance(error, OSError) and error.filename is not None:
        return f"{os.fsdecode(error.filename2 or error.filename)}: {error.strerror}"
    return " ".join(str(error).split())


def spelled(words: Any) -> str:
    return " ".join(map(str, words))


def end(process: subprocess.Popen, grace: float = 10) -> None:
    """Ends a process that leads a session, and all that it has started there, unless it has ended."""
    if process.returncode is None:
        os.killpg(process.pid, signal.SIGTERM)
        with contextlib.suppress(subprocess.TimeoutExpired):
            process.wait(grace)
        with contextlib.suppress(ProcessLookupError):
            os.killpg(process.pid, signal.SIGKILL)


@contextlib.contextmanager
def new_room(prefix: str) -> Iterator[Path]:
    """A temporary folder. No signal stops its removal."""
    room = Path(tempfile.mkdtemp(prefix=prefix))
    try:
        yield room
    finally:
        before = {number: signal.signal(number, signal.SIG_IGN) for number in SIGNALS}
        for _ in range(10):  # what was killed just now may still write to it
            shutil.rmtree(room, ignore_errors=True)
            if not room.exists():
                break
            time.sleep(0.1)
        for number, handler in before.items():
            signal.signal(number, handler)


@contextlib.contextmanager
def script(words: list[Any], folder: Path = TOP, **how: Any) -> Iterator[subprocess.Popen]:
    """Runs a script of this repository, at its top. If this script is told to end, that one is, and this one waits for it."""
    with subprocess.Popen(words, cwd=folder, **how) as process:
        try:
            yield process
            process.wait()
        except BaseException as stop:
            if type(stop) is KeyboardInterrupt:  # which a terminal sends to both
                with contextlib.suppress(subprocess.TimeoutExpired):
                    process.wait(10)
            process.terminate()
            process.wait()
            raise


def run(words: list[Any], *, timeout: float | None = None, check: bool = False, **how: Any) -> subprocess.CompletedProcess:
    """Runs a command as `subprocess.run` does, but in a session of its own. If the wait ends early, by a timeout or because this
    script is stopped, then all of the session ends."""
    with subprocess.Popen(words, start_new_session=True, **how) as process:
        try:
            output, errors = process.communicate(timeout=timeout)
        except BaseException:
            end(process)
            raise
    ended = subprocess.CompletedProcess(words, process.returncode, output, errors)
    if check:
        ended.check_returncode()
    return ended


def said(program: str | Path, *words: str) -> str:
    """What a command writes."""
    return subprocess.run([program, *words], check=True, stdout=subprocess.PIPE, text=True).stdout


def need(tool: str, why: str) -> None:
    """Ends the script if a command is not on the path."""
    if not shutil.which(tool):
        sys.exit(f"{Path(sys.argv[0]).name}: `{tool}` is not on the PATH, and it {why}")


def usage(text: str | None, words: list[str]) -> int:
    """Prints how a script is called, and returns the exit status: 0 if its words asked for that, and 2 for misuse."""
    is_asked = words in (["-h"], ["--help"])
    print((text or "").strip(), file=sys.stdout if is_asked else sys.stderr)
    return 0 if is_asked else 2


def closing(name: str, passed: int, failed: int, left_out: int | None = None) -> int:
    """Prints the closing line, and returns the exit status: 0 if something passed and nothing failed."""
    print(f"{name}: {passed} passed, {failed} failed" + ("" if left_out is None else f", {left_out} left out"))
    return 0 if passed and not failed else 1
