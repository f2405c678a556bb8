"""What pip calls to install this checkout (PEP 517 and PEP 660). It needs no other package, and so no network."""

from __future__ import annotations

import subprocess
import sys
from pathlib import Path
from typing import Any, NoReturn

WHEEL = Path(__file__).resolve().parents[2] / "tools" / "wheel"


def build_wheel(wheel_directory: str, config_settings: Any = None, metadata_directory: Any = None) -> str:
    return _packed(wheel_directory)


def build_editable(wheel_directory: str, config_settings: Any = None, metadata_directory: Any = None) -> str:
    return _packed("--editable", wheel_directory)


def build_sdist(sdist_directory: str, config_settings: Any = None) -> NoReturn:
    sys.exit("there is no source distribution, since it would lack the proved library: ./build wheel makes a wheel")


def _packed(*words: str) -> str:
    """Packs a wheel, and returns its name."""
    if not WHEEL.exists():
        sys.exit("this folder is installed from its checkout, and a copy of it is not: ./build wheel makes a wheel")
    ended = subprocess.run([sys.executable, WHEEL, *words], stdout=subprocess.PIPE, text=True)
    if ended.returncode:
        sys.exit(ended.returncode)
    return ended.stdout.rstrip("\n")
