"""The version of the package."""

from __future__ import annotations

import pathlib


def _own() -> str:
    """What the build wrote beside this file, or else the version of the checkout."""
    folder = pathlib.Path(__file__).resolve().parent
    for path in (folder / "VERSION", folder.parents[2] / "VERSION"):
        if path.exists():
            return path.read_text(encoding="utf-8").strip()
    return "unknown"


__version__ = _own()
