"""The version of Kistalub, from the file VERSION: an installed package has it beside this file, a
checkout at its top."""

from __future__ import annotations

from pathlib import Path


def _read() -> str:
    here = Path(__file__).resolve().parent
    for folder in (here, here.parent.parent):
        if (folder / "VERSION").is_file():
            return (folder / "VERSION").read_text(encoding="ascii").strip()
    raise ImportError("kistalub: there is no file VERSION")


__version__ = _read()
