"""What earlier runs of `edits` found, by the checksum of all that a result rests on.

So an entry never goes stale: it is only not looked for any more."""

from __future__ import annotations

import hashlib
import json
import os
import tempfile
from contextlib import suppress
from pathlib import Path
from typing import Optional

from here import CHECKS

from edit_kit import rt

MOST_KEPT = 20_000  # entries of some 300 bytes
LEAVES = 100 << 20  # bytes of the disk
PARTS = ("kit", "source", "rounds", "running", "results")
OWN = ("edits", *(f"edit_{part}.py" for part in PARTS))
FOLDER = "edits-in-rounds"


def _own_sum() -> str:
    """A checksum of this check itself."""
    return hashlib.sha256(b"\0".join((CHECKS / name).read_bytes() for name in OWN)).hexdigest()


def _places() -> list[Path]:
    """Beside what rt keeps, or else in the user's folder for caches."""
    home = os.environ.get("HOME")
    cache = os.environ.get("XDG_CACHE_HOME") or (f"{home}/.cache" if home else "")
    return [Path(rt().STORE, FOLDER), *([Path(cache, "kistalub", FOLDER)] if cache else [])]


def _place() -> Optional[Path]:
    """The first place that is this user's own and that can be written."""
    for place in _places():
        with suppress(OSError):
            place.mkdir(mode=0o700, parents=True, exist_ok=True)
            if place.stat().st_uid == os.geteuid() and os.access(place, os.W_OK):
                return place
    return None


class Results:
    """The results that are kept. With `anew` none is taken from there."""

    def __init__(self, anew: bool):
        self.anew, self.place, self.own = anew, _place(), _own_sum()

    def name(self, key: str, edit: Path) -> str:
        """The name of an edit's result over a crate with this checksum."""
        what = (self.own, key, edit.name, edit.read_bytes())
        return hashlib.sha256(repr(what).encode()).hexdigest()

    def get(self, name: str) -> Optional[tuple[str, str]]:
        if self.place is None or self.anew:
            return None
        try:
            found = json.loads((self.place / name).read_text(encoding="utf-8"))
            if found["edit"] != name or found["kind"] not in (rt().REFUSED, rt().BAD):
                return None
            os.utime(self.place / name)
            return found["kind"], str(found["text"])
        except (OSError, ValueError, KeyError, TypeError):
            return None

    def keep(self, name: str, kind: str, text: str) -> None:
        """Keeps a result that stays so. It is renamed once it is whole, so nobody reads half."""
        if self.place is None or kind not in (rt().REFUSED, rt().BAD):
            return
        entry = {"edit": name, "kind": kind, "text": text}
        with suppress(OSError):
            disk = os.statvfs(self.place)
            if disk.f_bavail * disk.f_frsize < LEAVES:
                return
            with tempfile.NamedTemporaryFile("w", dir=self.place, delete=False) as file:
                json.dump(entry, file)
            os.replace(file.name, self.place / name)

    def shrink(self) -> None:
        """Removes the entries that were longest not used, if there are too many."""
        if self.place is None:
            return
        entries = []
        for entry in os.scandir(self.place):
            with suppress(OSError):
                entries.append((entry.stat().st_mtime, entry.path))
        for _, path in sorted(entries)[: max(len(entries) - MOST_KEPT, 0)]:
            with suppress(OSError):
                os.remove(path)
