"""Sources of Debian's packages, outside the repository: `papi_users` builds them. What a folder
does not have is got by apt-get, by lists of its own, so that nothing of the system changes."""

from __future__ import annotations

import os
import re
import shutil
import subprocess
from dataclasses import dataclass
from pathlib import Path
from typing import Iterator

SYSTEM = Path("/etc/apt")
SECONDS = 900


class Missing(Exception):
    """Why a source is not there."""


def _source_lists() -> Iterator[str]:
    """The system's lists of packages, as lists of sources in the form of one line each."""
    for path in (SYSTEM / "sources.list", *sorted((SYSTEM / "sources.list.d").glob("*.list"))):
        if path.is_file():
            yield from re.findall(r"^deb (.*)$", path.read_text(encoding="utf-8"), re.MULTILINE)
    for path in sorted((SYSTEM / "sources.list.d").glob("*.sources")):
        for part in path.read_text(encoding="utf-8").split("\n\n"):
            fields = dict(re.findall(r"^([A-Za-z-]+): *(.*)$", part, re.MULTILINE))
            for place in fields.get("URIs", "").split():
                for suite in fields.get("Suites", "").split():
                    yield f"{place} {suite} {fields.get('Components', '')}"


@dataclass
class Sources:
    """A folder of unpacked sources, to which others are got."""

    folder: Path
    are_listed: bool = False

    def find(self, package: str) -> Path:
        """The folder of a package's source."""
        found = self._unpacked(package)
        if not found:
            self._get(package)
            found = self._unpacked(package)
        if not found:
            raise Missing(f"apt-get source {package} unpacks nothing")
        return found[-1]

    def _unpacked(self, package: str) -> list[Path]:
        return sorted(path for path in self.folder.glob(f"{package}-[0-9]*") if path.is_dir())

    def _get(self, package: str) -> None:
        if not shutil.which("apt-get") or not shutil.which("dpkg-source"):
            raise Missing("there is no apt-get with dpkg-source (dpkg-dev) to get it with")
        if not self.are_listed:
            self._list()
        self._apt("source", "--quiet", package)

    def _list(self) -> None:
        for name in ("lists/partial", "cache/archives/partial"):
            (self.folder / "apt" / name).mkdir(parents=True, exist_ok=True)
        lines = [f"deb-src {line}\n" for line in _source_lists() if "debian" in line]
        (self.folder / "apt/sources.list").write_text("".join(lines), encoding="utf-8")
        self._apt("update", "--quiet", "--error-on=any")
        self.are_listed = True

    def _apt(self, *words: str) -> None:
        settings = {
            "Dir::Etc::sourcelist": self.folder / "apt/sources.list",
            "Dir::Etc::sourceparts": "-",
            "Dir::State::lists": self.folder / "apt/lists",
            "Dir::Cache": self.folder / "apt/cache",
        }
        options = [word for name, value in settings.items() for word in ("-o", f"{name}={value}")]
        try:
            done = subprocess.run(
                ["apt-get", *options, *words],
                cwd=self.folder,
                env={**os.environ, "LC_ALL": "C"},
                stdin=subprocess.DEVNULL,
                capture_output=True,
                text=True,
                timeout=SECONDS,
            )
        except subprocess.TimeoutExpired:
            raise Missing(f"apt-get {words[0]} does not end") from None
        if done.returncode:
            said = [line for line in done.stderr.splitlines() if line.startswith("E: ")]
            raise Missing(f"apt-get {words[0]}: {(said or ['it fails'])[0]}")
