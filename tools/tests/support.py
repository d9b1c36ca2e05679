"""What the tests share: running a tool as a person would, and what they need installed."""

from __future__ import annotations

import atexit
import ctypes
import os
import shutil
import subprocess
import tempfile
import unittest
from contextlib import contextmanager
from functools import lru_cache
from pathlib import Path
from typing import Any, Callable, Iterable, Iterator, Mapping, TypeVar

from shared_library import built_library as built_library  # also for the tests of the module

TOOLS = Path(__file__).resolve().parent.parent
ROOT = TOOLS.parent

Item = TypeVar("Item")

PROGRAM = ROOT / "crates/papi/out/papi"
LIBRARY = ROOT / "crates/papi_c/out/libpapi_c.a"


def run_tool(
    name: str, *words: str, text: str = "", folder: Path | None = None
) -> subprocess.CompletedProcess[str]:
    """A tool of the folder `tools` with these words and this standard input."""
    return subprocess.run(
        [str(TOOLS / name), *words], input=text, capture_output=True, text=True, cwd=folder
    )


def run_program(*words: str) -> subprocess.CompletedProcess[str]:
    """The proved program."""
    return subprocess.run([str(PROGRAM), *words], capture_output=True, text=True)


@contextmanager
def copied(*names: str) -> Iterator[Path]:
    """A folder with these files of the repository, at their places."""
    with tempfile.TemporaryDirectory() as folder:
        for name in names:
            path = Path(folder) / name
            path.parent.mkdir(parents=True, exist_ok=True)
            shutil.copy(ROOT / name, path)
        yield Path(folder)


def before_and_after(
    line: str, table: str, made: Iterable[str], made_texts: Callable[[Path], dict[str, str]],
    more: Mapping[str, str] = {},
) -> tuple[dict[str, str], dict[str, str]]:
    """What the files are made to be by the table, and by the table with one more line, in a folder
    that has more files."""
    with copied(table, *made) as root:
        for name, text in more.items():
            (root / name).write_text(text, encoding="utf-8")
        before = made_texts(root)
        with (root / table).open("a", encoding="utf-8") as lines:
            lines.write(line)
        return before, made_texts(root)


def some(items: Iterable[Item]) -> list[Item]:
    """The items. It is an error if there are none, since a test of each of them could not fail
    then."""
    found = list(items)
    if not found:
        raise AssertionError("there is nothing to look at")
    return found


def all_of(items: Iterable[Item], holds: Callable[[Item], object]) -> bool:
    """Whether something holds of each item, and there are some."""
    return all(holds(item) for item in some(items))


def has_library(name: str) -> bool:
    try:
        ctypes.CDLL(name)
    except OSError:
        return False
    return True


needs_libpfm4 = unittest.skipUnless(has_library("libpfm.so.4"), "libpfm4 is not installed")
needs_program = unittest.skipUnless(PROGRAM.exists(), "crates/papi/out/papi is not built")
needs_library = unittest.skipUnless(
    LIBRARY.exists() and (shutil.which("rt") or os.environ.get("KISTALUB_HEAP")),
    "crates/papi_c/out/libpapi_c.a is not built",
)


@lru_cache(maxsize=None)
def installed() -> Path:
    """A prefix of bin/install, whose tools have the suffix -x, once for all tests."""
    folder = tempfile.TemporaryDirectory()
    atexit.register(folder.cleanup)
    prefix = Path(folder.name) / "a prefix"
    subprocess.run(
        [str(ROOT / "bin/install"), "--program-suffix", "-x", str(prefix)], check=True,
        capture_output=True,
    )
    return prefix


def needs_command(command: str, package: str) -> Callable[[Any], Any]:
    return unittest.skipUnless(shutil.which(command), f"{package} is not installed")


class InFolder(unittest.TestCase):
    """A test with a folder of its own."""

    def setUp(self) -> None:
        folder = tempfile.TemporaryDirectory()
        self.addCleanup(folder.cleanup)
        self.folder = Path(folder.name)

    def write(self, name: str, text: str) -> str:
        path = self.folder / name
        path.write_text(text, encoding="utf-8")
        return str(path)
