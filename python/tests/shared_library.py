"""What the tests of the module share: the shared library that they run over, and the examples."""

from __future__ import annotations

import atexit
import os
import shutil
import subprocess
import sys
import tempfile
import unittest
from functools import lru_cache
from pathlib import Path

ROOT = Path(__file__).resolve().parents[2]
EXAMPLES = ROOT / "examples"
UNIT = EXAMPLES / "lab.unit"
sys.path.insert(0, str(ROOT / "python"))


@lru_cache(maxsize=None)
def built_library() -> Path:
    """A folder of the library for C that is built from the archive, once for all tests. Skips the
    tests if that is not built."""
    archive = ROOT / "crates/papi_c/out/libpapi_c.a"
    if not archive.exists() or not (shutil.which("rt") or os.environ.get("KISTALUB_HEAP")):
        raise unittest.SkipTest("crates/papi_c/out/libpapi_c.a is not built")
    if not shutil.which(os.environ.get("CC", "cc")):
        raise unittest.SkipTest("a C compiler is not installed")
    folder = tempfile.TemporaryDirectory()
    atexit.register(folder.cleanup)
    subprocess.run([str(ROOT / "c/build"), folder.name], check=True, capture_output=True)
    return Path(folder.name)


def shared_library() -> str:
    """The shared library: what KISTALUB_LIBRARY names, or one that is built."""
    return os.environ.get("KISTALUB_LIBRARY") or str(built_library() / "libpapi.so.7.0")


class WithPython(unittest.TestCase):
    """Tests that run Python over the module, each with a folder of its own."""

    def setUp(self) -> None:
        folder = tempfile.TemporaryDirectory()
        self.addCleanup(folder.cleanup)
        self.folder = Path(folder.name)

    def run_python(self, *words: str, **variables: str) -> subprocess.CompletedProcess[str]:
        """Python over the module, at the top of the repository."""
        environment = {**os.environ, "PYTHONPATH": str(ROOT / "python"), **variables}
        return subprocess.run(
            [sys.executable, "-B", *words], cwd=ROOT, env=environment, capture_output=True,
            text=True, timeout=120,
        )


class OverLibrary(WithPython):
    """Tests over the shared library. The variables of the environment that name files are not
    set."""

    @classmethod
    def setUpClass(cls) -> None:
        os.environ["KISTALUB_LIBRARY"] = shared_library()

    def stream(self, *lines: str, name: str = "drawn.stream") -> Path:
        path = self.folder / name
        path.write_text("".join(f"{line}\n" for line in lines), encoding="ascii")
        return path
