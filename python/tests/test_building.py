"""The wheel of the module, and its installation by pip without a network."""

from __future__ import annotations

import base64
import email
import hashlib
import importlib.util
import os
import subprocess
import sys
import sysconfig
import tarfile
import tempfile
import unittest
import zipfile
from pathlib import Path

from shared_library import ROOT

import building

VERSION = (ROOT / "VERSION").read_text(encoding="ascii").strip()


needs_pip = unittest.skipUnless(importlib.util.find_spec("pip"), "pip is not installed")


class Building(unittest.TestCase):
    def setUp(self) -> None:
        folder = tempfile.TemporaryDirectory()
        self.addCleanup(folder.cleanup)
        self.folder = folder.name

    def test_the_record_tells_each_file(self) -> None:
        name = building.build_wheel(self.folder)
        self.assertEqual(name, f"kistalub-{VERSION}-py3-none-any.whl")
        with zipfile.ZipFile(Path(self.folder) / name) as wheel:
            lines = wheel.read(f"kistalub-{VERSION}.dist-info/RECORD").decode().splitlines()
            recorded = {line.split(",")[0]: line.split(",")[1:] for line in lines}
            self.assertEqual(set(recorded), set(wheel.namelist()))
            for path, (digest, size) in recorded.items():
                data = wheel.read(path)
                wanted = (
                    base64.urlsafe_b64encode(hashlib.sha256(data).digest()).decode().rstrip("=")
                )
                self.assertIn(
                    (digest, size), [(f"sha256={wanted}", str(len(data))), ("", "")], path
                )
        modules = {f"kistalub/{path.name}" for path in (ROOT / "python/kistalub").glob("*.py")}
        self.assertLessEqual(modules | {"kistalub/py.typed", "kistalub/VERSION"}, set(recorded))

    def test_what_is_told_of_the_module(self) -> None:
        with zipfile.ZipFile(Path(self.folder) / building.build_wheel(self.folder)) as wheel:
            told = email.message_from_bytes(wheel.read(f"kistalub-{VERSION}.dist-info/METADATA"))
        fields = {
            "Metadata-Version": "2.1",
            "Name": "kistalub",
            "Version": VERSION,
            "Summary": "Event sets of PAPI over modelled counters",
            "License": "BSD-3-Clause",
            "Requires-Python": ">=3.9",
            "Description-Content-Type": "text/markdown",
        }
        self.assertEqual(dict(told.items()), fields)
        self.assertEqual(told.get_payload(), (ROOT / "docs/PYTHON.md").read_text(encoding="utf-8"))

    def test_the_archive_of_sources_gives_the_same_wheel(self) -> None:
        name = building.build_sdist(self.folder)
        self.assertEqual(name, f"kistalub-{VERSION}.tar.gz")
        first = (Path(self.folder) / name).read_bytes()
        self.assertEqual(
            (Path(self.folder) / building.build_sdist(self.folder)).read_bytes(), first
        )
        with tarfile.open(Path(self.folder) / name) as archive:
            archive.extractall(self.folder)
        top = Path(self.folder) / f"kistalub-{VERSION}"
        code = "import sys, building; print(building.build_wheel(sys.argv[1]))"
        environment = {**os.environ, "PYTHONPATH": str(top / "python")}
        told = subprocess.run(
            [sys.executable, "-B", "-c", code, str(top)], env=environment, capture_output=True,
            text=True
        )
        wheel = building.build_wheel(self.folder)
        self.assertEqual((told.stdout, told.stderr), (f"{wheel}\n", ""))
        self.assertEqual((top / wheel).read_bytes(), (Path(self.folder) / wheel).read_bytes())
        self.assertIn(f"Version: {VERSION}\n", (top / "PKG-INFO").read_text(encoding="utf-8"))

    def test_a_wheel_may_have_the_library(self) -> None:
        library = Path(self.folder) / "some.so"
        library.write_bytes(b"code")
        name = building.build_wheel(self.folder, {"library": str(library)})
        tag = "py3-none-" + sysconfig.get_platform().replace("-", "_").replace(".", "_")
        self.assertEqual(name, f"kistalub-{VERSION}-{tag}.whl")
        with zipfile.ZipFile(Path(self.folder) / name) as wheel:
            self.assertEqual(wheel.read("kistalub/libpapi.so.7.0"), b"code")
            told = wheel.read(f"kistalub-{VERSION}.dist-info/WHEEL").decode()
        self.assertIn(f"Root-Is-Purelib: false\nTag: {tag}\n", told)
        with self.assertRaises(FileNotFoundError):
            building.build_wheel(self.folder, {"library": f"{self.folder}/none.so"})

    def test_pytest_finds_the_plugin(self) -> None:
        with zipfile.ZipFile(Path(self.folder) / building.build_wheel(self.folder)) as wheel:
            told = wheel.read(f"kistalub-{VERSION}.dist-info/entry_points.txt").decode()
            self.assertIn("kistalub/pytest_plugin.py", wheel.namelist())
        self.assertEqual(told, "[pytest11]\nkistalub = kistalub.pytest_plugin\n")

    def test_the_same_files_give_the_same_wheel(self) -> None:
        first = (Path(self.folder) / building.build_wheel(self.folder)).read_bytes()
        self.assertEqual(
            first, (Path(self.folder) / building.build_wheel(self.folder)).read_bytes()
        )

    def installed(self, *words: str) -> str:
        """What pip installs without a network, and where Python finds the module then."""
        place = Path(self.folder) / "place"
        pip = [
            sys.executable, "-m", "pip", "install", "--quiet", "--no-index", "--no-deps",
            "--disable-pip-version-check",
        ]
        ran = subprocess.run(
            [*pip, "--prefix", str(place), *words], capture_output=True, text=True, timeout=120
        )
        self.assertEqual(ran.returncode, 0, ran.stderr)
        site = next(place.rglob("site-packages"))
        code = (
            f"import site; site.addsitedir({str(site)!r})\n"
            "import kistalub; print(kistalub.__version__, kistalub.__file__)"
        )
        told = subprocess.run(
            [sys.executable, "-B", "-c", code], cwd=self.folder, capture_output=True, text=True
        )
        version, _, file = told.stdout.partition(" ")
        self.assertEqual((version, told.stderr), (VERSION, ""))
        return file.strip().removeprefix(f"{site}/")

    @needs_pip
    def test_pip_installs_it_without_an_index(self) -> None:
        self.assertEqual(self.installed(str(ROOT)), "kistalub/__init__.py")

    @needs_pip
    def test_pip_installs_the_checkout_itself(self) -> None:
        self.assertEqual(
            self.installed("--editable", str(ROOT)), str(ROOT / "python/kistalub/__init__.py")
        )

    @needs_pip
    def test_pip_installs_the_archive_of_sources(self) -> None:
        self.assertEqual(
            self.installed(f"{self.folder}/{building.build_sdist(self.folder)}"),
            "kistalub/__init__.py",
        )
