"""checks/papi_users: what it takes for a right trace, and what it says of sources that are not
there."""

from __future__ import annotations

import contextlib
import io
import os
import subprocess
import sys
import unittest
from importlib.machinery import SourceFileLoader
from importlib.util import module_from_spec, spec_from_loader
from pathlib import Path
from types import SimpleNamespace
from typing import Any
from unittest import mock

from source_packages import Missing, Sources
from tests.support import ROOT, InFolder

TRACE = '1 7 1 PAPI_TOT_INS "1 1 1"\n1 8 1 PAPI_BR_INS "1 1 1"\n'


def read_check() -> Any:
    loader = SourceFileLoader("papi_users", str(ROOT / "checks/papi_users"))
    spec = spec_from_loader("papi_users", loader)
    assert spec is not None
    module = module_from_spec(spec)
    sys.modules["papi_users"] = module
    loader.exec_module(module)
    return module


class Traces(InFolder):
    def failures(self, *rows: str) -> int:
        check = read_check()
        bench = check.Bench(Sources(self.folder), self.folder, self.folder)
        text = TRACE + "".join(f"8 0.5 {row}\n" for row in rows)
        with contextlib.redirect_stdout(io.StringIO()) as said:
            check.judge_trace(bench, Path(self.write("trace", text)))
        return said.getvalue().count("FAILED")

    def test_three_ranks(self) -> None:
        right = [
            f"{kind} {rank} {each * rank * 1_000_000 + 5000}.000000"
            for kind, each in ((7, 2), (8, 1))
            for rank in (1, 2, 3)
        ]
        self.assertEqual(self.failures(*right), 0)
        self.assertEqual(self.failures(*right[:-1]), 1)
        self.assertEqual(self.failures(*right[:-1], "8 3 2999999.000000"), 1)
        self.assertEqual(self.failures(*right[:-1], "8 3 3020001.000000"), 1)
        self.assertEqual(self.failures(), 6)


class Packages(InFolder):
    def test_the_newest_one_that_is_unpacked(self) -> None:
        for name in ("papi-7.0.0", "papi-7.1.0", "papi-tools-9", "papi_7.2.dsc"):
            (self.folder / name).mkdir()
        self.assertEqual(Sources(self.folder).find("papi"), self.folder / "papi-7.1.0")

    def test_without_what_gets_it(self) -> None:
        with mock.patch.dict(os.environ, {"PATH": str(self.folder)}):
            with self.assertRaisesRegex(Missing, "no apt-get with dpkg-source"):
                Sources(self.folder).find("papi")

    def test_what_apt_says(self) -> None:
        done = subprocess.CompletedProcess([], 100, "", "W: a warning\nE: no network\n")
        with mock.patch("source_packages.subprocess.run", return_value=done):
            with mock.patch("source_packages.shutil.which", return_value="/bin/true"):
                with self.assertRaisesRegex(Missing, "^apt-get update: E: no network$"):
                    Sources(self.folder).find("papi")

    def test_a_client_without_its_source_is_skipped(self) -> None:
        check = read_check()

        def client(bench: object) -> None:
            raise Missing("no network")

        bench = SimpleNamespace(folder=self.folder)
        with contextlib.redirect_stdout(io.StringIO()) as said:
            check.try_client(bench, "examples", client)
        self.assertEqual(said.getvalue(), "examples: skipped: no network\n")
        self.assertEqual(bench.folder, self.folder)


if __name__ == "__main__":
    unittest.main()
