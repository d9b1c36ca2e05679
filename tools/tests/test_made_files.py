"""The programs that make files, over a copy of the repository: what is out of date is told and
written again, and nothing else."""

from __future__ import annotations

import os
import shutil
import subprocess
from pathlib import Path
from typing import Iterable

from parts import call_answers, call_table, session_answers, tool_lists, tool_table
from parts.preset_table import MADE, NUMBERS, REGIONS, TABLE, with_number
from tests.support import ROOT, InFolder, needs_command, some


class Made(InFolder):
    def copy(self, *names: str) -> None:
        for name in ("tools", "bin/hints", *names):
            place = self.folder / name
            place.parent.mkdir(parents=True, exist_ok=True)
            if (ROOT / name).is_dir():
                shutil.copytree(ROOT / name, place, ignore=shutil.ignore_patterns("tests"))
            else:
                shutil.copy(ROOT / name, place)

    def run_tool(self, tool: str, *words: str) -> tuple[int, str, str]:
        done = subprocess.run(
            [str(self.folder / "tools" / tool), *words], capture_output=True, text=True
        )
        return done.returncode, done.stdout, done.stderr

    def check(self, tool: str, made: Path, writes: str = "writes them") -> None:
        """One that is changed is told, stays as it is, and is written again without --check. So is
        one that is gone."""
        name, whole = str(made.relative_to(self.folder)), made.read_bytes()
        self.assertEqual(self.run_tool(tool, "--check"), (0, "", ""))
        for content in (whole + b"x", whole[:-1], b"\xff", None):
            made.unlink()
            if content is not None:
                made.write_bytes(content)
            self.assertEqual(
                self.run_tool(tool, "--check"),
                (1, "", f"{tool}: out of date: {name} (tools/{tool} {writes})\n"),
            )
            self.assertEqual(made.read_bytes() if made.exists() else None, content)
            self.assertEqual(self.run_tool(tool), (0, "", ""))
            self.assertEqual(made.read_bytes(), whole)

    def test_pages(self) -> None:
        self.copy("bin/usage", "examples", "docs/TOOLS.md", "docs/COUNTED.md", "man", "include")
        for name in ("docs/TOOLS.md", "docs/COUNTED.md"):
            self.check("make_pages", self.folder / name)
        shutil.rmtree(self.folder / "man")
        self.assertEqual(self.run_tool("make_pages"), (0, "", ""))
        self.check("make_pages", self.folder / "man/papi_run.1")

    def test_limits_for_c(self) -> None:
        self.copy(
            "c/limits.h",
            *(
                f"crates/{crate}/src/limits.rt"
                for crate in ("papi_base", "papi_tools", "stream_reader")
            ),
        )
        self.check("make_limits", self.folder / "c/limits.h", "writes it")

    def test_what_all_tools_have(self) -> None:
        self.copy(
            tool_table.TABLE, "bin/usage",
            *(name for name in tool_lists.made_texts() if not name.startswith("bin/usage")),
        )
        for name in ("bin/papi_run", "examples/first.words"):
            self.check("make_tools", self.folder / name)
        self.assertEqual(
            [
                os.access(self.folder / name, os.X_OK)
                for name in ("bin/papi_run", "examples/first.words")
            ],
            [True, False],
        )

    def check_regions(
        self, tool: str, table: str, made: Iterable[str], regions: Iterable[str]
    ) -> None:
        """A line more in a region is told, stays, and is gone after a call without --check."""
        self.copy(table, *(name for name in made if not name.startswith("bin/hints")))
        self.assertEqual(self.run_tool(tool, "--check"), (0, "", ""))
        for name in some(regions):
            content = (self.folder / name).read_bytes()
            head, mark, rest = content.partition(f"tools/{tool}: begin".encode())
            line, end, rest = rest.partition(b"\n")
            changed = head + mark + line + end + b"x\n" + rest
            (self.folder / name).write_bytes(changed)
            self.assertEqual(
                self.run_tool(tool, "--check"),
                (1, "", f"{tool}: out of date: {name} (tools/{tool} writes them)\n"),
            )
            self.assertEqual((self.folder / name).read_bytes(), changed)
            self.assertEqual(self.run_tool(tool), (0, "", ""))
            self.assertEqual((self.folder / name).read_bytes(), content)

    def test_tables_of_calls(self) -> None:
        answers = {**call_answers.answer_texts(), **session_answers.session_texts()}
        made = (*call_table.MADE, *answers)
        self.check_regions("make_calls", call_table.TABLE, made, call_table.REGIONS)
        for name in some(answers)[:2]:
            self.check("make_calls", self.folder / name)
        for made_folder in (call_answers.FOLDER, session_answers.FOLDER):
            shutil.rmtree(self.folder / made_folder)
        self.assertEqual(self.run_tool("make_calls"), (0, "", ""))
        self.assertEqual(self.run_tool("make_calls", "--check"), (0, "", ""))

    def test_tables_of_presets(self) -> None:
        self.check_regions("make_presets", TABLE, MADE, REGIONS)
        texts = {
            name: (self.folder / name).read_text(encoding="utf-8") for name in MADE
            if name in some(NUMBERS)
        }
        for name, text in texts.items():
            (self.folder / name).write_text(
                with_number(name, text, NUMBERS[name][-1], 999), encoding="utf-8"
            )
        self.assertEqual(
            self.run_tool("make_presets", "--check"),
            (
                1, "",
                f"make_presets: out of date: {', '.join(texts)} (tools/make_presets writes them)\n",
            ),
        )
        self.assertEqual(self.run_tool("make_presets"), (0, "", ""))
        self.assertEqual(
            {name: (self.folder / name).read_text(encoding="utf-8") for name in texts}, texts
        )

    @needs_command("cc", "a C compiler")
    def test_headers_for_fortran(self) -> None:
        self.copy("include", "bin/usage")
        self.check("make_fortran", self.folder / "include/fpapi.h")

    def test_no_compiler_is_no_fault_of_the_headers(self) -> None:
        self.copy("include", "bin/usage")
        done = subprocess.run(
            [str(self.folder / "tools/make_fortran"), "--check"], capture_output=True, text=True,
            env={"PATH": "/usr/bin:/bin", "CC": "/no/cc"},
        )
        self.assertEqual(
            (done.returncode, done.stdout), (0, "make_fortran: skipped: there is no C compiler\n")
        )
