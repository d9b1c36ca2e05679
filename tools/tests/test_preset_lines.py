"""tools/preset_lines: rows and lines of a file."""

from __future__ import annotations

from tests.support import ROOT, InFolder, needs_program, run_program, run_tool

PRESETS = "# presets\n\nCPU,lab1\n\n  \nPRESET,PAPI_BR_PRC,DERIVED_POSTFIX,N0|+|,lab::BR_MISP\n"


class Lines(InFolder):
    def locate(self, content: str, *errors: str) -> str:
        self.write("p", content)
        done = run_tool(
            "preset_lines", "p", text="".join(f"{error}\n" for error in errors), folder=self.folder
        )
        self.assertEqual((done.returncode, done.stderr), (0, ""))
        return done.stdout

    def test_blank_and_comment_lines_are_no_rows(self) -> None:
        for row, line, text in (
            (1, 3, "CPU,lab1"), (2, 5, "  "),
            (3, 6, "PRESET,PAPI_BR_PRC,DERIVED_POSTFIX,N0|+|,lab::BR_MISP"),
        ):
            self.assertEqual(
                self.locate(PRESETS, f"papi: p: row {row}: bad field"),
                f"p:{line}: bad field: {text}\n",
            )

    def test_ends_of_lines_and_byte_order_mark(self) -> None:
        content = "\ufeff# first\r\nCPU,a\r\r\n #kept\nCPU,b"
        self.assertEqual(
            self.locate(content, "papi: p: row 2: bad row", "papi: p: row 3: bad row"),
            "p:4: bad row:  #kept\np:5: bad row: CPU,b\n",
        )

    def test_other_lines_stay(self) -> None:
        for line in ("papi: q: row 1: bad row", "papi: p: too large", "1 0 create PAPI_OK 0"):
            self.assertEqual(self.locate(PRESETS, line), line + "\n")

    def test_refusals(self) -> None:
        self.write("p", PRESETS)
        done = run_tool("preset_lines", "p", text="papi: p: row 4: bad field\n", folder=self.folder)
        self.assertEqual(
            (done.returncode, done.stderr),
            (1, "preset_lines: p has 3 rows, and the error names row 4\n"),
        )
        done = run_tool("preset_lines", "absent", folder=self.folder)
        self.assertEqual(
            (done.returncode, done.stderr), (1, "preset_lines: absent: No such file or directory\n")
        )
        self.assertEqual(run_tool("preset_lines").returncode, 2)
        self.assertEqual(run_tool("preset_lines", "--help").returncode, 0)

    @needs_program
    def test_an_error_of_the_program(self) -> None:
        presets = self.write("p", PRESETS)
        done = run_program(
            "papi_decode", "-U", str(ROOT / "examples/lab.unit"), "-P", presets, "-C", "lab1"
        )
        located = run_tool("preset_lines", presets, text=done.stderr)
        self.assertEqual(
            located.stdout,
            f"{presets}:6: broken formula: PRESET,PAPI_BR_PRC,DERIVED_POSTFIX,N0|+|,lab::BR_MISP\n",
        )
