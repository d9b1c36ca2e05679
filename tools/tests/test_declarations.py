"""checks/declarations: the header for C beside the proved functions, and what differs if one of the
two is changed."""

from __future__ import annotations

import shutil
import subprocess

from tests.support import ROOT, InFolder

# A change of the header, and the line that is said of it.
CHANGES = (
    (
        "int kistalub_add(kistalub *h, uint32_t set, uint32_t code);",
        "int kistalub_add(kistalub *h, uint32_t set, uint64_t code);",
        "function kistalub_add: kistalub.h: int, kistalub *, uint32_t, uint64_t",
    ),
    (
        "int kistalub_reset(kistalub *h, uint32_t set);\n", "",
        "function kistalub_reset: kistalub.h: none",
    ),
    (
        "void kistalub_close(", "int kistalub_close(",
        "function kistalub_close: kistalub.h: int, kistalub *",
    ),
    (
        "uint32_t set, index; uint64_t address", "uint32_t index, set; uint64_t address",
        "struct kistalub_passing: kistalub.h: uint32_t index, uint32_t set, uint64_t address",
    ),
    (
        "uint8_t component, select, umask, kernel;", "uint8_t component, select, kernel, umask;",
        (
            "struct kistalub_occurrences: kistalub.h: uint64_t address, uint32_t amount, uint8_t "
            "component, uint8_t select, uint8_t kernel, uint8_t umask"
        ),
    ),
    (
        "#define KISTALUB_ROW_MASK 2", "#define KISTALUB_ROW_MASK 3",
        (
            "parts NativePart: kistalub.h: KISTALUB_ROW_NAME 0, KISTALUB_ROW_DESCRIPTION 1, "
            "KISTALUB_ROW_MASK 3, KISTALUB_ROW_MASK_DESCRIPTION 3"
        ),
    ),
)


class Declarations(InFolder):
    def setUp(self) -> None:
        super().setUp()
        shutil.copytree(ROOT / "crates/papi_c/src", self.folder / "crates/papi_c/src")
        (self.folder / "include").mkdir()
        self.header = (ROOT / "include/kistalub.h").read_text(encoding="utf-8")

    def said_of(self, header: str) -> str:
        self.write("include/kistalub.h", header)
        return subprocess.run(
            [str(ROOT / "checks/declarations"), str(self.folder)], capture_output=True, text=True
        ).stdout

    def test_the_header_agrees(self) -> None:
        self.assertRegex(self.said_of(self.header), r"^[1-9]\d* passed, 0 failed\n$")

    def test_each_change_of_the_header_is_seen(self) -> None:
        for old, new, line in CHANGES:
            self.assertEqual(self.header.count(old), 1, old)
            said = self.said_of(self.header.replace(old, new))
            self.assertIn(f"declarations: {line}\n", said)
            self.assertTrue(said.endswith(" 1 failed\n"), said)
