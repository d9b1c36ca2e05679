"""tools/preset_rows: rows of PAPI's preset file as user events."""

from __future__ import annotations

from tests.support import ROOT, InFolder, needs_program, run_program, run_tool

PRESETS = """# presets
CPU,lab1
PRESET,PAPI_TOT_INS,NOT_DERIVED,lab::INST_RETIRED
PRESET,PAPI_FP_INS,NOT_DERIVED,lab::CACHE,NOTE,'a, note'
preset, papi_l1_dca ,derived_add, lab::CACHE , lab::CYCLES
PRESET,PAPI_SP_OPS,DERIVED_INFIX,(N0-N1)*2,lab::CACHE,lab::CYCLES
PRESET,PAPI_DP_OPS,DERIVED_POSTFIX,N0|N1|-|,lab::CACHE,lab::CYCLES,,ignored
EVENT,OWN,NOT_DERIVED,lab::CYCLES
PRESET,PAPI_NONE,NOT_DERIVED,lab::CYCLES
"""
WRITTEN = """CPU,lab1
PRESET,PAPI_TOT_INS,NOT_DERIVED,lab::INST_RETIRED
EVENT,FP_INS,NOT_DERIVED,lab::CACHE
EVENT,L1_DCA,DERIVED_ADD,lab::CACHE,lab::CYCLES
EVENT,SP_OPS,DERIVED_INFIX,(N0-N1)*2,lab::CACHE,lab::CYCLES
EVENT,DP_OPS,DERIVED_POSTFIX,N0|N1|-|,lab::CACHE,lab::CYCLES
EVENT,OWN,NOT_DERIVED,lab::CYCLES
PRESET,PAPI_NONE,NOT_DERIVED,lab::CYCLES
"""


class Rows(InFolder):
    def test_presets_that_are_none_of_the_26_become_user_events(self) -> None:
        self.write("p", PRESETS)
        done = run_tool("preset_rows", "p", folder=self.folder)
        self.assertEqual((done.returncode, done.stdout, done.stderr), (0, WRITTEN, ""))

    def test_what_cannot_be_a_row_is_left_out(self) -> None:
        for rest, why in (
            ("DERIVED_PS,lab::CYCLES", "is of a type that is not computed: DERIVED_PS"),
            ("", "is of a type that is not computed: none"),
            ("NOT_DERIVED", "has no native event"),
            ("DERIVED_ADD" + ",lab::CYCLES" * 9, "has more than 8 native events"),
        ):
            self.write("p", f"CPU,lab1\n\nPRESET,PAPI_L2_DCA,{rest}\n")
            done = run_tool("preset_rows", "p", folder=self.folder)
            self.assertEqual((done.returncode, done.stdout), (0, "CPU,lab1\n"))
            self.assertEqual(done.stderr, f"preset_rows: line 3: PAPI_L2_DCA {why}: left out\n")

    def test_bytes_that_are_no_text(self) -> None:
        (self.folder / "p").write_bytes(b"CPU,lab1\nEVENT,OWN\xff,NOT_DERIVED,lab::CYCLES\n")
        done = run_tool("preset_rows", "p", folder=self.folder)
        self.assertEqual(
            (done.returncode, done.stdout, done.stderr),
            (0, "CPU,lab1\nEVENT,OWN\ufffd,NOT_DERIVED,lab::CYCLES\n", ""),
        )

    def test_refusals(self) -> None:
        done = run_tool("preset_rows", "absent", folder=self.folder)
        self.assertEqual(
            (done.returncode, done.stderr), (1, "preset_rows: absent: No such file or directory\n")
        )
        self.assertEqual(run_tool("preset_rows").returncode, 2)
        self.assertEqual(run_tool("preset_rows", "--help").returncode, 0)

    @needs_program
    def test_the_program_counts_them(self) -> None:
        written = self.write("p", WRITTEN)
        done = run_program(
            "papi_avail", "-U", str(ROOT / "examples/lab.unit"), "-P", written, "-C", "lab1", "-a"
        )
        for name in ("FP_INS", "L1_DCA", "SP_OPS", "DP_OPS", "OWN"):
            self.assertRegex(done.stdout, rf"(?m)^{name} ")
