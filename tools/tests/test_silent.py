"""bin/hints/silent.sh: without Python, whether a native event may be one for which no line of the
streams counts. It is never wrong when it says no."""

from __future__ import annotations

import os
import subprocess

from tests.hint_cases import FILES, PRESETS, STREAM, UNIT
from tests.support import ROOT, InFolder

SAYS = '. "$0"; may_be_silent "$@"'
WORDS = "papi_run -U u s t"
PRESET = "papi_run -U u -P p -C small s t"
MANY = "COMPONENT,core,mine\nEVENT,ANY,{select},C0,Any\nUMASK,SOME,{mask},d,Some\n"


def adding(*names: str) -> str:
    return "0 create\n" + "".join(f"0 add 0 {name}\n" for name in names) + "0 start 0\n"


def line(select: str = "d0", mask: str = "01", mode: str = "u", component: int = 0) -> str:
    return f"{component} {select} {mask} {mode} 7 1\n"


class Silent(InFolder):
    def may_be(self, *words: str, **files: str) -> bool:
        for name, text in {**FILES, **files}.items():
            self.write(name, text)
        path = ROOT / "bin/hints/silent.sh"
        done = subprocess.run(
            ["/bin/sh", "-c", SAYS, str(path), *words], cwd=self.folder, capture_output=True,
            text=True,
        )
        self.assertEqual((done.stdout, done.stderr, done.returncode in (0, 1)), ("", "", True))
        return done.returncode == 0

    def check(self, words: str, *cases: tuple[bool, str, str], **files: str) -> None:
        """Cases of a script and a stream: whether an event of the script may be silent over the
        stream."""
        for wanted, script, stream in cases:
            self.assertEqual(
                self.may_be(*words.split(" "), s=script, t=stream, **files), wanted,
                (words, script, stream),
            )

    def test_a_line_counts_by_its_select_code(self) -> None:
        for select in ("00", "09", "0a", "9f", "a0", "bc", "de", "ff"):
            for written in (select, select.upper()):
                unit = MANY.format(select=written, mask="01")
                self.check(
                    WORDS, (False, adding("ANY"), line(select)),
                    (False, adding("ANY"), line(select.upper())), u=unit,
                )
                others = "".join(line(other) for other in (select[0] + "1", "1" + select[1], "11"))
                self.check(WORDS, (True, adding("ANY"), others), u=unit)

    def test_a_line_counts_if_it_shares_a_bit(self) -> None:
        for mask in (0x01, 0x02, 0x04, 0x08, 0x10, 0x20, 0x40, 0x80, 0x0A, 0xC0, 0x5C, 0xFF):
            unit = MANY.format(select="c4", mask=f"{mask:02x}")
            none = "".join(
                line("c4", f"{other:02x}") + line("c4", f"{other:02X}") for other in range(256)
                if not other & mask
            )
            self.check(WORDS, (True, adding("ANY"), none), u=unit)
            shared = [other for other in range(256) if other & mask]
            for other in (
                shared[0], shared[len(shared) // 2], shared[-1], *(0x0F & mask, 0xF0 & mask),
            ):
                for text in {f"{other:02x}", f"{other:02X}"} if other else ():
                    self.check(WORDS, (False, adding("ANY"), line("c4", text)), u=unit)
        self.check(
            WORDS, (False, adding("ANY"), line("c4", "00")),
            (False, adding("ANY"), line("c4", "fF")), u=MANY.format(select="c4", mask="00"),
        )

    def test_umasks_that_are_named_go_before_the_default(self) -> None:
        self.check(
            WORDS, (False, adding("LOADS"), line()), (True, adding("LOADS:MISSES"), line()),
            (False, adding("loads:misses"), line(mask="02")),
            (False, adding("LOADS:MISSES:ALL"), line()),
            (False, adding("STORES"), line("d1", "80")),
            (True, adding("STORES:HITS"), line("d1", "02")),
            (False, adding("STORES:HITS:MISSES"), line("d1", "02")),
            (True, adding("STORES:HITS", "LOADS"), line("d1", "01")),
            (True, adding("STORES:HITS", "LOADS"), line()),
            (False, adding("STORES:HITS", "LOADS"), line() + line("d1")),
        )

    def test_a_mode_that_is_asked_for(self) -> None:
        for attributes, counts in (
            (":u", "u"), (":k", "k"), (":u:k", "uk"), (":u=1:k=0", "u"), (":u=y", "u"),
            (":K=T", "k"), (":u=0:k=n", "uk"), ("", "uk"), (":c=2", "uk"),
        ):
            for mode in "uk":
                self.check(
                    WORDS, (mode not in counts, adding(f"LOADS:ALL{attributes}"), line(mode=mode))
                )

    def test_components_and_their_names(self) -> None:
        two = (
            UNIT
            + (
                "UMASK,ALL,03,d,All\n COMPONENT , more , yours \nCOUNTER,D0,32,P\n"
                " EVENT , LOADS , e0 ,D0,Loads\nEVENT,SLOTS,e1,D0,Slots\n"
            )
        )
        self.check(
            WORDS, (False, adding("LOADS"), line()),
            (True, adding("LOADS"), line("e0", component=1)),
            (False, adding("mine::LOADS"), line()),
            (False, adding("yours::loads"), line("e0", component=1)),
            (True, adding("Yours::LOADS"), line("e0")), (True, adding("SLOTS"), line("e1")),
            (False, adding("SLOTS"), line("e1", component=1)),
            (True, adding("SLOTS"), line("e1", component=11)), (False, adding("others::LOADS"), ""),
            (False, adding("NO_SUCH"), ""), (True, adding("mine:::LOADS"), line()),
            u="# COMPONENT,no,no\n" + two,
        )

    def test_lines_of_a_script(self) -> None:
        silent = (True, "0 create\n0 add 0 LOADS\n", STREAM)
        self.check(
            WORDS, silent, (True, " \t0  add\t0 LOADS \r\n", STREAM),
            (False, "#0 add 0 LOADS\n# 0 add 0 LOADS\n", STREAM),
            (False, "0 remove 0 LOADS\n", STREAM),
            (True, "0 add 0 INSTRUCTIONS\n1 add 0 LOADS", STREAM), (False, "", STREAM),
        )

    def test_presets(self) -> None:
        rows = ("CPU,other\nPRESET,PAPI_TOT_INS,NOT_DERIVED,STORES\nCPU,small\nCPU,large\n"
                " preset , PAPI_TOT_INS , NOT_DERIVED , INSTRUCTIONS \n"
                "PRESET,PAPI_L1_LDM,DERIVED_POSTFIX,N0|LOADS|,INSTRUCTIONS,note,LOADS\n"
                "PRESET,PAPI_L1_STM,DERIVED_ADD,INSTRUCTIONS,LOADS:MISSES,SDESC,a\n"
                "EVENT,MINE,DERIVED_INFIX,N0+N1,INSTRUCTIONS,,LOADS\n"
                "#EVENT,MINE,DERIVED_ADD,LOADS\nCPU,later\nEVENT,MINE,NOT_DERIVED,LOADS\n"
                "PRESET,PAPI_FP_OPS,NOT_DERIVED,LOADS\n")
        self.check(
            PRESET,
            (
                False, adding("PAPI_TOT_INS", "PAPI_L1_LDM", "MINE", "PAPI_FP_OPS", "PAPI_BR_INS"),
                STREAM,
            ),
            (True, adding("PAPI_TOT_INS"), line()),
            (True, adding("PAPI_L1_STM"), STREAM),
            (True, adding("PAPI_L1_STM"), STREAM + line()),
            (False, adding("PAPI_L1_STM"), STREAM + line(mask="02")),
            (True, adding("LOADS"), STREAM),
            p=rows,
        )
        self.check(
            PRESET.replace("small", "later"), (True, adding("MINE"), STREAM),
            (True, adding("PAPI_FP_OPS"), STREAM), (False, adding("MINE"), line()), p=rows,
        )
        self.check(PRESET.replace("small", "large"), (True, adding("PAPI_TOT_INS"), line()), p=rows)
        self.check(
            PRESET.replace("small", "other"), (True, adding("PAPI_TOT_INS"), line()),
            (False, adding("PAPI_TOT_INS"), line("d1")), p=rows,
        )

    def test_events_of_regions(self) -> None:
        for words in (
            "--events LOADS", "--events=LOADS", "--events INSTRUCTIONS,loads:misses",
            "-P p --events=BOTH -C small",
        ):
            self.check(
                f"papi_regions -U u {words} r t", (True, "", STREAM),
                (False, "", STREAM + line(mask="03")), p=PRESETS,
            )
        self.check("papi_regions -U u --events INSTRUCTIONS r t", (False, adding("LOADS"), STREAM))

    def test_words(self) -> None:
        """A form that is left to Python may be silent. Without a stream nothing is."""
        for words in (
            "papi_run -Uu s t", "papi_profil -U u -M m s t", "papi_profil -Mm -U u s t",
            "papi_run --workers 2 -U u s t", "papi_run --workers=2 --notes -U u s t",
            "papi_run -U u -- s t", "papi_profil --thread 1 --set 2 --index 3 -U u s t",
            "papi_profil --thread=1 --set=2 --index=3 -U u s t", "papi_run s t -U u",
            "papi_run -U u s x t", "papi_run -U u s t x",
        ):
            self.check(
                words, (True, adding("LOADS"), STREAM), (False, adding("LOADS"), line()), x=""
            )
        self.check(
            "papi_run -U u -- -s t", (True, "", STREAM), (False, "", line()),
            **{"-s": adding("LOADS")},
        )
        for words in ("papi_run -U u -x s t", "papi_run --other -U u s t", "papi_run -U u s a\nb"):
            self.check(words, (True, adding("LOADS"), line()))
        for words in (
            "papi_run -U u s", "papi_run -U u s t absent", "papi_run -U u s .",
            "papi_run -U u s t fifo",
        ):
            if not (self.folder / "fifo").exists():
                os.mkfifo(self.folder / "fifo")
            self.check(words, (False, adding("LOADS"), STREAM))
        self.check("papi_run -U u s a*b", (True, adding("LOADS"), ""), **{"a*b": "", "a-b": line()})
        (self.folder / "two words").write_text(line())
        self.assertFalse(self.may_be("papi_run", "-U", "u", "s", "two words", s=adding("LOADS")))

    def test_what_counts_otherwise_in_a_recording(self) -> None:
        """All events with a processor's own codes, and over a unit with the codes of recordings
        those with a least amount."""
        for pmu, is_processor in (
            ("skl", True), ("SKX", True), ("hsw_ep", True), ("amd64_fam17h_zen2", True),
            ("mine", False), ("skl2", False),
        ):
            for head, is_own in (("", True), ("# counted: so\n", False)):
                unit = head + MANY.format(select="c4", mask="01").replace("mine", pmu)
                self.check(
                    WORDS, (is_processor, adding("ANY:c=1"), line("c4")),
                    (is_processor and is_own, adding("ANY"), line("c4")), u=unit,
                )
                self.check(
                    WORDS, (is_processor, adding("ANY"), line("c4")),
                    u=unit + "UMASK_MODIFIERS,-,2\n",
                )
                more = "EVENT,MORE,c5,C0,More\nUMASK,SOME,04,-,\nUMASK_MODIFIERS,-,2\n"
                self.check(
                    WORDS, (is_processor and is_own, adding("ANY"), line("c4")), u=unit + more
                )
