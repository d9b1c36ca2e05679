"""Our tool of Valgrind at its edges: streams that fail, faults, time that passes, instructions that
Valgrind does not have, and what adds up."""

from __future__ import annotations

import subprocess
import unittest
from pathlib import Path
from typing import Mapping

from parts import valgrind
from parts.machine import MACHINES, Machine, read_cache
from parts.recording import Recorded, Wanted, record
from tests.counted import Counted
from tests.support import ROOT, TOOLS, InFolder, needs_command, needs_library
from tests.test_tool import Recording, needs_tool

LONGEST = 30  # seconds: a write that fails must not be tried again and again
HEADERS = next(
    (
        folder
        for folder in ("/usr/include/valgrind", "/usr/local/include/valgrind")
        if Path(folder, "pub_tool_basics.h").is_file()
    ),
    None,
)


def source(name: str) -> str:
    """The text of a program in the folder of tests."""
    return (TOOLS / "tests" / name).read_text(encoding="ascii")


@needs_command("cc", "a C compiler")
@unittest.skipUnless(HEADERS, "valgrind's headers are not installed")
class Streams(InFolder):
    MOST = 67_108_864

    def setUp(self) -> None:
        super().setUp()
        self.program = str(self.folder / "streams")
        macros = [
            "-DVGA_amd64=1",
            "-DVGO_linux=1",
            "-DVGP_amd64_linux=1",
            "-DVGPV_amd64_linux_vanilla=1",
        ]
        subprocess.run(
            [
                "cc",
                "-O1",
                "-std=gnu11",
                "-w",
                "-fno-builtin",
                *macros,
                "-isystem",
                HEADERS or "",
                f"-I{valgrind.SOURCES}",
                "-o",
                self.program,
                str(TOOLS / "tests/output_stubs.c"),
                str(valgrind.SOURCES / "output.c"),
            ],
            check=True,
        )

    def put(self, output: str, *sizes: int | str) -> tuple[int, str]:
        with open(output, "wb") as file:
            done = subprocess.run(
                [self.program, *map(str, sizes)],
                stdout=file,
                stderr=subprocess.PIPE,
                text=True,
                timeout=LONGEST,
            )
        return done.returncode, done.stderr

    def test_a_stream_takes_its_limit_to_the_last_byte(self) -> None:
        place = self.folder / "stream"
        for sizes, told, size in (
            ((self.MOST,), (0, ""), self.MOST),
            ((self.MOST - 1, 1), (0, ""), self.MOST),
            ((self.MOST, 1), (1, "full 1234\n"), self.MOST),
            ((self.MOST - 9, 10), (1, "full 1234\n"), self.MOST - 9),
        ):
            self.assertEqual(
                (self.put(str(place), *sizes), place.stat().st_size), (told, size), sizes
            )

    def test_a_write_that_fails_ends_the_run(self) -> None:
        self.assertEqual(self.put("/dev/full", 10), (1, "failed the stream can't be written\n"))
        self.assertEqual(
            self.put("/dev/full", 1_000_000), (1, "failed the stream can't be written\n")
        )
        self.assertEqual(
            self.put("/dev/null", "nothing", 10), (1, "failed the stream can't be written\n")
        )


@needs_tool
class Ends(Recording):
    def test_an_output_that_takes_nothing(self) -> None:
        outputs: tuple[tuple[str, ...], ...] = (("-o", "/dev/full"), ())
        for words in outputs:
            with open("/dev/full", "wb") as full:
                done = subprocess.run(
                    [str(TOOLS / "record"), *words, self.compile("sample")],
                    stdout=full,
                    stderr=subprocess.PIPE,
                    text=True,
                )
            self.assertEqual(
                (done.returncode, done.stderr), (1, "record: the stream can't be written\n"), words
            )

    def test_faults_in_the_middle_of_a_block(self) -> None:
        """Ten instructions are run before the store that faults, and fourteen before the division.
        The one that faults has its line."""
        program = self.compile(
            "faults", source("faults.c"), "-static", "-fno-pie", "-no-pie", "-fcf-protection=none"
        )
        nm = subprocess.run(
            ["nm", "-S", program], capture_output=True, text=True, check=True
        ).stdout
        first, size = next(
            (int(words[0], 16), int(words[1], 16))
            for words in map(str.split, nm.splitlines())
            if words[-1] == "fault"
        )
        for signal_number, wanted in ((11, 11), (7, 11), (8, 15)):
            lines = [
                line.split() for line in self.record("--from", "fault", program, str(signal_number))
            ]
            found = [
                int(line[4])
                for line in lines
                if line[1] == "c0" and first <= int(line[5], 16) < first + size
            ]
            self.assertEqual(sum(found), wanted, signal_number)

    def test_a_program_that_is_not_there_by_a_bad_pointer(self) -> None:
        """EFAULT, and the recording goes on."""
        program = self.compile(
            "pointers",
            """
            #define _GNU_SOURCE
            #include <errno.h>
            #include <unistd.h>
            #include <sys/syscall.h>
            int main(int count, char **words) {
                const char *paths[] = {(char *)8, NULL, (char *)-1};
                for (int i = 0; i < 3; i++) {
                    if (syscall(SYS_execve, paths[i], words, 0) != -1 || errno != EFAULT) return 1;
                    errno = 0;
                    if (syscall(SYS_execveat, -100, paths[i], words, 0, 0) != -1 || errno != EFAULT)
                        return 2;
                }
                return 0;
            }
        """,
        )
        done = subprocess.run(
            [str(TOOLS / "record"), "-o", str(self.folder / "stream"), program],
            capture_output=True,
            text=True,
        )
        self.assertEqual((done.returncode, done.stderr.count("\n")), (0, 1), done.stderr)


@needs_tool
@needs_library
class Refused(Counted):
    AVX512 = """
        #include <setjmp.h>
        #include <signal.h>
        static sigjmp_buf back;
        static void on(int n) { (void)n; siglongjmp(back, 1); }
        int main(int count, char **words) {
            signal(SIGILL, on);
            for (int turn = 0; turn < 2; turn++) {
                if (sigsetjmp(back, 1)) continue;
                if (count == 1) __asm__ volatile(".byte 0x62, 0xf1, 0x7d, 0x48, 0xef, 0xc0");
                else if (words[1][0] == 'k') __asm__ volatile(".byte 0xc5, 0xf8, 0x92, 0xc8");
                else if (words[1][0] == 'u') __asm__ volatile("ud2");
                else __asm__ volatile("xlat" : : "b"(words), "a"(0));
            }
            return puts("back") < 0;
        }
    """
    LINE = (
        r"the instruction at 0x[0-9a-f]+ is one of AVX-512, which Valgrind does not have: "
        r"compile with -mno-avx512f\n"
    )
    OTHER = r"Valgrind does not have the instruction at 0x[0-9a-f]+\n"

    def test_what_valgrind_does_not_have_is_said_once(self) -> None:
        """vpxord and kmovw; xlat; and ud2, which is there to fault. The program goes on as it
        would."""
        program = self.compile(self.AVX512)
        for words, line in (
            ((), self.LINE),
            (("k",), self.LINE),
            (("x",), self.OTHER),
            (("u",), ""),
        ):
            done = self.count(program, *words)
            self.assertEqual((done.stdout, done.returncode), ("back\n", 0))
            said = "".join(f"{told}\n" for told in done.stderr.splitlines() if "Valgrind" in told)
            self.assertRegex(said, rf"\Apapi: {line}\Z" if line else r"\A\Z")
            recorded = subprocess.run(
                [str(TOOLS / "record"), "-o", str(self.folder / "stream"), program, *words],
                capture_output=True,
                text=True,
            )
            self.assertEqual((recorded.returncode, recorded.stdout), (0, "back\n"))
            self.assertRegex(
                recorded.stderr,
                rf"\A{f'record: {line}' if line else ''}record: [\d,]+ instructions, .*\n\Z",
            )


WALKS = """
    static volatile char table[393216];
    __attribute__((noinline)) void many(void) { __asm__ volatile(".rept 40000\\nnop\\n.endr"); }
    int main(void) {
        for (int turn = 0; turn < 3; turn++) {
            for (int i = 0; i < 131072; i += 64) (void)table[i];
            for (int i = 0; i < 131072; i += 64) table[i] = 1;
            many();
        }
        for (int turn = 0; turn < 3; turn++) {
            for (int i = 0; i < 393216; i += 64) (void)table[i];
            for (int i = 0; i < 393216; i += 64) table[i] = 1;
        }
        return 0;
    }
"""
SIDES = ("load", "store", "fetch")


@needs_tool
class Sums(Recording):
    def recorded(
        self, program: str, machine: Machine, stream: str = "stream", has_further: bool = False
    ) -> Recorded:
        wanted = Wanted(program, [], machine, has_further=has_further)
        found = record(wanted, str(self.folder / stream), "test")
        self.assertEqual((found.status, found.failure), (0, None))
        return found

    def test_what_misses_cost(self) -> None:
        """Each cycle beside that of an instruction is of something that happened, by costs that
        differ."""
        machine = Machine(MACHINES["skl"].shapes, costs=(3, 7, 11, 13, 17))
        found = self.recorded(self.compile("walks", WALKS), machine)
        parts = {
            3: [f"l2_{side}_hits" for side in SIDES],
            7: [f"l3_{side}_hits" for side in SIDES],
            11: [f"l3_{side}_misses" for side in SIDES],
            13: ["dtlb_load_misses", "dtlb_store_misses", "itlb_misses"],
            17: ["mispredicted_taken", "mispredicted_not_taken"],
        }
        self.assertEqual(
            found.sum("stalls"), sum(cost * found.sum(*names) for cost, names in parts.items())
        )
        self.assertEqual(found.sum("cycles"), found.sum("instructions", "stalls"))
        self.assertGreater(min(found.sum(*names) for names in parts.values()), 10, found.totals)

    def of_unit(self) -> dict[str, tuple[str, int]]:
        """The codes of examples/recorded.unit: of EVENT:UMASK, or of EVENT if it has none."""
        codes: dict[str, tuple[str, int]] = {}
        for line in (ROOT / "examples/recorded.unit").read_text(encoding="ascii").splitlines():
            words = line.split(",")
            if words[0] == "EVENT":
                event = words[1]
                codes[event] = words[2], 0
            elif words[0] == "UMASK":
                codes[f"{event}:{words[1]}"] = codes[event][0], int(words[2], 16)
        return codes

    WANTED: Mapping[str, tuple[str, ...]] = {
        "MEMORY:LOADS": ("loads",),
        "MEMORY:STORES": ("stores",),
        "L1D_MISS:LOADS": ("l1d_load_misses",),
        "L1D_MISS:STORES": ("l1d_store_misses",),
        "L1I_MISS:ALL": ("l1i_misses",),
        **{
            f"{level}:{side.upper()}{'ES' if side == 'fetch' else 'S'}": tuple(
                f"{level.lower()}_{side}_{what}" for what in ("hits", "misses")
            )
            for level in ("L2", "L3")
            for side in SIDES
        },
        **{
            f"{level}_MISS:{side.upper()}{'ES' if side == 'fetch' else 'S'}": (
                f"{level.lower()}_{side}_misses",
            )
            for level in ("L2", "L3")
            for side in SIDES
        },
    }

    def test_what_the_unit_counts_is_what_happened(self) -> None:
        """An event counts each line of its select code that shares a bit of its umask."""
        found = self.recorded(self.compile("walks", WALKS), MACHINES["skl"])
        sums = self.sums((self.folder / "stream").read_text(encoding="ascii").splitlines()[1:])
        codes = self.of_unit()
        for name, kinds in self.WANTED.items():
            select, bits = codes[name]
            counted = sum(
                count
                for code, count in sums.items()
                if code.split()[0] == select and int(code.split()[1], 16) & bits
            )
            self.assertEqual(counted, found.sum(*kinds), name)
        self.assertGreater(min(found.sum(f"l2_{side}_hits") for side in SIDES), 500, found.totals)

    def test_threads_that_have_ended_are_in_the_sum(self) -> None:
        """A thread changes memory in one piece a thousand times, and is over before the program
        is."""
        program = self.compile(
            "locks",
            """
            #include <pthread.h>
            static long place;
            static void *work(void *n) {
                for (int i = 0; i < 1000; i++) __asm__ volatile("lock incq %0" : "+m"(place));
                return n;
            }
            int main(void) {
                pthread_t t;
                pthread_create(&t, 0, work, 0);
                return pthread_join(t, 0);
            }
        """,
            "-pthread",
        )
        found = self.recorded(
            program,
            MACHINES["skl"].with_shapes({"l2": read_cache("262144,4,64")}),
            "run.%t",
            has_further=True,
        )
        self.assertIn(found.sum("locked"), range(1000, 1500))


@needs_tool
class Time(Recording):
    """Cycles of the model at 1,000 MHz: a millisecond has a million."""

    def test_time_of_what_waits(self) -> None:
        """Thirty milliseconds; and of twenty seconds those up to a signal, which comes again and
        again, within the first ten."""
        program = self.compile(
            "sleeps", source("sleeps.c"), f"-I{ROOT / 'include'}", f"-I{ROOT / 'c'}", "-w"
        )
        calls = {
            name: (0, 30.0, 31.0)
            for name in (
                "nanosleep",
                "clock_nanosleep",
                "select",
                "pselect",
                "poll",
                "ppoll",
                "epoll_wait",
                "epoll_pwait",
            )
        }
        calls |= {
            "nothing": (0, 0.0, 1.0),
            "interrupted": (-1, 0.0, 10_000.0),
            "interrupted_clock": (-1, 0.0, 10_000.0),
        }
        for name, (answer, least, most) in calls.items():
            command = valgrind.command(["--model=yes", "--mhz=1000"], program, [name])
            done = subprocess.run(
                command,
                env=valgrind.environment([program, name], {}),
                capture_output=True,
                text=True,
            )
            answered, cycles = map(int, done.stdout.split())
            self.assertEqual(answered, answer, name)
            self.assertTrue(least <= cycles / 1_000_000 <= most, (name, cycles))
