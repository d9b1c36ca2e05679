"""tools/count: programs that know what their own counts are, counted while they run."""

from __future__ import annotations

import json
import os
import shutil
import signal
import subprocess
import unittest
from collections import Counter
from pathlib import Path

from parts.processors import tables
from tests.counted import HEAD, Counted
from tests.support import (
    ROOT, TOOLS, InFolder, installed, needs_command, needs_library, needs_program,
)


@needs_command("cc", "a C compiler")
class Hands(InFolder):
    """What a thread did is handed over kind after kind or in turn, over a core of the test's own:
    lines as they happened, and a point behind each call."""

    CALL = "l255 l8 s3 t3 . "

    def said(self, *words: str) -> tuple[str, str]:
        program = str(self.folder / "hands")
        if not Path(program).exists():
            sources = [str(TOOLS / "tests/live_hands.c"), str(ROOT / "c/live_counts.c")]
            subprocess.run(
                [
                    "cc", "-std=c11", "-Wall", "-Wextra", "-Werror", f"-I{ROOT / 'include'}", "-o",
                    program, *sources,
                ],
                check=True,
            )
        done = subprocess.run([program, *words], capture_output=True, text=True, check=True)
        return done.stdout, done.stderr

    def test_the_end_is_said_once(self) -> None:
        line = (
            "papi: thread 3: nothing more is counted: 4294967295 lines of occurrences have "
            "happened\n"
        )
        self.assertEqual(self.said("12"), (3 * self.CALL, ""))
        self.assertEqual(self.said("11"), (2 * self.CALL + "l255 l8 s3 . ", line))
        self.assertEqual(self.said("5"), (self.CALL + "l255 . . ", line))

    def test_what_a_handler_jumps_over_happens_later(self) -> None:
        """A handler that jumps out of each call leaves what comes after it to the next ones, and
        nothing happens twice."""
        self.assertEqual(self.said("99", "jump"), ("l255 . l255 . l255 . l24 . s9 . t9 . ", ""))

    def test_nothing_happens_after_a_handler_that_ends_the_library(self) -> None:
        self.assertEqual(self.said("99", "leave"), ("l255 . . . ", ""))

    def test_events_in_turn_end_together(self) -> None:
        """Twice as many of one have twice as many lines in the same rounds."""
        self.assertEqual(
            self.said("99", "turns"), (3 * "l255 l255 s255 t255 l255 l255 s255 t255 . ", "")
        )


@needs_command("valgrind", "valgrind")
@needs_command("cc", "a C compiler")
@needs_library
class Programs(Counted):
    # Two loops of known lengths: what they count differs by what the longer one runs more.
    LOOPS = """
    int main(int count, char **words) {
        for (int i = 1; i < count; i++) {
            int set = made(words[i]);
            long long one, other;
            PAPI_start(set); loop(1000); PAPI_stop(set, &one);
            PAPI_start(set); loop(3000); PAPI_stop(set, &other);
            printf("%s %lld\\n", words[i], other - one);
        }
        return 5;
    }
    """
    WANTED = {
        "PAPI_TOT_INS": 4000, "PAPI_BR_INS": 2000, "PAPI_BR_TKN": 2000, "PAPI_BR_NTK": 0,
        "PAPI_LD_INS": 0, "PAPI_BR_MSP": None,
    }

    def check_loops(self, program: str) -> None:
        done = self.count(program, *self.WANTED)
        self.assertEqual((done.stderr, done.returncode), ("", 5))
        counts = dict(line.split() for line in done.stdout.splitlines())
        self.assertEqual(
            {name: int(counts[name]) for name, wanted in self.WANTED.items() if wanted is not None},
            {name: wanted for name, wanted in self.WANTED.items() if wanted is not None},
        )
        self.assertLess(abs(int(counts["PAPI_BR_MSP"])), 50)

    def test_loops_with_the_shared_library(self) -> None:
        self.check_loops(self.compile(self.LOOPS))

    def test_loops_with_the_library_in_the_program(self) -> None:
        self.check_loops(self.compile(self.LOOPS, f"{self.library}/libkistalub.a"))

    NAMED = """
    int main(int count, char **words) {
        for (int turn = 0; turn < 2; turn++)
            for (int i = 1; i < count; i++) {
                long long value;
                int set = made(words[i]);
                PAPI_start(set);
                loop(1000);
                if (PAPI_stop(set, &value)) return 8;
                printf("%lld ", value);
            }
        return 0;
    }
    """
    UNIT = (
        "COMPONENT,cpu,skl\nCOUNTER,P0,48,P\nCOUNTER,P1,48,P\n"
        "EVENT,INST_RETIRED,c0,P0 P1,Instructions\nUMASK,ANY_P,00,dn,All\n"
        "UMASK,PREC_DIST,01,n,All\n"
        "EVENT,BR_INST_RETIRED,c4,P0 P1,Branches\nUMASK,NEAR_TAKEN,20,dn,Taken\n"
        "UMASK,FAR_BRANCH,40,n,Far\nUMASK,STARTS,20,n,Starts\nUMASK_MODIFIERS,e,1\n"
        "EVENT,MEM_LOAD_RETIRED,d1,P0 P1,Loads\nUMASK,L1_HIT,01,n,Hits\nUMASK,L1_MISS,08,n,Misses\n"
        "EVENT,UOPS_ISSUED,0e,P0 P1,Operations\n"
        "EVENT,UNHALTED_REFERENCE_CYCLES,00,P0 P1,Cycles\nUMASK,ALL,03,d,All\n"
    )
    PRESETS = (
        "CPU,skl\nPRESET,PAPI_BR_PRC,DERIVED_SUB,BR_INST_RETIRED:NEAR_TAKEN,"
        "BR_INST_RETIRED:FAR_BRANCH\n"
    )
    # The same events as far as the model counts them, with codes of their own.
    COUNTED = "COMPONENT,cpu,skl\nCOUNTER,P0,48,P\nCOUNTER,P1,48,P\n" + "".join(
        f"EVENT,{event},{tables()['skl'].select(event):02x},P0 P1,\n"
        + "".join(
            f"UMASK,{umask},{mask:02x},{flags},\n" for umask, flags in umasks.items()
            for mask in [(tables()["skl"].code(event, umask) or (0, 0))[1]]
        )
        for event, umasks in {
            "INST_RETIRED": {"ANY_P": "dn", "PREC_DIST": "n"},
            "BR_INST_RETIRED": {"NEAR_TAKEN": "dn", "NEAR_CALL": "n"},
            "MEM_LOAD_RETIRED": {"L1_HIT": "n", "L1_MISS": "n"},
            "UNHALTED_REFERENCE_CYCLES": {"0x03": "d"},
        }.items()
    )
    NOTHING = (
        "papi: {} counts 0, since nothing that is counted here counts for it (docs/RECORDING.md)\n"
    )

    def files(self, unit: str = UNIT, presets: str = PRESETS) -> tuple[str, ...]:
        return (
            "--unit", self.write("u", unit), "--presets", self.write("p", presets), "--cpu", "skl",
        )

    def test_the_unit_decides_on_the_codes(self) -> None:
        names = (
            "INST_RETIRED:ANY_P", "INST_RETIRED:PREC_DIST", "BR_INST_RETIRED:NEAR_TAKEN",
            "UNHALTED_REFERENCE_CYCLES", "MEM_LOAD_RETIRED:L1_HIT", "BR_INST_RETIRED:NEAR_TAKEN:e",
        )
        kept = self.folder / "kept"
        done = self.count(
            *self.files(self.COUNTED), "--keep", str(kept), self.compile(self.NAMED), *names
        )
        self.assertEqual((done.stderr, done.returncode), ("", 0))
        all_of, precise, taken, cycles, hits, starts = map(int, done.stdout.split()[: len(names)])
        self.assertTrue(
            2000 < all_of < 2020
            and precise == all_of
            and 999 <= taken < 1005
            and cycles >= all_of
            and hits < 10
            and 0 < starts < 10,
            done.stdout,
        )
        lines = Counter(line[:9] for line in kept.read_text(encoding="ascii").splitlines())
        (select, mask), = tables()["skl"].lines()["instructions"]
        self.assertTrue(lines[f"0 {select:02x} {mask:02x} u"] and not lines["0 c0 00 u"], lines)

    def test_a_unit_with_the_processor_s_own_codes_is_refused(self) -> None:
        """Nothing runs, and no event takes the code of another."""
        program = self.compile(self.NAMED)
        for unit, cause in (
            (
                self.UNIT,
                (
                    "INST_RETIRED:ANY_P has a code of the processor itself: tools/make_unit skl "
                    "--counted"
                ),
            ),
            (
                self.UNIT.replace(",skl", ",nhm"),
                "there is no table of what is counted for the events of nhm; there are tables for ",
            ),
            (
                self.COUNTED + "EVENT,UOPS_ISSUED,02,P0 P1,\n",
                "UOPS_ISSUED has no row in the table of skl, and its code is that of other events",
            ),
        ):
            done = self.count(*self.files(unit), program, "INST_RETIRED")
            self.assertEqual((done.stdout, done.returncode), ("", 1))
            self.assertIn(cause, done.stderr)

    def test_an_event_without_a_row_counts_nothing(self) -> None:
        """A line names it, beside that of the library; with --strict nothing runs."""
        program, files = self.compile(self.NAMED), self.files(
            self.COUNTED + "EVENT,UOPS_ISSUED,f0,P0 P1,\n"
        )
        line = f"{self.folder}/u: nothing that is counted here is counted by UOPS_ISSUED"
        done = self.count(*files, program, "UOPS_ISSUED")
        self.assertEqual(
            (done.stdout.split()[0], done.stderr, done.returncode),
            ("0", f"count: {line}\n" + self.NOTHING.format("skl::UOPS_ISSUED"), 0),
        )
        done = self.count("--strict", *files, program, "UOPS_ISSUED")
        self.assertEqual(
            (
                done.stdout, done.stderr.startswith(f"count: {line}: tools/make_unit skl"),
                done.returncode,
            ),
            ("", True, 1),
        )

    def test_codes_of_another_component_are_not_taken(self) -> None:
        """A program that names a unit of its own finds no lines of the one that tools/count has
        told of."""
        program = self.compile(
            "#include <unistd.h>\n"
            + self.NAMED.replace(
                "for (int turn",
                "if (!getenv(\"AGAIN\")) { setenv(\"AGAIN\", \"1\", 1); setenv(\"KISTALUB_UNIT\", "
                "getenv(\"OTHER\"), 1); "
                "execv(words[0], words); }\n        for (int turn",
            )
        )
        os.environ["OTHER"] = self.write("other", self.UNIT)
        self.addCleanup(os.environ.pop, "OTHER")
        done = self.count(program, "INST_RETIRED")
        self.assertEqual(
            (done.stdout, done.stderr, done.returncode),
            ("0 0 ", self.NOTHING.format("skl::INST_RETIRED:ANY_P"), 0),
        )

    def test_what_counts_nothing_is_told_once(self) -> None:
        program = self.compile(self.NAMED)
        done = self.count(
            *self.files(self.COUNTED, self.PRESETS.replace("FAR_BRANCH", "NEAR_CALL:k")), program,
            "MEM_LOAD_RETIRED:L1_MISS:k", "PAPI_BR_PRC", "BR_INST_RETIRED:NEAR_CALL:k:e",
            "INST_RETIRED:k",
        )
        wanted = (
            "skl::MEM_LOAD_RETIRED:L1_MISS:k", "skl::BR_INST_RETIRED:NEAR_CALL:k",
            "skl::BR_INST_RETIRED:NEAR_CALL:k:e", "skl::INST_RETIRED:ANY_P:k",
        )
        self.assertEqual(
            (done.stderr, done.returncode),
            ("".join(self.NOTHING.format(name) for name in wanted), 0),
        )
        values = list(map(int, done.stdout.split()))
        self.assertTrue(
            values[0] == values[2] == values[3] == 0
            and 999 <= values[1] < 1005
            and values[4:] == values[:4],
            values,
        )

    def run_over(
        self, program: str, stream: str, *names: str, **variables: str
    ) -> subprocess.CompletedProcess[str]:
        _, unit, _, presets, _, cpu = self.files()
        environment = {
            **os.environ, "LD_LIBRARY_PATH": self.library, "KISTALUB_UNIT": unit,
            "KISTALUB_PRESETS": presets, "KISTALUB_CPU": cpu, "KISTALUB_STEP": "9",
            "KISTALUB_STREAM": self.write("t", stream), **variables,
        }
        return subprocess.run([program, *names], env=environment, capture_output=True, text=True)

    def test_what_no_line_of_a_stream_counts_for_is_told_once(self) -> None:
        stream = "# a stream\n0 c0 00 u 7 1\n0 c4 21 u 5 1\n0 0E 00 u 3 1\n0 d1 08 k 1 1\n"
        silent = "papi: stream 0: {} counts 0, since no line counts for it\n"
        names = (
            "INST_RETIRED", "PAPI_BR_PRC", "UOPS_ISSUED", "MEM_LOAD_RETIRED:L1_HIT",
            "MEM_LOAD_RETIRED:L1_MISS", "MEM_LOAD_RETIRED:L1_MISS:u",
        )
        wanted = (
            "skl::BR_INST_RETIRED:FAR_BRANCH", "skl::MEM_LOAD_RETIRED:L1_HIT",
            "skl::MEM_LOAD_RETIRED:L1_MISS:u",
        )
        program = self.compile(self.NAMED)
        done = self.run_over(program, stream, *names)
        self.assertEqual(
            (done.stderr, done.returncode), ("".join(silent.format(name) for name in wanted), 0)
        )
        self.assertEqual(self.run_over(program, stream, *names, KISTALUB_HINTS="0").stderr, "")
        self.assertEqual(self.run_over(program, stream, "INST_RETIRED", "UOPS_ISSUED").stderr, "")
        self.assertEqual(self.run_over(program, "", *names).stderr, "")

    def test_nothing_is_nothing_but_the_call(self) -> None:
        """Between start and stop stand the call and its arguments."""
        program = self.compile("""
            int main(void) { int set = made("PAPI_TOT_INS"); long long count; PAPI_start(set); PAPI_stop(set, &count); return (int)count; }
        """)
        status = self.count(program).returncode
        self.assertTrue(3 <= status <= 8, status)

    def test_the_kept_stream_is_the_same_twice(self) -> None:
        program = self.compile(self.LOOPS)
        kept = [str(self.folder / name) for name in ("one.%r", "two.%r")]
        for name in kept:
            self.assertEqual(
                self.count("--keep", name, program, "PAPI_BR_TKN").stdout, "PAPI_BR_TKN 2000\n"
            )
        one, two = (Path(name.replace("%r", "0")).read_text(encoding="ascii") for name in kept)
        self.assertEqual(one, two)
        taken = sum(
            int(line.split()[4]) for line in one.splitlines() if line.startswith("0 c4 a5 u ")
        )
        self.assertEqual(taken, 999 + 2999)

    TWO_THREADS = """
    #include <pthread.h>
    static __thread long number;
    static void passed(int set, void *address, long long vector, void *context) {
        (void)set, (void)context;
        for (int i = 0; i < 2; i++) if (vector >> i & 1) printf("note %ld 0 %d %p\\n", number, i, address);
    }
    static void *work(void *given) {
        int set = PAPI_NULL, branches, instructions; long long values[2];
        number = (long)given;
        if (PAPI_create_eventset(&set) || PAPI_event_name_to_code("PAPI_BR_TKN", &branches) || PAPI_event_name_to_code("PAPI_TOT_INS", &instructions)
            || PAPI_add_event(set, branches) || PAPI_add_event(set, instructions)
            || PAPI_overflow(set, branches, 1000, 0, passed) || PAPI_overflow(set, instructions, 1700, 0, passed)) exit(8);
        PAPI_start(set); loop(4000 - 1000 * number); PAPI_read(set, values); loop(1500); PAPI_stop(set, values);
        printf("stop %ld %lld %lld\\n", number, values[0], values[1]);
        return NULL;
    }
    int main(void) {
        pthread_t thread;
        if (PAPI_library_init(PAPI_VER_CURRENT) != PAPI_VER_CURRENT || PAPI_thread_init(pthread_self)) return 9;
        work((void *)0);
        return pthread_create(&thread, NULL, work, (void *)1) || pthread_join(thread, NULL);
    }
    """

    @needs_program
    def test_the_kept_streams_are_those_that_were_counted(self) -> None:
        """papi_run over them has the same values of both threads, and the same thresholds at the
        same places in the same order."""
        kept = [str(self.folder / f"kept.{number}") for number in (0, 1)]
        counted = self.count("--keep", str(self.folder / "kept.%t"), self.compile(self.TWO_THREADS))
        self.assertEqual((counted.stderr, counted.returncode), ("", 0))
        calls = (
            "create", "add 0 PAPI_BR_TKN", "add 0 PAPI_TOT_INS", "overflow 0 PAPI_BR_TKN 1000",
            "overflow 0 PAPI_TOT_INS 1700", "start 0", "run 4294967295", "stop 0",
        )
        script = self.write(
            "script", "".join(f"{thread} {call}\n" for thread in (0, 1) for call in calls)
        )
        words = [
            "-U", str(ROOT / "examples/recorded.unit"), "-P",
            str(ROOT / "examples/recorded.presets"), "-C", "recorded", "--notes", script, *kept,
        ]
        done = subprocess.run(
            [str(ROOT / "bin/papi_run"), *words], capture_output=True, text=True, check=True
        )
        replies = [line.split() for line in done.stdout.splitlines()]
        wanted = [" ".join(line) for line in replies if line[0] == "note"] + [
            f"stop {line[1]} {line[4]} {line[5]}" for line in replies if line[2] == "stop"
        ]
        self.assertEqual(sorted(counted.stdout.splitlines(), key=lambda line: line[:4]), wanted)
        self.assertEqual(
            [sum(line.startswith(f"note {thread} 0 0 ") for line in wanted) for thread in (0, 1)],
            [5, 4],
        )

    def test_operations(self) -> None:
        program = self.compile("""
            int main(void) {
                static double a[100]; static float b[400]; long long count; int set = made("PAPI_FP_OPS");
                __asm__ volatile("" : : : "memory");
                PAPI_start(set);
                for (int i = 0; i < 100; i++) __asm__ volatile("addsd %0, %%xmm0\\n mulpd %%xmm1, %%xmm2\\n subps %%xmm3, %%xmm4\\n movapd %%xmm1, %%xmm2" : : "m"(a[i]) : "xmm0", "xmm2", "xmm4");
                for (int i = 0; i < 100; i++) __asm__ volatile("fadds %0" : : "m"(b[i]));
                PAPI_stop(set, &count);
                printf("%lld\\n", count);
                return 0;
            }
        """)
        self.assertEqual(self.count(program).stdout, f"{100 * (1 + 2 + 4 + 1)}\n")

    def test_misses_of_a_walk(self) -> None:
        """64 KiB in lines of 64 bytes: 1,024 misses of a cache of 32 KiB, with a few of the call;
        none of one of 1 MiB. So too of a second level."""
        text = """
            static volatile char block[65536] __attribute__((aligned(4096)));
            int main(void) {
                long long count; int set = made("PAPI_L1_DCM");
                for (int i = 0; i < 65536; i++) block[i] = 1;
                PAPI_start(set);
                for (int i = 0; i < 65536; i += 64) (void)block[i];
                PAPI_stop(set, &count);
                printf("%lld\\n", count);
                return 0;
            }
        """
        program = self.compile(text.replace("PAPI_L1_DCM", "PAPI_L2_DCM"))
        self.assertIn(int(self.count("--l2", "32768,8,64", program).stdout), range(1024, 1029))
        program = self.compile(text)
        self.assertIn(int(self.count(program).stdout), range(1024, 1029))
        self.assertEqual(int(self.count("--l1d", "1048576,8,64", program).stdout), 0)

    def test_time_is_that_of_the_cycles_and_the_caches_are_told(self) -> None:
        program = self.compile("""
            int main(void) {
                long long count; int set = made("PAPI_TOT_CYC");
                long long before = PAPI_get_real_cyc();
                PAPI_start(set); loop(5000); PAPI_stop(set, &count);
                const PAPI_mh_info_t *m = &PAPI_get_hardware_info()->mem_hierarchy;
                printf("%lld %d %d %d\\n", PAPI_get_real_cyc() - before - count, m->levels, m->level[0].cache[1].size, m->level[1].cache[0].associativity);
                return count < 10000;
            }
        """)
        done = self.count("--l1d", "16384,4,64", "--l2", "65536,2,64", "--l3", "none", program)
        between, *told = map(int, done.stdout.split())
        self.assertEqual((told, done.returncode), ([2, 16384, 2], 0))
        self.assertTrue(0 < between < 2000, between)

    def test_standard_input_is_the_programs(self) -> None:
        program = self.compile("""
            int main(void) {
                long turns; int set = made("PAPI_BR_TKN");
                while (scanf("%ld", &turns) == 1) { long long count; PAPI_start(set); loop(turns); PAPI_stop(set, &count); printf("%lld\\n", count); }
                return 0;
            }
        """)
        self.assertEqual(self.count(program, text="5 50\n500\n").stdout, "4\n49\n499\n")

    def test_calls_that_depend_on_counts(self) -> None:
        program = self.compile("""
            int main(void) {
                long long count = 1; int set = made("PAPI_BR_TKN");
                for (int i = 1; i <= 3 && count; i++) {
                    PAPI_start(set); loop(100 * i); PAPI_stop(set, &count);
                    printf("%lld\\n", count);
                }
                return 0;
            }
        """)
        done = self.count(program)
        self.assertEqual((done.stdout, done.stderr, done.returncode), ("99\n199\n299\n", "", 0))

    def test_each_thread_counts_its_own(self) -> None:
        program = self.compile("""
            #include <pthread.h>
            static pthread_barrier_t all;
            static void *work(void *number) {
                long turns = 1000 * (1 + (long)number); long long taken = 0; int set = PAPI_NULL;
                if (PAPI_register_thread() || PAPI_create_eventset(&set) || PAPI_add_named_event(set, "PAPI_BR_TKN") || PAPI_start(set)) exit(8);
                pthread_barrier_wait(&all);
                for (int i = 0; i < 10; i++) {
                    if (PAPI_reset(set)) exit(7);
                    loop(turns);
                    if (PAPI_read(set, &taken) || taken != turns - 1) exit(6);
                }
                PAPI_stop(set, &taken);
                return NULL;
            }
            int main(void) {
                pthread_t threads[8];
                made("PAPI_TOT_INS");
                if (PAPI_thread_init(pthread_self) || pthread_barrier_init(&all, NULL, 8)) return 9;
                for (long i = 0; i < 8; i++) pthread_create(&threads[i], NULL, work, (void *)i);
                for (long i = 0; i < 8; i++) pthread_join(threads[i], NULL);
                puts("all");
                return 0;
            }
        """)
        done = self.count(program)
        self.assertEqual((done.stdout, done.stderr, done.returncode), ("all\n", "", 0))

    def test_two_hundred_threads(self) -> None:
        program = self.compile("""
            #include <pthread.h>
            static void *work(void *unused) {
                long long taken = 0; int set = PAPI_NULL;
                (void)unused;
                if (PAPI_create_eventset(&set) || PAPI_add_named_event(set, "PAPI_BR_TKN") || PAPI_start(set)) exit(8);
                loop(500);
                return (void *)(long)(PAPI_stop(set, &taken) ? 0 : taken);
            }
            int main(void) {
                static pthread_t threads[200]; long sum = 0;
                made("PAPI_TOT_INS");
                if (PAPI_thread_init(pthread_self)) return 9;
                for (int round = 0; round < 200; round += 100) {
                    for (int i = 0; i < 100; i++) if (pthread_create(&threads[i], NULL, work, NULL)) return 6;
                    for (int i = 0; i < 100; i++) { void *taken; pthread_join(threads[i], &taken); sum += (long)taken; }
                }
                printf("%ld\\n", sum);
                return 0;
            }
        """)
        done = self.count(program)
        self.assertEqual((done.stdout, done.stderr, done.returncode), (f"{200 * 499}\n", "", 0))

    FAMILY = """
    #include <sys/wait.h>
    #include <unistd.h>
    static long long counted(int set, long turns) { long long count = 0; PAPI_start(set); loop(turns); PAPI_stop(set, &count); return count; }
    int main(int count, char **words) {
        int set = made("PAPI_BR_TKN");
        if (count > 1) { printf("%s %lld\\n", words[1], counted(set, atol(words[2]))); return 0; }
        printf("first %lld\\n", counted(set, 100));
        fflush(stdout);
        if (fork() == 0) { int own = made("PAPI_BR_TKN"); printf("child %lld\\n", counted(own, 1000)); fflush(stdout); _exit(0); }
        wait(NULL);
        if (fork() == 0) { execl(words[0], words[0], "new", "5000", NULL); _exit(9); }
        wait(NULL);
        char command[1000];
        snprintf(command, sizeof command, "'%s' shell 7000", words[0]);
        int status = system(command);
        printf("last %lld\\n", counted(set, 200));
        return status;
    }
    """

    def test_each_process_counts_its_own(self) -> None:
        program = self.compile(self.FAMILY)
        kept = self.folder / "kept"
        for words in ((), ("--keep", str(kept))):
            done = self.count(*words, program)
            self.assertEqual(
                (done.stdout, done.stderr, done.returncode),
                ("first 99\nchild 999\nnew 4999\nshell 6999\nlast 199\n", "", 0),
            )
        taken = sum(
            int(line.split()[4]) for line in kept.read_text(encoding="ascii").splitlines()
            if line.startswith("0 c4 a5 u ")
        )
        self.assertEqual(taken, 99 + 199, "the stream is that of the first process")

    def test_a_multiplexed_set_is_estimated(self) -> None:
        """Two events that need the same counter take turns; a steady loop is estimated well."""
        unit = self.write(
            "narrow.unit",
            (
                "COMPONENT,cpu,narrow\nCOUNTER,P0,48,P\nEVENT,INS,c0,P0,Instructions\n"
                "EVENT,BRANCH,c4,P0,Branches\n"
            ),
        )
        program = self.compile("""
            int main(void) {
                long long counts[2]; int set = PAPI_NULL;
                if (PAPI_library_init(PAPI_VER_CURRENT) != PAPI_VER_CURRENT || PAPI_multiplex_init() || PAPI_create_eventset(&set) || PAPI_assign_eventset_component(set, 0)
                    || PAPI_set_multiplex(set) || PAPI_add_named_event(set, "INS") || PAPI_add_named_event(set, "BRANCH")) return 9;
                PAPI_start(set); loop(2000000); PAPI_stop(set, counts);
                printf("%lld %lld\\n", counts[0], counts[1]);
                return 0;
            }
        """)
        done = self.count("--unit", unit, program)
        instructions, branches = map(int, done.stdout.split())
        self.assertLess(abs(instructions - 4_000_000), 80_000)
        self.assertLess(abs(branches - 2_000_000), 40_000)

    def test_a_program_without_calls_is_counted_as_a_whole(self) -> None:
        program = self.compile(
            "int main(void) { puts(\"done\"); return 3; }", f"-L{self.library}",
            "-Wl,--no-as-needed", "-lpapi",
        )
        done = self.count(program)
        self.assertEqual((done.stdout, done.returncode), ("done\n", 3))
        wanted = rf"^\n Counts of {program}:\n\n +[1-9][\d,]+      PAPI_TOT_INS\n"
        self.assertRegex(done.stderr, wanted)

    def test_a_whole_count_beside_the_calls(self) -> None:
        """What the library does is not in it, and the calls get what they get alone."""
        program, counts = self.compile(self.LOOPS), self.folder / "counts"
        words = ("--events", "PAPI_BR_TKN,PAPI_TOT_INS", "--json", str(counts), "-o", "/dev/null")
        done = self.count("--whole", *words, program, "PAPI_BR_TKN")
        self.assertEqual((done.stdout, done.stderr, done.returncode), ("PAPI_BR_TKN 2000\n", "", 5))
        total = json.loads(counts.read_text(encoding="utf-8"))["total"]
        self.assertIn(total["PAPI_BR_TKN"], range(3998, 6000))
        self.assertIn(total["PAPI_TOT_INS"], range(8000, 20000))
        done = self.count("--events", "PAPI_TOT_INS", program)
        said = f"count: {program} makes calls of PAPI: --whole counts it as a whole beside them\n"
        self.assertEqual((done.stdout, done.stderr, done.returncode), ("", said, 1))

    def test_calls_that_are_only_seen_when_they_are_made(self) -> None:
        """A stripped program has the library in itself: its first call ends a run whose machine is
        not whole, and a file is asked for in vain."""
        program = self.compile(self.LOOPS, "-static", "-s", f"{self.library}/libkistalub.a")
        had = ", which have had its counts"
        for words, more in ((("--events", "PAPI_TOT_INS"), ""), (("--csv", "/dev/null"), had)):
            said = f"makes calls of PAPI{more}: --whole counts it as a whole beside them\n"
            done = self.count(*words, program, "PAPI_BR_TKN")
            self.assertEqual(done.stderr, f"count: {program} {said}")
            self.assertNotEqual(done.returncode, 0)

    def test_a_stripped_static_program(self) -> None:
        program = self.compile(self.LOOPS, "-static", "-s", f"{self.library}/libkistalub.a")
        self.check_loops(program)
        program = self.compile("""
            int main(void) { int set = made("PAPI_TOT_INS"); long long count; PAPI_start(set); PAPI_stop(set, &count); return (int)count; }
        """, "-static", "-s", f"{self.library}/libkistalub.a")
        status = self.count(program).returncode
        self.assertTrue(3 <= status <= 8, status)

    def test_another_library_of_papi_is_named(self) -> None:
        other = self.folder / "other/libpapi.so.7.0"
        other.parent.mkdir()
        source = self.write("other.c", "int PAPI_is_initialized(void) { return 0; }")
        subprocess.run(
            ["cc", "-shared", "-fPIC", "-Wl,-soname,libpapi.so.7.0", "-o", str(other), source],
            check=True,
        )
        program = self.compile("int main(void) { return PAPI_is_initialized(); }", str(other))
        done = self.count("--library", str(other.parent), program)
        self.assertEqual((done.stdout, done.returncode), ("", 1))
        self.assertEqual(done.stderr, f"count: {program} takes PAPI from {other}, which is not "
                                      "that of bin/install (--library names its folder)\n")

    CLOCKS = """
    int main(void) {
        if (PAPI_get_virt_cyc() < 0) return 7;
        long long times[4], count, stamp; int set = made("PAPI_BR_TKN");
        times[0] = PAPI_get_real_cyc(); loop(1000);
        times[1] = PAPI_get_virt_cyc(); loop(3000);
        times[2] = PAPI_get_real_nsec();
        PAPI_start(set); loop(100); times[3] = PAPI_get_real_usec(); loop(100); PAPI_read_ts(set, &count, &stamp); loop(100); PAPI_stop(set, &count);
        printf("%lld %lld %d\\n", times[2] - 2 * times[1] + times[0], count, stamp / 1000 == times[3] || stamp > times[2]);
        return PAPI_shutdown(), PAPI_get_virt_cyc() < 0;
    }
    """

    def test_clocks_between_calls(self) -> None:
        """A cycle is an instruction here, and a nanosecond. What is asked of the clock changes
        nothing of what is counted."""
        for words in ((f"-L{self.library}", "-lpapi"), (f"{self.library}/libkistalub.a",)):
            done = self.count("--costs", "0,0,0,0,0", self.compile(self.CLOCKS, *words))
            self.assertEqual((done.stderr, done.returncode), ("", 0), words)
            between, *others = map(int, done.stdout.split())
            self.assertIn(between, range(3995, 4006), words)
            self.assertEqual(others, [297, 1], words)

    def test_time_goes_on(self) -> None:
        """A clock goes on with the cycles of a thread that is joined, and with sleep. A thread's
        own has only its cycles."""
        program = self.compile("""
            #include <pthread.h>
            #include <time.h>
            static long long own;
            static void *work(void *unused) { loop(500000); own = PAPI_get_virt_cyc(); return unused; }
            int main(void) {
                pthread_t thread; struct timespec short_time = { 0, 20000000 };
                made("PAPI_TOT_INS");
                if (PAPI_thread_init(pthread_self)) return 9;
                long long before = PAPI_get_real_cyc(), mine = PAPI_get_virt_cyc();
                if (pthread_create(&thread, NULL, work, NULL) || pthread_join(thread, NULL)) return 8;
                long long after = PAPI_get_real_cyc(), then = PAPI_get_real_usec();
                if (after - before < 1000000 || own < 1000000 || PAPI_get_virt_cyc() - mine > 900000) return 7;
                nanosleep(&short_time, NULL);
                long long slept = PAPI_get_real_usec() - then;
                return slept < 20000 || slept > 40000 ? 6 : 0;
            }
        """)
        done = self.count("--costs", "0,0,0,0,0", program)
        self.assertEqual((done.stdout, done.stderr, done.returncode), ("", "", 0))

    def test_refusals(self) -> None:
        self.assertEqual(
            self.count("nosuchprogram").stderr, "count: nosuchprogram: no such program\n"
        )
        for words in ((), ("--window", "3", "true"), ("--nothing", "true")):
            self.assertEqual(self.count(*words).returncode, 2, words)

    def test_a_signal_ends_as_it_does_without(self) -> None:
        """The temporary folder stays as it is."""
        program = self.compile("""
            #include <signal.h>
            int main(int count, char **words) { made("PAPI_TOT_INS"); (void)words; if (count > 1) *(volatile int *)8 = 1; raise(SIGKILL); return 0; }
        """)
        temporary = self.folder / "temporary"
        temporary.mkdir()
        for words, number in (((), signal.SIGKILL), (("crash",), signal.SIGSEGV)):
            done = subprocess.run(
                [str(TOOLS / "count"), "--library", self.library, program, *words],
                env={**os.environ, "TMPDIR": str(temporary)}, capture_output=True,
            )
            self.assertEqual(done.returncode, -number)
            self.assertEqual(list(temporary.iterdir()), [])

    def test_an_interrupt_is_the_programs(self) -> None:
        program = self.compile("""
            #include <signal.h>
            #include <unistd.h>
            static volatile sig_atomic_t over;
            static void end(int number) { (void)number; over = 1; }
            int main(void) {
                long long count; int set = made("PAPI_BR_TKN");
                signal(SIGINT, end);
                PAPI_start(set); loop(100);
                puts("runs"); fflush(stdout);
                while (!over) usleep(1000);
                PAPI_stop(set, &count);
                printf("%d\\n", count >= 99);
                return 4;
            }
        """)
        temporary = self.folder / "temporary"
        temporary.mkdir()
        for number, status, rest in (
            (signal.SIGINT, 4, "1\n"), (signal.SIGTERM, -signal.SIGTERM, ""),
        ):
            with subprocess.Popen(
                [str(TOOLS / "count"), "--library", self.library, program],
                env={**os.environ, "TMPDIR": str(temporary)}, stdout=subprocess.PIPE, text=True,
            ) as running:
                assert running.stdout
                self.assertEqual(running.stdout.readline(), "runs\n")
                running.send_signal(number)
                self.assertEqual((running.stdout.read(), running.wait(60)), (rest, status))
            self.assertEqual(list(temporary.iterdir()), [])


@needs_command("valgrind", "valgrind")
@needs_command("cc", "a C compiler")
@needs_program
@needs_library
class Installed(InFolder):
    """What bin/install has of it: it knows the source of its tool, its library and its files, and
    needs nothing of the repository."""

    def test_counts_and_records(self) -> None:
        prefix = installed()
        source = self.write("program.c", HEAD + Programs.LOOPS)
        program = str(self.folder / "program")
        subprocess.run(
            [
                "cc", "-O1", f"-I{ROOT / 'include'}", "-o", program, source,
                f"-L{prefix}/lib/kistalub", "-lpapi", "-lpthread",
            ],
            check=True,
        )
        environment = {"PATH": os.environ["PATH"], "XDG_CACHE_HOME": str(self.folder)}
        counted = subprocess.run(
            [str(prefix / "bin/papi_count-x"), program, "PAPI_BR_TKN"], env=environment,
            capture_output=True, text=True,
        )
        self.assertEqual(
            (counted.stdout, counted.stderr, counted.returncode), ("PAPI_BR_TKN 2000\n", "", 5)
        )
        recorded = subprocess.run(
            [str(prefix / "bin/papi_record-x"), "-o", str(self.folder / "stream"), "true"],
            env=environment, capture_output=True, text=True,
        )
        self.assertRegex(recorded.stderr, r"^papi_record-x: [\d,]+ instructions, ")
        self.assertEqual(recorded.returncode, 0)
        for name in ("record", "count"):
            self.assertTrue((prefix / f"share/man/man1/papi_{name}-x.1").exists(), name)
            used = subprocess.run(
                [str(prefix / f"bin/papi_{name}-x"), "--help"], env=environment,
                capture_output=True, text=True,
            )
            self.assertIn(f"usage: papi_{name}-x ", used.stdout)
