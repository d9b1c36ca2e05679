"""tools/count: a handler of PAPI_overflow is called right behind the instruction that passes its
threshold."""

from __future__ import annotations

import shutil
import subprocess
import unittest

from kernel_events import make_unit
from tests.counted import Counted
from tests.support import ROOT, needs_command, needs_libpfm4, needs_library


@needs_command("valgrind", "valgrind")
@needs_command("cc", "a C compiler")
@needs_library
class Handlers(Counted):
    def test_a_handler_sees_the_programs_own_addresses(self) -> None:
        """Each of them is that of the instruction that passes the threshold."""
        program = self.compile("""
            __attribute__((noinline)) static void work(void) { loop(100000); }
            __attribute__((noinline)) static void after(void) { __asm__ volatile("nop"); }
            static int inside, outside;
            static void note(int set, void *address, long long vector, void *context) {
                (void)set; (void)vector; (void)context;
                char *at = address, *start = (char *)work;
                if (at >= start && at < start + 64) inside++; else outside++;
            }
            int main(void) {
                long long count; int set = made("PAPI_TOT_INS"), event;
                if (PAPI_event_name_to_code("PAPI_TOT_INS", &event) || PAPI_overflow(set, event, 10000, 0, note)) return 7;
                PAPI_start(set); work(); PAPI_stop(set, &count);
                after();
                printf("%d %d\\n", inside, outside);
                return 0;
            }
        """)
        self.assertEqual(self.count(program).stdout, "20 0\n")

    LEFT = """
    #include <setjmp.h>
    static jmp_buf back; static int set, jumps, calls;
    static void leave(int of, void *address, long long vector, void *context) {
        long long now;
        (void)address; (void)vector; (void)context;
        calls++;
        if (of != set || PAPI_read(set, &now) || now < 10000 * calls) exit(6);
        if (calls % 2) { jumps++; longjmp(back, 1); }
    }
    int main(void) {
        long long count; int event;
        set = made("PAPI_BR_TKN");
        if (PAPI_event_name_to_code("PAPI_BR_TKN", &event) || PAPI_overflow(set, event, 10000, 0, leave)) return 7;
        PAPI_start(set);
        for (volatile int i = 0; i < 5; i++) if (!setjmp(back)) loop(20001);
        PAPI_stop(set, &count);
        printf("%d %d\\n", calls, jumps);
        PAPI_overflow(set, event, 0, 0, leave);
        PAPI_start(set); loop(301); PAPI_stop(set, &count);
        printf("%lld\\n", count);
        return 0;
    }
    """

    def test_a_handler_that_jumps_out(self) -> None:
        """A loop takes 20,000 branches. The first is left after 10,000, and each later one passes
        two more thresholds, of which the second is at its end."""
        for words in ((), (f"{self.library}/libkistalub.a",)):
            done = self.count(self.compile(self.LEFT, *words))
            self.assertEqual((done.stderr, done.returncode), ("", 0), words)
            first, second = done.stdout.splitlines()
            calls, jumps = map(int, first.split())
            self.assertEqual((calls, jumps, second), (9, 5, "300"), words)

    @unittest.skipUnless(shutil.which("c++"), "a compiler of C++ is not installed")
    def test_a_handler_that_throws(self) -> None:
        source = self.write("throws.cc", """
            #include <papi.h>
            #include <cstdio>
            static void leave(int, void *, long long, void *) { throw 5; }
            static long sum(volatile long *of, long turns) { long all = 0; for (long i = 0; i < turns; i++) all += of[i % 4]; return all; }
            static long (*volatile work)(volatile long *, long) = sum;
            int main() {
                int set = PAPI_NULL, event, caught = 0; long long count; static volatile long numbers[4];
                if (PAPI_library_init(PAPI_VER_CURRENT) != PAPI_VER_CURRENT || PAPI_create_eventset(&set) || PAPI_add_named_event(set, "PAPI_TOT_INS")) return 9;
                if (PAPI_event_name_to_code("PAPI_TOT_INS", &event) || PAPI_overflow(set, event, 20000, 0, leave)) return 7;
                PAPI_start(set);
                for (int i = 0; i < 3; i++) try { work(numbers, 100000); } catch (int what) { caught += what; }
                PAPI_stop(set, &count);
                std::printf("%d\\n", caught);
            }
        """)
        program = str(self.folder / "throws")
        subprocess.run(
            [
                "c++", "-O1", f"-I{ROOT / 'include'}", "-o", program, source, f"-L{self.library}",
                "-lpapi",
            ],
            check=True,
        )
        done = self.count(program)
        self.assertEqual((done.stdout, done.stderr, done.returncode), ("15\n", "", 0))


@needs_command("valgrind", "valgrind")
@needs_command("cc", "a C compiler")
@needs_library
class Addresses(Counted):
    """Each program says the places of its handler's addresses in a piece of code, as numbers of
    bytes, and the values of its events."""

    PROGRAM = """
    __asm__(".text\\n.globl code\\ncode: %s\\n");
    extern void code(long, char *);
    static char block[1 << 20] __attribute__((aligned(4096)));
    static void note(int set, void *address, long long vector, void *context) {
        (void)set; (void)context;
        printf("%%lld:%%ld ", vector, (long)((char *)address - (char *)code));
    }
    int main(int count, char **words) {
        long long values[2]; int set = made(words[2]), event;
        if (count > 4 && PAPI_add_named_event(set, words[4])) return 8;
        for (int i = 2; i < count; i += 2)
            if (PAPI_event_name_to_code(words[i], &event) || PAPI_overflow(set, event, atoi(words[i + 1]), 0, note)) return 7;
        for (int i = 0; i < 1 << 20; i++) block[i] = 1;
        PAPI_start(set); code(atol(words[1]), block); PAPI_stop(set, values);
        printf("\\n%%lld %%lld\\n", values[0], count > 4 ? values[1] : 0);
        return 0;
    }
    """

    def places(
        self, code: str, *words: str, count_words: tuple[str, ...] = ()
    ) -> tuple[list[tuple[int, int]], list[int]]:
        """The vector and the place of each call of the handler, and the values."""
        done = self.count(*count_words, self.compile(self.PROGRAM % code), *words)
        self.assertEqual((done.stderr, done.returncode), ("", 0))
        calls, values = done.stdout.splitlines()
        return [
            (int(vector), int(place))
            for vector, place in (call.split(":") for call in calls.split())
        ], [int(value) for value in values.split()]

    TURNS = "dec %rdi; nop; nop; nop; nop; nop; nop; nop; nop; jnz code; ret"
    STARTS = {0: 0, 11: 9, **{2 + number: number for number in range(1, 9)}}

    def check_turns(self, event: str) -> None:
        """A turn has ten instructions: each passing of 1,001 is one instruction behind the last."""
        calls, _ = self.places(self.TURNS, "1201", event, "1001")
        places = [self.STARTS[place] for _, place in calls if place in self.STARTS][-10:]
        self.assertEqual(len(places), 10)
        self.assertEqual({(later - one) % 10 for one, later in zip(places, places[1:])}, {1})

    def test_of_instructions(self) -> None:
        self.check_turns("PAPI_TOT_INS")

    def test_of_cycles(self) -> None:
        """A turn of instructions that are known takes a cycle for each."""
        self.check_turns("PAPI_TOT_CYC")

    WALK = "nop; mov (%rsi), %al; add $64, %rsi; nop; nop; dec %rdi; jnz code; ret"
    LOAD = 1

    def test_of_misses(self) -> None:
        """Each load of the walk misses, and nothing else in it does."""
        calls, values = self.places(self.WALK, "10000", "PAPI_L1_LDM", "256")
        self.assertEqual(len(calls), values[0] // 256)
        self.assertEqual({place for _, place in calls[1:]}, {self.LOAD})

    def test_of_two_kinds(self) -> None:
        """A turn loads and stores, so of an odd number every other passing is a store's."""
        code = "mov (%rsi), %al; mov %al, (%rsi); dec %rdi; jnz code; ret"
        calls, values = self.places(code, "6000", "MEMORY:LOADS:STORES", "301")
        self.assertEqual(len(calls), values[0] // 301)
        self.assertEqual(
            {(one, later) for (_, one), (_, later) in zip(calls, calls[1:])}, {(0, 2), (2, 0)}
        )

    @needs_libpfm4
    def test_of_split_loads(self) -> None:
        """Each load needs the next line too, which the machine says when it happens."""
        unit = make_unit("skl", self.folder)
        code = "mov 61(%rsi), %rax; nop; nop; dec %rdi; jnz code; ret"
        calls, values = self.places(
            code, "3000", "MEM_INST_RETIRED:SPLIT_LOADS", "300", count_words=("--unit", unit)
        )
        self.assertEqual((len(calls), values[0]), (10, 3000))
        self.assertEqual({place for _, place in calls}, {0})

    def test_within_an_instruction_that_repeats_itself(self) -> None:
        """It stands at the place 6, and stores a byte in each turn."""
        calls, values = self.places(
            "mov %rdi, %rcx; mov %rsi, %rdi; rep stosb; ret", "3000", "PAPI_SR_INS", "300"
        )
        self.assertEqual(len(calls), values[0] // 300)
        self.assertEqual({place for _, place in calls}, {6})

    def test_of_two_events(self) -> None:
        """Each has its own, and at some places both are passed."""
        calls, values = self.places(
            self.TURNS, "3000", "PAPI_TOT_INS", "3000", "PAPI_BR_TKN", "300"
        )
        for number, period in ((0, 3000), (1, 300)):
            self.assertEqual(
                sum(vector >> number & 1 for vector, _ in calls), values[number] // period
            )
        self.assertEqual({place for vector, place in calls if vector & 2}, {11})
