"""tools/count --function: what happens in calls of a function, against counts by hand."""

from __future__ import annotations

from tests.support import needs_command
from tests.whole import EXIT, LOOP, WAYS, Whole, functions, needs_papi


@needs_command("valgrind", "valgrind")
@needs_command("cc", "a C compiler")
@needs_papi
class Functions(Whole):
    # Each function beside what a call of it counts. Nothing else may be counted: between the calls
    # stand loops of 1,000 turns.
    TEXT = """
        call plain
        {pause}
        call tail
        {pause}
        mov $3, %ebx
        call again
        {pause}
        lea back(%rip), %rax
        mov %rsp, %rdx
        call leaves
        {pause}
    back:
        {pause}
        call ends
    plain: {ten}
        ret
    {ways}
    starts: dec %ecx
        jnz starts
        ret
    ends: mov $5, %ecx
        call starts
        {exit}
    """
    CALLS = {
        "plain": 2 * 22,  # once by tail
        "tail": 2 + 22,
        "again": 3 * 3 + 2,  # three dec, jz and ret, two calls
        "leaves": 1 + 2,  # left by a jump, as longjmp does
        "inner": 2,
        "starts": 2 * 5 + 1,  # it jumps to its own beginning, and is called once
        "ends": 2 + 11 + 3,  # up to the end of the process
    }

    def program(self) -> str:
        parts = {"pause": LOOP.format(1000), "ten": LOOP.format(10), "exit": EXIT.format(0)}
        parts["ways"] = WAYS.format(first="")
        return self.assemble("program", self.TEXT.format(**parts) + functions(*self.CALLS))

    def test_calls_by_hand(self) -> None:
        program, wanted = self.program(), dict(self.CALLS)
        found = {}
        for name in wanted:
            counts = self.counted("--events", "PAPI_TOT_INS", "--function", name, program)
            self.assertEqual(counts["functions_counted"], [name])
            found[name] = counts["total"]["PAPI_TOT_INS"]
        self.assertEqual(found, wanted)

    def test_several_functions(self) -> None:
        """What is in the calls of two counts once."""
        program = self.program()
        words = ("--events", "PAPI_TOT_INS", "--function", "tail", "--function", "plain")
        self.assertEqual(self.counted(*words, program)["total"], {"PAPI_TOT_INS": 44 + 2})
        self.assertRegex(self.table(), r" Counts of .*/program in calls of tail, plain:\n")

    def test_the_machine_is_that_of_the_whole_program(self) -> None:
        """The first call brings a line of code that the second finds."""
        text = "call f\n call f\n" + EXIT.format(0) + ".balign 64\n f: call g\n ret\n"
        text += ".balign 64\n g: ret\n" + functions("g")
        found = self.counted(
            "--events", "PAPI_L1_ICM", "--function", "g", self.assemble("lines", text)
        )
        self.assertEqual(found["total"], {"PAPI_L1_ICM": 1})

    def test_what_is_not_called(self) -> None:
        program = self.program()
        done = self.count("--function", "nothing", program)
        said = f"count: {program} never called nothing: nothing was counted\n"
        self.assertEqual((done.stdout, done.stderr, done.returncode), ("", said, 1))
        words = ("--events", "PAPI_TOT_INS", "--function", "nothing", "--function", "tail")
        done = self.count(*words, program)
        self.assertRegex(done.stderr, r"\n +24      PAPI_TOT_INS\n")
        said = f"count: {program} never called nothing"
        self.assertEqual((done.stderr.splitlines()[-1], done.returncode), (said, 1))

    CXX = """
        #include <pthread.h>
        #include <stdexcept>
        #define APART __attribute__((noinline))
        APART void spin(long n) { __asm__ volatile("1: dec %0\\n jnz 1b" : "+r"(n)); }
        namespace space {
        APART void throws(long n) { spin(n); throw std::runtime_error("out"); }
        APART void *thread(void *turns) { spin((long)turns); pthread_exit(0); }
        }
        int main() {
            pthread_t thread;
            try { space::throws(1000); } catch (std::exception &) { spin(1000000); }
            for (long i = 0; i < 3; i++) {
                pthread_create(&thread, 0, space::thread, (void *)(2000 + 1000 * i));
                pthread_join(thread, 0);
            }
            spin(1000000);
        }
    """

    @needs_command("c++", "a C++ compiler")
    def test_exceptions_and_threads(self) -> None:
        """Both leave a function, whose name is that of its language, without a return."""
        program = self.compile("program", self.CXX, compiler="c++")
        words = ("--events", "PAPI_TOT_INS", "--function")
        found = self.counted(*words, "space::throws", program)["total"]["PAPI_TOT_INS"]
        self.assertTrue(2000 < found < 100_000, found)
        found = self.counted(*words, "space::thread", program)["processes"][0]["threads"]
        counts = [thread["counts"]["PAPI_TOT_INS"] for thread in found]
        # The first thread that ends so also loads what unwinds its stack.
        self.assertEqual((counts[0], counts[3] - counts[2]), (0, 2000))
        self.assertTrue(6000 < counts[2] < 100_000, counts)

    def test_an_address_of_a_stripped_program(self) -> None:
        text = LOOP.format(9) + "call f\n" + EXIT.format(0) + ".balign 4096\n f: nop\n nop\n ret\n"
        stripped = self.assemble("stripped", text + functions("f"))
        address = self.address_of(stripped, "f")
        self.strip(stripped)
        words = ("--events", "PAPI_TOT_INS", "--function", f"{address:#x}")
        self.assertEqual(self.counted(*words, stripped)["total"], {"PAPI_TOT_INS": 3})
