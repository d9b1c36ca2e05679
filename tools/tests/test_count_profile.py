"""tools/count --profile: each function's and each line's counts, against counts by hand."""

from __future__ import annotations

import json
import subprocess
from collections import Counter
from typing import Any

from tests.support import needs_command
from tests.whole import EXIT, LOOP, WAYS, Whole, functions, needs_papi


@needs_command("valgrind", "valgrind")
@needs_command("cc", "a C compiler")
@needs_papi
class Profiles(Whole):
    TEXT = """
        call plain
        call tail
        mov $3, %ebx
        call again
        lea back(%rip), %rax
        mov %rsp, %rdx
        call leaves
    back:
        {exit}
    plain: {ten}
        push %rax
        pop %rax
        ret
    {ways}
    """
    NAMES = ("plain", "tail", "again", "leaves", "inner")
    PLAIN = 24
    WANTED = {  # own instructions, those with calls, calls
        "_start": (7 + 3, 10 + 2 * PLAIN + 2 + 3 * PLAIN + 14 + 1 + 2, 1),
        "plain": (5 * PLAIN, 5 * PLAIN, 5),
        "tail": (2, 2 + PLAIN, 1),
        "again": (3 + 3 + 3 + 2 + 3, 14 + 3 * PLAIN, 3),
        "leaves": (1, 3, 1),
        "inner": (2, 2, 1),
    }

    def program(self) -> str:
        ways = WAYS.format(first="call plain\n")
        text = self.TEXT.format(ten=LOOP.format(10), exit=EXIT.format(0), ways=ways)
        return self.assemble("program", text + functions("_start", *self.NAMES))

    def of_functions(self, found: Any) -> dict[str, tuple[int, int, int]]:
        """Instructions by themselves and with calls, and how often they were called."""
        return {
            each["name"]: (
                each["own"]["PAPI_TOT_INS"],
                each["inclusive"]["PAPI_TOT_INS"],
                each["calls"],
            )
            for each in found["functions"]
        }

    def check_sums(self, found: Any) -> None:
        for event, count in found["total"].items():
            self.assertEqual(sum(each["own"][event] for each in found["functions"]), count, event)

    def test_counts_by_hand(self) -> None:
        events = "PAPI_TOT_INS,PAPI_LD_INS,PAPI_BR_TKN"
        found = self.counted("--profile", "--events", events, self.program())
        self.check_sums(found)
        self.assertEqual(self.of_functions(found), self.WANTED)
        plain = next(each for each in found["functions"] if each["name"] == "plain")
        self.assertEqual((plain["own"]["PAPI_LD_INS"], plain["own"]["PAPI_BR_TKN"]), (10, 45))
        self.assertEqual(plain["inclusive"], plain["own"])
        self.assertRegex(self.table(), r"\n +120 +\d+\.\d\d +120 +5 +10 +45  plain ")

    def test_lines_and_misses(self) -> None:
        """Each line of the source has its own, also what the machine makes of it."""
        text = (
            "static volatile char block[65536] __attribute__((aligned(4096)));\n"
            "int main(void) {\n"
            "    for (int i = 0; i < 65536; i += 64)\n"
            "        block[i] = 1;\n"
            "    return 0;\n"
            "}\n"
        )
        program = self.compile("walk", text, "-g")
        found = self.counted("--profile", "--events", "PAPI_L1_STM,PAPI_SR_INS", program)
        self.check_sums(found)
        lines = {each["line"]: each for each in found["lines"] if each["file"].endswith("walk.c")}
        self.assertEqual(lines[4]["own"], {"PAPI_L1_STM": 1024, "PAPI_SR_INS": 1024})
        self.assertEqual((lines[4]["function"], lines[4]["object"]), ("main", program))
        self.assertEqual(found["functions"][0]["name"], "main")
        self.assertIn(found["functions"][0]["line"], (2, 3))

    def test_a_stripped_program(self) -> None:
        """Its functions begin where they are called."""
        program = self.program()
        addresses = {
            name: self.address_of(program, name)
            for name in ("tail", "plain", "again", "leaves", "inner")
        }
        self.strip(program)
        found = self.counted("--profile", "--events", "PAPI_TOT_INS", program)
        self.check_sums(found)
        told = {each["name"]: each["own"]["PAPI_TOT_INS"] for each in found["functions"]}
        wanted = {f"{address:#x}": self.WANTED[name][0] for name, address in addresses.items()}
        self.assertEqual({name: told[name] for name in wanted}, wanted)

    def test_threads_and_processes(self) -> None:
        text = """
            #include <pthread.h>
            #include <sys/wait.h>
            #include <unistd.h>
            static __attribute__((noinline)) void spin(long n) {
                __asm__ volatile("1: dec %0\\n jnz 1b" : "+r"(n));
            }
            static void *work(void *turns) { spin((long)turns); return 0; }
            int main(void) {
                pthread_t thread;
                pthread_create(&thread, 0, work, (void *)1000);
                pthread_join(thread, 0);
                spin(100);
                if (!fork()) { spin(20000); _exit(0); }
                wait(0);
                return 0;
            }
        """
        program = self.compile("family", text)
        for words, turns, calls in (((), 1100, 2), (("--children",), 21100, 3)):
            to = self.folder / "counts"
            self.count("--profile", "--events", "PAPI_BR_TKN", "--json", str(to), *words, program)
            found = json.loads(to.read_text(encoding="utf-8"))
            self.check_sums(found)
            spin = next(each for each in found["functions"] if each["name"] == "spin")
            wanted = {"PAPI_BR_TKN": turns - calls}
            self.assertEqual(
                (spin["own"], spin["inclusive"], spin["calls"]), (wanted, wanted, calls)
            )

    @needs_command("callgrind_annotate", "valgrind")
    def test_the_format_of_callgrind(self) -> None:
        program, to = self.program(), str(self.folder / "profile")
        self.counted("--callgrind", to, "--events", "PAPI_TOT_INS,PAPI_LD_INS", program)
        for words, place in (((), 0), (("--inclusive=yes",), 1)):
            command = ["callgrind_annotate", "--threshold=100", "--auto=no", *words, to]
            done = subprocess.run(command, capture_output=True, text=True, check=True)
            self.assertIn(f"{self.WANTED['_start'][1]:,} (100.0%)", done.stdout)
            for name, wanted in self.WANTED.items():
                self.assertRegex(done.stdout, rf"\n *{wanted[place]:,} .*:{name} ?")

    def test_refusals(self) -> None:
        rows = "CPU,mine\nEVENT,RATE,DERIVED_POSTFIX,N0|N1|/|,"
        rows += "recorded::BRANCH:ALL,recorded::INSTRUCTIONS\n"
        words = ("--presets", self.write("rows", rows), "--cpu", "mine", "--events", "RATE")
        said = "count: RATE is no sum over functions: its formula multiplies or divides counts\n"
        done = self.count("--profile", *words, "true")
        self.assertEqual((done.stdout, done.stderr, done.returncode), ("", said, 1))

    def test_calls_of_functions_alone(self) -> None:
        """What happens in calls of named functions, by each function that they call."""
        program = self.program()
        again = {"again": (14, 14 + 3 * self.PLAIN, 3), "plain": (72, 72, 3)}
        both = {**again, "tail": (2, 26, 1), "plain": (96, 96, 4)}
        for names, wanted in ((("again",), again), (("again", "tail"), both)):
            words = [word for name in names for word in ("--function", name)]
            found = self.counted("--profile", "--events", "PAPI_TOT_INS", *words, program)
            self.check_sums(found)
            self.assertEqual(self.of_functions(found), wanted)
            own = sum(own for own, *_ in wanted.values())
            self.assertEqual(found["total"], {"PAPI_TOT_INS": own})
        addresses = {name: f"{self.address_of(program, name):#x}" for name in again}
        self.strip(program)
        words = ["--function", addresses["again"]]
        found = self.counted("--profile", "--events", "PAPI_TOT_INS", *words, program)
        wanted = {addresses[name]: counts for name, counts in again.items()}
        self.assertEqual(self.of_functions(found), wanted)

    def test_an_address_that_is_jumped_to(self) -> None:
        """Named, it is a function of its own."""
        text = "call f\n" + EXIT.format(0) + ".balign 64\n f: nop\n jmp g\n.balign 64\n"
        program = self.assemble("program", text + "g: nop\n nop\n ret\n" + functions("f", "g"))
        address = f"{self.address_of(program, 'g'):#x}"
        self.strip(program)
        words = ("--profile", "--events", "PAPI_TOT_INS", "--function", address)
        found = self.counted(*words, program)
        self.assertEqual(self.of_functions(found), {address: (3, 3, 1)})

    def test_what_repeats_in_functions_alone(self) -> None:
        turns = "mov ${}, %ecx\n lea -256(%rsp), %rdi\n rep stosb\n"
        text = "call f\n" + turns.format(100) + EXIT.format(0)
        text += f"f: {turns.format(10)} ret\n" + functions("f")
        words = ("--profile", "--events", "PAPI_SR_INS,PAPI_TOT_INS", "--function", "f")
        found = self.counted(*words, self.assemble("repeats", text))
        self.assertEqual(found["total"], {"PAPI_SR_INS": 10, "PAPI_TOT_INS": 4})
        self.check_sums(found)

    def test_misses_and_branches_of_functions_alone(self) -> None:
        text = (
            "static volatile char block[65536] __attribute__((aligned(4096)));\n"
            "static __attribute__((noinline)) void walk(void) {\n"
            "    for (int i = 0; i < 65536; i += 64)\n"
            "        block[i] = 1;\n"
            "}\n"
            "static __attribute__((noinline)) void other(void) { walk(); }\n"
            "int main(void) { walk(); other(); walk(); return 0; }\n"
        )
        program = self.compile("walk", text, "-g")
        events = "PAPI_L1_STM,PAPI_SR_INS,PAPI_TOT_CYC,PAPI_BR_MSP,PAPI_BR_TKN"
        words = ("--profile", "--events", events, "--function", "other")
        found = self.counted(*words, program)
        self.check_sums(found)
        walk = next(each for each in found["functions"] if each["name"] == "walk")
        self.assertEqual((walk["calls"], walk["own"]["PAPI_BR_TKN"]), (1, 1023))
        self.assertEqual(walk["own"]["PAPI_L1_STM"], walk["own"]["PAPI_SR_INS"])
        self.assertEqual(walk["own"]["PAPI_SR_INS"], 1024)
        self.assertTrue(found["total"]["PAPI_TOT_CYC"] > 1024 * 8)

    INLINED = """
        static volatile int sink;
        static inline __attribute__((always_inline)) int deep(int n) {
            sink += n;
            return sink;
        }
        static inline __attribute__((always_inline)) int middle(int n) {
            int s = 0;
            for (int i = 0; i < n; i++)
                s += deep(i);
            return s;
        }
        __attribute__((noinline)) int outer(int n) {
            sink = 1;
            return middle(n) + deep(2);
        }
        int main(void) { return outer(10) == 0; }
    """

    @needs_command("callgrind_annotate", "valgrind")
    @needs_command("addr2line", "binutils")
    def test_what_is_inlined(self) -> None:
        """What callgrind counts at each address, by the functions that addr2line names there."""
        program = self.compile("inlined", self.INLINED, "-g", "-no-pie")
        found = self.counted("--profile", "--events", "PAPI_TOT_INS", program)
        self.check_sums(found)
        own: Counter[tuple[str, int]] = Counter()
        for each in found["lines"]:
            if each["function"] == "outer":
                own[each["inlined"] or "outer", each["line"]] += each["own"]["PAPI_TOT_INS"]
        wanted = self.by_address(program, "outer")
        self.assertEqual(own, wanted)
        self.assertEqual({name for name, _ in wanted}, {"outer", "middle", "deep"})
        inlined = [each for each in found["inlined"] if each["function"] == "outer"]
        sums = {each["name"]: each["own"] for each in inlined}
        for name in ("middle", "deep"):
            count = sum(count for (of, _), count in wanted.items() if of == name)
            self.assertEqual(sums[name], {"PAPI_TOT_INS": count})
            self.assertRegex(self.table(), rf"\n +{count}  {name} +in outer\n")

    def by_address(self, program: str, function: str) -> Counter[tuple[str, int]]:
        """Instructions of a function, by what is innermost at their addresses, and its line."""
        to = str(self.folder / "callgrind")
        words = ["--dump-instr=yes", "--compress-pos=no", "--compress-strings=no"]
        words += ["--quiet", f"--callgrind-out-file={to}", program]
        subprocess.run(["valgrind", "--tool=callgrind", *words], check=True)
        here, counts = "", Counter[str]()
        with open(to, encoding="utf-8") as lines:
            for line in lines:
                here = line[3:].strip() if line.startswith("fn=") else here
                if here == function and line.startswith("0x"):
                    address, _, count = line.split()
                    counts[address] += int(count)
        asked = ["addr2line", "-i", "-f", "-a", "-e", program, *counts]
        told = subprocess.run(asked, capture_output=True, text=True, check=True).stdout.split("\n")
        found: Counter[tuple[str, int]] = Counter()
        for place, line in enumerate(told):
            if line.startswith("0x"):
                number = int(told[place + 2].partition(" ")[0].rpartition(":")[2])
                found[told[place + 1], number] += counts[f"{int(line, 16):#x}"]
        return found
