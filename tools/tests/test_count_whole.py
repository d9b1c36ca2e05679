"""tools/count over programs that make no call of PAPI: what they do as a whole, against counts by
hand."""

from __future__ import annotations

import os
import shutil
import signal
import subprocess
import sys
from functools import partial
from pathlib import Path

from tests.support import TOOLS, needs_command
from tests.whole import EXIT, LOOP, Whole, needs_papi

INSTRUCTIONS = ("--events", "PAPI_TOT_INS")
# What the first count of all runs.
FIRST_TIME = ("sh", "cc", "as", "ld", "valgrind", "uname", "sed", "mktemp", "rm", "mv", "cat")
FIRST_TIME += ("dirname", "env")


@needs_command("valgrind", "valgrind")
@needs_command("cc", "a C compiler")
@needs_papi
class Programs(Whole):
    def test_counts_by_hand(self) -> None:
        """An indirect read-modify-write, a push, a pop and a call beside a loop; and one addition
        of two doubles."""
        program = self.assemble(
            "program",
            LOOP.format(1000)
            + "push %rax\n incq (%rsp)\n pop %rax\n call f\n addpd %xmm0, %xmm1\n"
            + EXIT.format(7)
            + "f: ret\n",
        )
        events = (
            "PAPI_TOT_INS,PAPI_LD_INS,PAPI_SR_INS,PAPI_BR_INS,PAPI_BR_TKN,BRANCH:CALLS,PAPI_FP_OPS"
        )
        found = self.counted("--events", events, program, status=7)
        wanted = {
            "PAPI_TOT_INS": 2001 + 6 + 3,
            "PAPI_LD_INS": 3,
            "PAPI_SR_INS": 3,
            "PAPI_BR_INS": 1002,
            "PAPI_BR_TKN": 999,
            "BRANCH:CALLS": 1,
            "PAPI_FP_OPS": 2,
        }
        self.assertEqual(
            (found["total"], found["ended"], list(found["total"])),
            (wanted, {"status": 7}, events.split(",")),
        )
        self.assertRegex(
            self.table(),
            r"\n +2,010      PAPI_TOT_INS\n +3      PAPI_LD_INS +0\.00 per instruction\n",
        )

    def test_the_usual_events_are_counted_by_the_whole_machine(self) -> None:
        """Each line of 64 KiB is missed once by the first level, and by none that has them; what is
        mispredicted and missed costs cycles."""
        walk = "lea block(%rip), %rax\n mov $1024, %ecx\n"
        walk += "1: movb $1, (%rax)\n add $64, %rax\n dec %ecx\n jnz 1b\n"
        program = self.assemble(
            "walk", walk + EXIT.format(0) + ".bss\n .balign 4096\n block: .skip 65536\n"
        )
        found = self.counted(program)["total"]
        self.assertEqual(
            {
                name: found[name]
                for name in ("PAPI_TOT_INS", "PAPI_L1_DCM", "PAPI_LD_INS", "PAPI_SR_INS")
            },
            {
                "PAPI_TOT_INS": 2 + 4 * 1024 + 3,
                "PAPI_L1_DCM": 1024,
                "PAPI_LD_INS": 0,
                "PAPI_SR_INS": 1024,
            },
        )
        self.assertTrue(0 < found["PAPI_BR_MSP"] < 20 and found["PAPI_L3_TCM"] > 1024, found)
        self.assertGreaterEqual(found["PAPI_TOT_CYC"], found["PAPI_TOT_INS"] + 1024 * 200)

    def test_a_part_of_the_machine_counts_as_the_whole_one(self) -> None:
        """Each event by itself, for which the rest of the machine is left out."""
        program = str(Path("/bin/true"))
        whole = self.counted(program)["total"]
        for event in (
            "PAPI_L1_DCM",
            "PAPI_L3_TCM",
            "PAPI_BR_MSP",
            "PAPI_TOT_CYC",
            "PAPI_BR_INS",
            "PAPI_LD_INS",
        ):
            self.assertEqual(
                self.counted("--events", event, program)["total"], {event: whole[event]}
            )

    def test_threads(self) -> None:
        text = """
            #include <pthread.h>
            static void *work(void *turns) {
                long left = (long)turns;
                __asm__ volatile("1: dec %0\\n jnz 1b" : "+r"(left));
                return 0;
            }
            int main(void) {
                pthread_t threads[3];
                for (long i = 0; i < 3; i++) {
                    pthread_create(&threads[i], 0, work, (void *)(1000 * (i + 1)));
                    pthread_join(threads[i], 0);
                }
                return 0;
            }
        """
        found = self.counted(
            "--events",
            "PAPI_TOT_INS,PAPI_BR_TKN",
            "--csv",
            "counts.csv",
            self.compile("threads", text),
        )
        threads = {
            thread["number"]: thread["counts"] for thread in found["processes"][0]["threads"]
        }
        self.assertEqual(list(threads), [1, 2, 3, 4])
        self.assertEqual(
            [threads[number]["PAPI_TOT_INS"] - threads[2]["PAPI_TOT_INS"] for number in (3, 4)],
            [2000, 4000],
        )
        for event, count in found["total"].items():
            self.assertEqual(sum(counts[event] for counts in threads.values()), count)
        self.assertRegex(
            self.table(), r"\n thread +PAPI_TOT_INS  PAPI_BR_TKN\n 1 +[\d,]+ +[\d,]+\n 2 "
        )
        rows = (self.folder / "counts.csv").read_text(encoding="ascii").splitlines()
        self.assertEqual((rows[0], len(rows)), ("process,thread,event,count", 1 + 2 * (4 + 1 + 1)))
        self.assertEqual(
            (rows[1], rows[-1]),
            (
                f"1,1,PAPI_TOT_INS,{threads[1]['PAPI_TOT_INS']}",
                f"all,all,PAPI_BR_TKN,{found['total']['PAPI_BR_TKN']}",
            ),
        )

    FORK = "mov $57, %eax\n syscall\n test %eax, %eax\n jz child\n"  # 4, and 2 in the child
    WAIT = (  # 6
        "mov $61, %eax\n mov $-1, %rdi\n xor %esi, %esi\n"
        "xor %edx, %edx\n xor %r10d, %r10d\n syscall\n"
    )

    def test_children(self) -> None:
        program = self.assemble(
            "family",
            self.FORK + self.WAIT + EXIT.format(0) + "child:\n" + LOOP.format(50) + EXIT.format(1),
        )
        found = self.counted("--children", *INSTRUCTIONS, program)
        told = [
            (
                process["number"],
                process["parent"],
                process["program"],
                process["total"]["PAPI_TOT_INS"],
            )
            for process in found["processes"]
        ]
        self.assertEqual(
            (told, found["total"], found["uncounted_children"]),
            ([(1, 0, program, 13), (2, 1, program, 2 + 101 + 3)], {"PAPI_TOT_INS": 119}, 0),
        )
        done = self.count(*INSTRUCTIONS, "--json", "one.json", program)
        self.assertRegex(
            done.stderr,
            r"\n +13      PAPI_TOT_INS\n\ncount: 1 child process not counted \(--children counts "
            r"them too\)\n$",
        )
        self.assertIn(
            '"uncounted_children": 1\n', (self.folder / "one.json").read_text(encoding="utf-8")
        )

    def test_another_program_takes_its_place(self) -> None:
        """It is the same process. What can't be run leaves the process as it was."""
        other = self.assemble("other", LOOP.format(20) + EXIT.format(4))
        name = "push $0\n lea {}(%rip), %rdi\n push %rdi\n"  # 3
        name += "mov %rsp, %rsi\n xor %edx, %edx\n mov $59, %eax\n syscall\n"  # 4
        program = self.assemble(
            "one",
            name.format("none")
            + name.format("name")
            + EXIT.format(9)
            + f'none: .asciz "/none"\n name: .asciz "{other}"\n',
        )
        found = self.counted(*INSTRUCTIONS, program, status=4)
        self.assertEqual(
            [
                (process["program"], process["total"]["PAPI_TOT_INS"])
                for process in found["processes"]
            ],
            [(other, 14 + 41 + 3)],
        )

    def test_a_signal_ends_it(self) -> None:
        """It is this program's too, and what happened before is counted."""
        kill = "mov $39, %eax\n syscall\n mov %eax, %edi\n"  # 3
        kill += "mov ${}, %esi\n mov $62, %eax\n syscall\n"  # 3
        for number in (signal.SIGTERM, signal.SIGKILL):
            found = self.counted(
                *INSTRUCTIONS,
                self.assemble("killed", kill.format(int(number)) + "1: jmp 1b\n"),
                status=-number,
            )
            self.assertEqual(
                (found["total"], found["ended"]), ({"PAPI_TOT_INS": 6}, {"signal": number})
            )

    def test_a_signal_to_this_program_alone_is_passed_on(self) -> None:
        """Nothing is left in the folder for temporary files."""
        script = "trap 'echo caught; exit 4' INT; echo runs; while :; do sleep 0.1; done"
        command = [str(TOOLS / "count"), *INSTRUCTIONS, "sh", "-c", script]
        temporary = self.folder / "temporary"
        temporary.mkdir()
        environment = {**os.environ, "TMPDIR": str(temporary)}
        for number, status, rest in (
            (signal.SIGINT, 4, "caught\n"),
            (signal.SIGTERM, -signal.SIGTERM, ""),
        ):
            pipes = {"stdout": subprocess.PIPE, "stderr": subprocess.PIPE, "text": True}
            # A shell has what it starts behind itself ignore SIGINT, which no trap undoes.
            heard = partial(signal.signal, signal.SIGINT, signal.SIG_DFL)
            with subprocess.Popen(command, env=environment, preexec_fn=heard, **pipes) as running:
                assert running.stdout and running.stderr
                self.assertEqual(running.stdout.readline(), "runs\n")
                running.send_signal(number)
                try:
                    said, told = running.communicate(timeout=100)
                except subprocess.TimeoutExpired:
                    running.kill()
                    raise
                self.assertEqual((said, running.returncode), (rest, status))
                self.assertRegex(told, r"[1-9][\d,]+      PAPI_TOT_INS\n")
            self.assertEqual(list(temporary.iterdir()), [])

    def test_formulas_are_the_programs(self) -> None:
        natives = "recorded::BRANCH:ALL,recorded::INSTRUCTIONS"
        rows = f"CPU,mine\nEVENT,HUNDREDTHS,DERIVED_POSTFIX,N0|100|*|N1|/|,{natives}\n"
        rows += "EVENT,LESS,DERIVED_SUB,recorded::INSTRUCTIONS,recorded::BRANCH:ALL\n"
        words = (
            "--presets",
            self.write("presets", rows),
            "--cpu",
            "mine",
            "--events",
            "HUNDREDTHS,LESS,INSTRUCTIONS",
        )
        found = self.counted(*words, self.assemble("program", LOOP.format(100) + EXIT.format(0)))[
            "total"
        ]
        self.assertEqual(found, {"HUNDREDTHS": 100 * 100 // 204, "LESS": 104, "INSTRUCTIONS": 204})

    def test_a_unit_of_ones_own(self) -> None:
        """More events than the unit has counters."""
        rows = (
            "COMPONENT,cpu,mine\nCOUNTER,P0,48,P\nEVENT,INST_RETIRED,c0,P0,Instructions\n"
            "UMASK,ANY_P,00,d,All\n"
            "EVENT,BR_INST_RETIRED,c4,P0,Branches\nUMASK,NEAR_TAKEN,20,dn,Taken\n"
            "UMASK,CONDITIONAL,01,n,Conditional\nEVENT,MEM_INST_RETIRED,d0,P0,Memory\n"
            "UMASK,ANY,03,d,Any\n"
        )
        words = (
            "--unit",
            self.write("unit", rows),
            "--events",
            "INST_RETIRED,BR_INST_RETIRED,BR_INST_RETIRED:CONDITIONAL,MEM_INST_RETIRED",
        )
        found = self.counted(
            *words, self.assemble("program", "push %rax\n" + LOOP.format(100) + EXIT.format(0))
        )["total"]
        self.assertEqual(list(found.values()), [205, 99, 100, 1])

    def test_the_same_each_time(self) -> None:
        """Whatever else is in the environment."""
        program = self.compile(
            "program",
            "#include <stdio.h>\n"
            'int main(void) { for (int i = 0; i < 9; i++) printf("%d", i); return 0; }',
        )
        found = {
            subprocess.run(
                [str(TOOLS / "count"), *words, program],
                capture_output=True,
                text=True,
                env=environment,
            ).stderr
            for words, environment in (((), None), ((), {**os.environ, "MORE": "x" * 500}))
        }
        self.assertEqual(len(found), 1, found)


@needs_command("valgrind", "valgrind")
@needs_command("cc", "a C compiler")
@needs_papi
class Refusals(Whole):
    """What can't be done has a line, and a status that is not 0."""

    def refused(self, *words: str) -> str:
        done = self.count(*words)
        self.assertEqual((done.stdout, done.returncode), ("", 1))
        return done.stderr

    def test_events(self) -> None:
        self.assertRegex(
            self.refused("--events", "NOPE", "true"),
            r'^count: NOPE: PAPI_ENOEVNT: .*the unit has no event "NOPE".*\n$',
        )
        self.assertRegex(
            self.refused("--events", "BRANCH:NOPE", "true"),
            r"^count: BRANCH:NOPE: PAPI_EATTR: .*\n$",
        )
        self.assertEqual(
            self.refused("--events", "PAPI_TOT_INS,INSTRUCTIONS:k", "true"),
            "count: INSTRUCTIONS:k counts nothing: no kind of occurrence that is counted here "
            "counts for it (docs/RECORDING.md)\n",
        )
        self.assertRegex(
            self.refused("--events", "INSTRUCTIONS:c=2", "true"),
            "^count: INSTRUCTIONS:c=2 counts lines of a stream, ",
        )
        self.assertRegex(
            self.refused("--events", "PAPI_TOT_INS,,CYCLES", "true"),
            "^count: '' is no name of an event: ",
        )

    def test_files(self) -> None:
        for option in ("-o", "--json", "--csv"):
            self.assertEqual(
                self.refused(option, "none/file", "true"),
                "count: none/file: No such file or directory\n",
            )
        done = self.count(*INSTRUCTIONS, "--json", "/dev/full", "true")
        self.assertEqual(
            (done.stderr.splitlines()[-1], done.returncode),
            ("count: /dev/full: No space left on device", 1),
        )
        self.assertEqual(
            self.refused("--unit", "none", "true"), "count: none: No such file or directory\n"
        )
        self.assertEqual(
            self.refused("--presets", self.write("rows", "CPU,other\n"), "--cpu", "mine", "true"),
            f"count: {self.folder}/rows has none of the usual presets for mine: --events names "
            "others\n",
        )

    def without(self, missing: str) -> str:
        """What a first count says where this command is not installed."""
        place = self.folder / f"without_{missing}"
        place.mkdir()
        for name in FIRST_TIME:
            if name != missing:
                (place / name).symlink_to(str(shutil.which(name)))
        cache = str(self.folder / "cache")  # the tool is not built yet
        environment = {**os.environ, "PATH": str(place), "XDG_CACHE_HOME": cache, "CC": "cc"}
        words = [sys.executable, str(TOOLS / "count"), "-o", "table", "/bin/echo", "ran"]
        done = subprocess.run(
            words, env=environment, capture_output=True, text=True, cwd=self.folder
        )
        self.assertEqual((done.stdout, done.returncode), ("", 1))
        return done.stderr

    def test_what_is_not_installed(self) -> None:
        for missing, package in (("cc", "gcc"), ("valgrind", "valgrind")):
            said = f"count: {missing} is not installed (apt-get install {package})\n"
            self.assertEqual(self.without(missing), said)

    def test_programs(self) -> None:
        self.assertEqual(self.refused("none"), "count: none: no such program\n")
        program = self.write("text", "no program")
        Path(program).chmod(0o755)
        done = self.count(*INSTRUCTIONS, program)
        self.assertNotEqual(done.returncode, 0)
        self.assertTrue(done.stderr, "something is said")
