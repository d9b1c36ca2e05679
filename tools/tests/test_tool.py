"""Our tool of Valgrind: the classes of instructions, the machine, how it is built, and what it
writes of real programs."""

from __future__ import annotations

import os
import shutil
import signal
import subprocess
import sys
import time
import unittest
from collections import Counter
from pathlib import Path

from parts import valgrind
from tests.support import (
    ROOT, TOOLS, InFolder, built_library, needs_command, needs_library, run_tool,
)

STRICT = ["cc", "-std=c11", "-Wall", "-Wextra", "-Wconversion", "-Werror"]
needs_tool = unittest.skipUnless(
    shutil.which("valgrind") and shutil.which("cc") and shutil.which("nm"),
    "valgrind, a C compiler or binutils is not installed",
)


class Harness(InFolder):
    """A program over the tool's own functions."""

    def build(self, text: str, *sources: str) -> str:
        program = str(self.folder / "harness")
        files = [str(valgrind.SOURCES / source) for source in sources]
        subprocess.run(
            [
                *STRICT, f"-I{valgrind.SOURCES}", "-o", program, self.write("harness.c", text),
                *files,
            ],
            check=True,
        )
        return program


@needs_command("cc", "a C compiler")
class Classes(Harness):
    """The bytes are those that GNU's assembler makes of the text beside them."""

    KINDS = (
        "plain", "conditional", "jump", "call", "return", "scalar double", "scalar single",
        "double 128", "single 128", "double 256", "single 256", "double 512", "single 512", "x87",
    )
    CASES = {
        "4889e5": ("mov %rsp,%rbp", "plain"), "f20f1000": ("movsd (%rax),%xmm0", "plain"),
        "f20fc2c801": ("cmpsd $1,%xmm0,%xmm1", "plain"),
        "660ffec8": ("paddd %xmm0,%xmm1", "plain"), "660f3839c8": ("pminsd %xmm0,%xmm1", "plain"),
        "f20f2ac0": ("cvtsi2sd %eax,%xmm0", "plain"),
        "660f2ec8": ("ucomisd %xmm0,%xmm1", "plain"), "d9e8": ("fld1", "plain"),
        "dd18": ("fstpl (%rax)", "plain"), "dc10": ("fcoml (%rax)", "plain"),
        "aa": ("stos %al,%es:(%rdi)", "plain"),
        "f3aa": ("rep stos %al,%es:(%rdi)", "plain repeats"),
        "f3a6": ("repz cmpsb %es:(%rdi),%ds:(%rsi)", "plain repeats"),
        "f348a5": ("rep movsq", "plain repeats"),
        "f00fc102": ("lock xadd %eax,(%rdx)", "plain locks"),
        "f0ff02": ("lock incl (%rdx)", "plain locks"),
        "f00fb102": ("lock cmpxchg %eax,(%rdx)", "plain"),
        "8702": ("xchg %eax,(%rdx)", "plain locks"), "6690": ("xchg %ax,%ax", "plain"),
        "7512": ("jne .+20", "conditional"), "0f85ca070000": ("jne .+2000", "conditional"),
        "e308": ("jrcxz .+10", "conditional"), "e208": ("loop .+10", "conditional"),
        "7012": ("jo .+20", "conditional"), "7f12": ("jg .+20", "conditional"),
        "6f": ("outsl", "plain"), "e0fe": ("loopne .", "conditional"),
        "e1fe": ("loope .", "conditional"),
        "e410": ("in $16,%al", "plain"), "0f80ca070000": ("jo .+2000", "conditional"),
        "0f8fca070000": ("jg .+2000", "conditional"), "0f90c0": ("seto %al", "plain"),
        "67f20f5800": ("addsd (%eax),%xmm0", "scalar double"),
        "2ef20f5800": ("addsd %cs:(%rax),%xmm0", "scalar double"),
        "36f20f5800": ("addsd %ss:(%rax),%xmm0", "scalar double"),
        "3ef20f5800": ("ds addsd (%rax),%xmm0", "scalar double"),
        "26f20f5800": ("addsd %es:(%rax),%xmm0", "scalar double"),
        "64f20f5800": ("addsd %fs:(%rax),%xmm0", "scalar double"),
        "65f2480f5800": ("rex.W addsd %gs:(%rax),%xmm0", "scalar double"),
        "3e7511": ("jne,pt .+20", "conditional"),
        "2e0f85c9070000": ("jne,pn .+2000", "conditional"),
        "eb08": ("jmp .+10", "jump"), "f2ff25e52f0000": ("bnd jmp *0x2fe5(%rip)", "jump"),
        "3effe0": ("notrack jmp *%rax", "jump"),
        "e8e3030000": ("call .+1000", "call"), "ffd0": ("call *%rax", "call"),
        "41ff542408": ("call *8(%r12)", "call"),
        "c3": ("ret", "return"), "f3c3": ("repz ret", "return"), "c21000": ("ret $16", "return"),
        "f30f1efa": ("endbr64", "plain"), "0f05": ("syscall", "plain"),
        "f20f58c8": ("addsd %xmm0,%xmm1", "scalar double"),
        "f2450f58da": ("addsd %xmm10,%xmm11", "scalar double"),
        "c5fa5908": ("vmulss (%rax),%xmm0,%xmm1", "scalar single"),
        "f20f51c8": ("sqrtsd %xmm0,%xmm1", "scalar double"),
        "f30f52c8": ("rsqrtss %xmm0,%xmm1", "scalar single"),
        "0f53c8": ("rcpps %xmm0,%xmm1", "single 128"),
        "660f58c8": ("addpd %xmm0,%xmm1", "double 128"),
        "0f5ec8": ("divps %xmm0,%xmm1", "single 128"),
        "0f5fc8": ("maxps %xmm0,%xmm1", "single 128"),
        "c5f558d0": ("vaddpd %ymm0,%ymm1,%ymm2", "double 256"),
        "c5f45fd0": ("vmaxps %ymm0,%ymm1,%ymm2", "single 256"),
        "c441395cd1": ("vsubpd %xmm9,%xmm8,%xmm10", "double 128"),
        "f20f7cc8": ("haddps %xmm0,%xmm1", "single 128"),
        "660f7dc8": ("hsubpd %xmm0,%xmm1", "double 128"),
        "c5f7d0d0": ("vaddsubps %ymm0,%ymm1,%ymm2", "single 256"),
        "660f3a40c803": ("dpps $3,%xmm0,%xmm1", "single 128 twice"),
        "660f3a41c803": ("dppd $3,%xmm0,%xmm1", "double 128 twice"),
        "c4e2f1b9d0": ("vfmadd231sd %xmm0,%xmm1,%xmm2", "scalar double twice"),
        "c4e27598d0": ("vfmadd132ps %ymm0,%ymm1,%ymm2", "single 256 twice"),
        "c4e2f5ae10": ("vfnmsub213pd (%rax),%ymm1,%ymm2", "double 256 twice"),
        "c4e2f1b6d0": ("vfmaddsub231pd %xmm0,%xmm1,%xmm2", "double 128 twice"),
        "c4e27197d0": ("vfmsubadd132ps %xmm0,%xmm1,%xmm2", "single 128 twice"),
        "c4e271add0": ("vfnmadd213ss %xmm0,%xmm1,%xmm2", "scalar single twice"),
        "c5f5fed0": ("vpaddd %ymm0,%ymm1,%ymm2", "plain"),
        "c4e37d04c801": ("vpermilps $1,%ymm0,%ymm1", "plain"),
        "d800": ("fadds (%rax)", "x87"), "def9": ("fdivrp %st,%st(1)", "x87"),
        "d9fa": ("fsqrt", "x87"), "dc08": ("fmull (%rax)", "x87"), "da00": ("fiaddl (%rax)", "x87"),
        "de30": ("fidivs (%rax)", "x87"), "d9fb": ("fsincos", "x87"), "d9e1": ("fabs", "plain"),
        "d9e0": ("fchs", "plain"), "d9c9": ("fxch", "plain"),
        "d9f0": ("f2xm1", "x87"), "d9f1": ("fyl2x", "x87"), "d9f2": ("fptan", "x87"),
        "d9f3": ("fpatan", "x87"), "d9f4": ("fxtract", "plain"), "d9f5": ("fprem1", "x87"),
        "d9f6": ("fdecstp", "plain"), "d9f7": ("fincstp", "plain"), "d9f8": ("fprem", "x87"),
        "d9f9": ("fyl2xp1", "x87"), "d9fc": ("frndint", "plain"), "d9fd": ("fscale", "plain"),
        "d9fe": ("fsin", "x87"), "d9ff": ("fcos", "x87"), "dff1": ("fcomip %st(1),%st", "plain"),
        "dac9": ("fcmove %st(1),%st", "plain"),
    }

    def test_classes(self) -> None:
        program = self.build("""
            #include "decode.h"
            #include <stdio.h>
            int main(void) {
                char line[64]; unsigned char bytes[16];
                while (scanf("%63s", line) == 1) {
                    unsigned length = 0;
                    while (length < sizeof bytes && sscanf(line + 2 * length, "%2hhx", bytes + length) == 1) length++;
                    printf("%d\\n", class_of_bytes(bytes, length));
                }
                return 0;
            }
        """, "decode.c")
        written = subprocess.run(
            [program], input="\n".join(self.CASES), capture_output=True, text=True, check=True
        ).stdout.split()
        found = [
            self.KINDS[int(number) & 15] + " twice" * (int(number) >> 4 & 1)
            + " repeats" * (int(number) >> 5 & 1) + " locks" * (int(number) >> 6 & 1)
            for number in written
        ]
        self.assertEqual(
            dict(zip(self.CASES, found)), {code: kind for code, (_, kind) in self.CASES.items()}
        )


@needs_command("cc", "a C compiler")
class Machine(Harness):
    CACHE = """
        #include "machine.h"
        #include <stdio.h>
        #include <stdlib.h>
        int main(int count, char **words) {
            const shape s = {strtoull(words[1], NULL, 10), strtoull(words[2], NULL, 10), strtoull(words[3], NULL, 10)};
            cache c;
            if (!shape_is_right(&s)) return puts("refused"), 0;
            cache_begins(&c, &s, aligned_alloc(64, (cache_room(&s) + 63) / 64 * 64));
            for (int i = 4; i + 1 < count; i += 2) putchar(cache_misses(&c, strtoull(words[i], NULL, 16), strtoull(words[i + 1], NULL, 10)) ? 'm' : '.');
            return 0;
        }
    """

    def misses(self, shape: str, *accesses: tuple[int, int]) -> str:
        words = [word for address, size in accesses for word in (f"{address:x}", str(size))]
        return subprocess.run(
            [self.program, *shape.split(","), *words], capture_output=True, text=True, check=True
        ).stdout

    def setUp(self) -> None:
        super().setUp()
        self.program = self.build(self.CACHE, "machine.c")

    def test_the_line_used_longest_ago_goes(self) -> None:
        """Two sets of two lines: 0, 128 and 256 share the first."""
        self.assertEqual(
            self.misses("4,2,64", *((address, 1) for address in (0, 128, 0, 256, 0, 128, 64))),
            "mm.m.mm",
        )

    def test_an_access_over_the_end_of_a_line_uses_both(self) -> None:
        self.assertEqual(self.misses("4,2,64", (0x3C, 8), (0, 64), (0x40, 8), (0x7C, 8)), "m..m")

    def test_pages(self) -> None:
        self.assertEqual(self.misses("1,1,4096", (0, 1), (0xFFF, 1), (0x1000, 1), (0, 1)), "m.mm")
        self.assertEqual(
            self.misses("4,4,4096", *((page * 4096, 1) for page in (0, 1, 2, 3, 0, 4, 1, 0))),
            "mmmm.mm.",
        )

    def test_shapes(self) -> None:
        for shape in ("512,8,48", "48,4,64", "512,0,64", "1024,256,64", "33554432,8,64"):
            self.assertEqual(self.misses(shape), "refused\n", shape)

    def test_the_predictor(self) -> None:
        """Gshare with four counters: an always taken branch at 0 is learned once its history is,
        and then a first branch that is not taken errs."""
        program = self.build("""
            #include "machine.h"
            #include <stdio.h>
            int main(void) {
                predictor p; uint8_t counters[4]; const char *turns = "TTTTTTNT";
                predictor_begins(&p, 2, counters);
                for (const char *t = turns; *t; t++) putchar(predictor_errs(&p, 0, *t == 'T') ? 'e' : '.');
                return 0;
            }
        """, "machine.c")
        # Counters begin at 1. Histories 0, 1, 3 meet three of them, each of which errs once; 3 is
        # used up to the sixth turn.
        self.assertEqual(
            subprocess.run([program], capture_output=True, text=True, check=True).stdout, "eee...ee"
        )


@needs_tool
class Building(InFolder):
    def build(self, path: str | None = None, **changes: str) -> subprocess.CompletedProcess[str]:
        environment = {**os.environ, **changes, **({"PATH": path} if path else {})}
        return subprocess.run(
            ["/bin/sh", str(valgrind.SOURCES / "build"), str(self.folder / "tool")],
            capture_output=True, text=True, env=environment,
        )

    def commands(self, **texts: str | None) -> str:
        """A folder for PATH with the usual commands, where those with a text are replaced, and
        those without one are left out."""
        folder = self.folder / "commands"
        folder.mkdir()
        texts.setdefault("valgrind", f'exec {shutil.which("valgrind")} "$@"')
        for name in (
            "sh", "cc", "as", "ld", "valgrind", "uname", "sed", "mktemp", "mkfifo", "sleep", "rm",
            "mv", "cat", "dirname", "env", "nm",
        ):
            if name not in texts:
                (folder / name).symlink_to(shutil.which(name) or name)
        for name, text in texts.items():
            if text:
                (folder / name).write_text(f"#!/bin/sh\n{text}\n", encoding="ascii")
                (folder / name).chmod(0o755)
        return str(folder)

    def test_it_is_built_without_a_warning(self) -> None:
        strict = "-Wall -Wextra -Wconversion -Werror"
        # What stands in a macro of Valgrind's headers is judged by this word alone.
        hidden = "implicit-function-declaration", "sign-compare", "conversion"
        for flags in (
            strict, " ".join(["-Wsystem-headers", *(f"-Werror={word}" for word in hidden)]),
        ):
            with self.subTest(flags):
                done = self.build(CFLAGS=flags)
                self.assertEqual((done.returncode, done.stdout, done.stderr), (0, "", ""))
                self.assertEqual([path.name for path in self.folder.iterdir()], ["tool"])

    def check(self, cause: str, **texts: str | None) -> None:
        done = self.build(self.commands(**texts))
        self.assertEqual(done.returncode, 1, done.stderr)
        self.assertRegex(done.stderr, rf"^{cause}\n$")
        self.assertFalse((self.folder / "tool").exists())

    def test_without_a_compiler(self) -> None:
        self.check(r"cc is not installed \(apt-get install gcc\)", cc=None)

    def test_without_valgrind(self) -> None:
        self.check(r"valgrind is not installed \(apt-get install valgrind\)", valgrind=None)

    def test_with_another_version(self) -> None:
        self.check(
            (
                r"valgrind is 3\.99\.0, and its headers in \S+ are those of \S+: both have to be "
                r"of one version \(apt-get install valgrind\)"
            ),
            valgrind="echo valgrind-3.99.0",
        )

    def test_on_another_machine(self) -> None:
        self.check(
            "the tool of Valgrind runs on Linux-x86_64 alone, and this is Linux-aarch64",
            uname='case $1 in -s) echo Linux ;; *) echo aarch64 ;; esac',
        )

    def test_a_compiler_that_fails(self) -> None:
        self.check(
            r"no space\nthe tool can't be built with valgrind \S+; it was tried with \S+",
            cc="echo no space >&2; exit 1",
        )

    def test_two_at_once(self) -> None:
        """Both tools run, and one is kept."""
        environment = {**os.environ, "XDG_CACHE_HOME": str(self.folder)}
        words = [sys.executable, str(TOOLS / "record"), "-o", "/dev/null", "/bin/true"]
        both = [subprocess.Popen(words, stderr=subprocess.PIPE, env=environment) for _ in range(2)]
        self.assertEqual(
            [
                (process.communicate()[1].startswith(b"record: "), process.returncode)
                for process in both
            ],
            [(True, 0)] * 2,
        )
        self.assertEqual(len(list((self.folder / "kistalub").iterdir())), 1)

    def test_a_folder_for_caches_that_cannot_be_made(self) -> None:
        done = subprocess.run(
            [str(TOOLS / "record"), "-o", "/dev/null", "/bin/true"], capture_output=True, text=True,
            env={**os.environ, "XDG_CACHE_HOME": "/dev/null"},
        )
        self.assertEqual(
            (done.returncode, done.stderr),
            (
                1,
                (
                    "record: /dev/null/kistalub: Not a directory (XDG_CACHE_HOME names another "
                    "folder)\n"
                ),
            ),
        )

    def test_headers_that_are_not_there(self) -> None:
        text = (valgrind.SOURCES / "build").read_text(encoding="utf-8")
        for name, cause in (
            ("INCLUDES", "valgrind's headers"), ("LIBRARIES", "valgrind's static libraries"),
        ):
            lines = [
                f"{name}=/nowhere" if line.startswith(f"{name}=") else line
                for line in text.splitlines()
            ]
            done = subprocess.run(
                ["/bin/sh", self.write("build", "\n".join(lines)), str(self.folder / "tool")],
                capture_output=True, text=True,
            )
            self.assertEqual(done.returncode, 1)
            self.assertRegex(
                done.stderr,
                (
                    rf"^{cause} are not installed \(apt-get install valgrind\): there is no \S+ in "
                    r"/nowhere\n$"
                ),
            )


def gathered(lines: list[str], window: int) -> list[str]:
    """The lines of a recording with --each, gathered as RECORDING.md says: by another way than the
    tool's."""
    written: list[str] = []
    amounts: dict[tuple[str, str], int] = {}
    branches = {line.split()[5] for line in lines if line.split()[1] == "c4"}
    straight: list[str] = []
    begun = 0

    def note(head: str, place: str, amount: int) -> None:
        amount += amounts.get((head, place), 0)
        while amount > 255:
            written.append(f"{head} 255 {place}")
            amount -= 255
        amounts[head, place] = amount

    def end_straight() -> None:
        for head in ("0 c0 00 u", "0 3c 00 u") if straight else ():
            note(head, straight[0], len(straight))
        straight.clear()

    def end_window() -> None:
        end_straight()
        written.extend(f"{head} {amount} {place}" for (head, place), amount in amounts.items())
        amounts.clear()

    for number, line in enumerate(lines):
        *first, amount, place = line.split()
        head = " ".join(first)
        is_instructions_cycle = (
            number and lines[number - 1] == f"0 c0 00 u 1 {place}"
            and line == f"0 3c 00 u 1 {place}"
        )
        if head == "0 c0 00 u":
            straight.append(place)
            if place in branches:
                end_straight()
        elif is_instructions_cycle:
            begun += 1
            if begun % window == 0:
                end_window()
        else:
            note(head, place, int(amount))
    end_window()
    return written


class Recording(InFolder):
    def compile(self, name: str, text: str | None = None, *flags: str) -> str:
        """The sample, which has no library, or a text that is linked with one."""
        program = str(self.folder / name)
        source = self.write(f"{name}.c", text) if text else str(TOOLS / "tests/sample.c")
        plain = (
            []
            if text
            else [
                "-static", "-nostdlib", "-fno-pie", "-no-pie", "-fno-stack-protector",
                "-fno-tree-vectorize",
            ]
        )
        subprocess.run(["cc", "-O1", *plain, "-o", program, source, *flags], check=True)
        return program

    def record(self, *words: str, name: str = "stream", **changes: str) -> list[str]:
        """The lines of a recording, without the first."""
        done = subprocess.run(
            [str(TOOLS / "record"), "-o", str(self.folder / name), *words], capture_output=True,
            text=True, env={**os.environ, **changes},
        )
        self.assertEqual(done.returncode, 0, done.stderr)
        return (self.folder / name.replace("%t", "0")).read_text(encoding="ascii").splitlines()[1:]

    def refused(self, *words: str) -> str:
        done = run_tool("record", "-o", str(self.folder / "stream"), *words)
        self.assertNotIn(done.returncode, (0, 2), done.stderr)
        return done.stderr

    @staticmethod
    def sums(lines: list[str]) -> Counter[str]:
        found: Counter[str] = Counter()
        for line in lines:
            words = line.split()
            found[f"{words[1]} {words[2]}"] += int(words[4])
        return found


@needs_tool
class Lines(Recording):
    def test_gathered_lines_are_those_of_each(self) -> None:
        program = self.compile("sample")
        each = self.record("--each", program)
        for window in (1, 2, 7, 100, 1000, 65536):
            self.assertEqual(
                self.record("--window", str(window), program), gathered(each, window), window
            )

    def test_gathered_lines_of_a_program_with_its_library(self) -> None:
        program = self.compile("texts", """
            #include <stdio.h>
            #include <stdlib.h>
            int main(void) { char text[64]; double sum = 0; for (int i = 0; i < 40; i++) { snprintf(text, sizeof text, "%d.%d", i, i * i); sum += strtod(text, NULL); } printf("%g\\n", sum); return 0; }
        """)
        each = self.record("--each", program)
        for window in (13, 5000):
            self.assertEqual(
                self.record("--window", str(window), program), gathered(each, window), window
            )
        self.assertEqual(self.record(program), gathered(each, 65_536))
        self.assertNotEqual(self.record(program), gathered(each, 65_537))

    def test_without_a_machine_nothing_misses(self) -> None:
        program = self.compile("sample")
        with_machine, stream = self.sums(self.record(program)), self.folder / "plain"
        with open(stream, "wb") as file:
            words = ["--tape=yes", "--counts=no", "--model=no", f"--stream={file.fileno()}"]
            subprocess.run(
                valgrind.command(words, program, []), pass_fds=[file.fileno()],
                env=valgrind.environment([program], {}), check=True,
            )
        without = self.sums(stream.read_text(encoding="ascii").splitlines()[1:])
        self.assertEqual(
            set(with_machine) - set(without),
            {
                "51 05", "83 02", "25 12", "25 24", "2f 12", "2f 24", "49 01", "85 01", "c5 25",
                "c5 05", "a2 01",
            },
        )
        self.assertEqual(
            (without["3c 00"], without["c0 00"], without["d0 02"]),
            (with_machine["c0 00"], with_machine["c0 00"], with_machine["d0 02"]),
        )

    def test_many_thresholds_in_a_long_block(self) -> None:
        """Each instruction may pass a threshold of each kind. None is passed."""
        program = self.compile("many", f"""
            #define _GNU_SOURCE
            #include "{ROOT}/c/live_requests.h"
            #include <stdio.h>
            #include <unistd.h>
            void kl_live_stub(void) {{ puts("passed"); _exit(1); }}
            static long room[8192];
            int main(void) {{
                long *from = room, *to = room + 4096;
                if (kl_ask(KL_HELLO, 0, 0, (uintptr_t)kl_live_stub) != KL_VERSION) return 9;
                for (unsigned kind = 0; kind < KL_KINDS; kind++) if (!kl_ask(KL_ARM, kind, (uintptr_t)1 << 40, 0)) return 8;
                __asm__ volatile(".rept 64\\n movsq\\n addpd (%%rsi), %%xmm0\\n pushq (%%rsi)\\n popq (%%rdi)\\n lock addq $1, (%%rdi)\\n .endr"
                                 : "+S"(from), "+D"(to) : : "memory", "cc", "xmm0");
                return 7;
            }}
        """, f"-I{ROOT / 'include'}")
        for words in ((), ("--tape=yes", f"--streams={self.folder / 'kept'}")):
            done = subprocess.run(
                valgrind.command(["--model=yes", *words], program, []),
                env=valgrind.environment([program], {}), capture_output=True, text=True,
            )
            self.assertEqual((done.stdout, done.stderr, done.returncode), ("", "", 7), words)

    STOPS = """
        #define _GNU_SOURCE
        #include "live_requests.h"
        #include "live_thread.h"
        #include <stdio.h>
        #include <string.h>
        extern const char first[] __asm__("__start_kistalub_code"), end[] __asm__("__stop_kistalub_code");
        __asm__(".text\\n.globl turns\\nturns: dec %rdi\\n nop; nop; nop; nop; nop; nop; nop; nop\\n jnz turns\\n ret\\n");
        extern void turns(long);
        static uint64_t last, stops, others, first_places;
        static uint64_t counted(void) { uint64_t count; kl_ask(KL_COUNTS, (uintptr_t)&count, 1, 0); return count; }
        void kl_live_stops(uint64_t pc) {
            uint64_t now = counted();
            if (now - last < 1000 || now - last >= 1040) others++;
            if (pc == (uint64_t)turns) first_places++;
            last = now;
            if (++stops < 20) kl_ask(KL_TURN, 1000, 0, 0);
        }
        int main(void) {
            if (kl_ask(KL_HELLO, (uintptr_t)first, (uintptr_t)end, (uintptr_t)kl_live_stub) != KL_VERSION) return 9;
            kl_ask(KL_TURN, 1000, 0, 0);
            if (!kl_ask(KL_TURN, 0, 0, 0)) return 8;
            turns(1000);
            last = counted();
            kl_ask(KL_TURN, 1000, 0, 0);
            turns(10000);
            printf("%lu stops, %lu of other lengths, %lu at the loop's start\\n", stops, others, first_places);
            return 0;
        }
    """

    def test_turns_end_where_a_block_begins(self) -> None:
        """A turn of 1,000 instructions is over at the first one of a loop of ten. One that was
        taken back is not. What the stub does is not counted."""
        objects = [str(self.folder / name) for name in ("stub.o", "stops.o")]
        for source, made in zip(
            (str(ROOT / "c/live_stub.c"), self.write("stops.c", self.STOPS)), objects
        ):
            subprocess.run(
                ["cc", "-O1", f"-I{ROOT / 'include'}", f"-I{ROOT / 'c'}", "-c", source, "-o", made],
                check=True,
            )
        subprocess.run(
            ["objcopy", "--rename-section", ".text=kistalub_code", objects[0]], check=True
        )
        program = str(self.folder / "stops")
        subprocess.run(["cc", *objects, "-o", program], check=True)
        for words in (["--model=yes"], ["--tape=yes", f"--streams={self.folder / 'kept'}"]):
            done = subprocess.run(
                valgrind.command(words, program, []), env=valgrind.environment([program], {}),
                capture_output=True, text=True,
            )
            self.assertEqual(
                (done.stdout, done.stderr, done.returncode),
                ("20 stops, 0 of other lengths, 20 at the loop's start\n", "", 0), words,
            )

    def test_a_full_stream(self) -> None:
        program = self.compile("loop", "int main(void) { for (long i = 0; i < 2000000; i++) "
                                       "__asm__ volatile(\"nop\"); return 0; }")
        told = self.refused("--each", program)
        self.assertRegex(told, r"^record: the stream is full \(67,108,864 bytes\) at 0x[0-9a-f]+")
        size = (self.folder / "stream").stat().st_size
        self.assertTrue(67_108_864 - 64 < size <= 67_108_864, size)


@needs_tool
class Environments(Recording):
    CHANGES = (
        {"X": "1"}, {"LONG": "x" * 30_000}, {"LC_ALL": "C.UTF-8", "LANG": "de_DE.UTF-8"},
        {f"V{n}": "" for n in range(100)}, {"LD_NOTHING": "1", "HOME": "/"},
        {"KISTALUB_PADDING": "x"},
    )

    def test_the_environment_changes_nothing(self) -> None:
        """Six environments beside this one. A static program reads some variables before its main
        function."""
        text = (
            "#include <stdio.h>\n#include <stdlib.h>\n"
            "int main(void) { void *p = malloc(100000); printf(\"%d\\n\", p != 0); free(p); return "
            "0; }"
        )
        for name, flags, words in (
            ("dynamic", (), ()), ("dynamic", (), ("--from", "main")),
            ("static", ("-static",), ("--from", "main")),
        ):
            program = self.compile(name, text, *flags)
            wanted = self.record(*words, program)
            for changes in self.CHANGES:
                self.assertTrue(
                    self.record(*words, program, **changes) == wanted,
                    (name, words, list(changes)[:1]),
                )

    def test_the_machine_is_cold_at_from(self) -> None:
        """The only load of the function misses, though main has read that place."""
        program = self.compile("cold", """
            static volatile int place;
            __attribute__((noinline)) void look(void) { __asm__ volatile("movl place(%rip), %eax"); }
            int main(void) { place = 1; look(); return place - 1; }
        """)
        first = [line.split()[1:3] for line in self.record("--from", "look", "--each", program)]
        self.assertIn(["51", "03"], first[: first.index(["c4", "2c"])])


@needs_tool
class Runs(Recording):
    def test_threads_have_their_own_streams(self) -> None:
        """What each does in its function is what it does when it runs alone."""
        program = self.compile("threads", """
            #include <pthread.h>
            #include <stdlib.h>
            static long table[2][4096];
            __attribute__((noinline)) void *first(void *n) { for (int turn = 0; turn < 3; turn++) for (int i = 0; i < 4096; i += 3) table[0][i] += i & 4 ? 1 : turn; return n; }
            __attribute__((noinline)) void *second(void *n) { for (int turn = 0; turn < 5; turn++) for (int i = 0; i < 4096; i += 9) table[1][i] ^= i; return n; }
            int main(int count, char **words) {
                pthread_t t[2];
                void *(*const work[])(void *) = {first, second};
                int from = count > 1 ? atoi(words[1]) : 0, to = count > 1 ? from + 1 : 2;
                for (int i = from; i < to; i++) pthread_create(t + i, NULL, work[i], NULL);
                for (int i = from; i < to; i++) pthread_join(t[i], NULL);
                return 0;
            }
        """, "-pthread", "-static", "-fno-pie", "-no-pie")
        symbols = subprocess.run(
            ["nm", "-S", program], capture_output=True, text=True, check=True
        ).stdout.splitlines()
        places = {
            words[3]: range(int(words[0], 16), int(words[0], 16) + int(words[1], 16))
            for words in map(str.split, symbols) if len(words) == 4
        }

        def of(number: int, function: str, *words: str) -> Counter[str]:
            self.record("--l3", "none", program, *words, name="run.%t")
            lines = (self.folder / f"run.{number}").read_text(encoding="ascii").splitlines()[1:]
            return self.sums(
                [line for line in lines if int(line.split()[5], 16) in places[function]]
            )

        alone = of(1, "first", "0"), of(1, "second", "1")
        self.assertGreater(alone[0]["51 03"], 100)
        self.assertEqual((of(1, "first"), of(2, "second")), alone)

    def test_a_thread_that_waits_lets_others_run(self) -> None:
        """Two threads take turns 2,000 times each. One that spins lets the other one run before
        long: if it spun for a whole slice, each would take 400 million instructions."""
        program = self.compile("spins", """
            #include <pthread.h>
            #include <stdatomic.h>
            static atomic_int turn;
            static void *work(void *n) {
                for (int i = 0; i < 2000; i++) {
                    while (atomic_load_explicit(&turn, memory_order_acquire) != (int)(long)n) __builtin_ia32_pause();
                    atomic_store_explicit(&turn, !(long)n, memory_order_release);
                }
                return n;
            }
            int main(void) { pthread_t t[2]; for (long i = 0; i < 2; i++) pthread_create(t + i, 0, work, (void *)i); for (int i = 0; i < 2; i++) pthread_join(t[i], 0); return 0; }
        """, "-pthread")
        command = valgrind.command(["--totals=yes"], program, [])
        told = subprocess.run(
            command, env=valgrind.environment([program], {}), capture_output=True, text=True
        ).stderr.splitlines()
        counts = {
            line.split()[-3]: int(line.split()[-1]) for line in told if " instructions " in line
        }
        self.assertEqual(sorted(counts), ["0", "1", "2"])
        for number in "12":
            self.assertLess(counts[number], 2000 * 10_000, told)

    def test_a_second_thread(self) -> None:
        program = self.compile("two", """
            #include <pthread.h>
            static void *work(void *n) { return n; }
            int main(void) { pthread_t t; pthread_create(&t, NULL, work, NULL); pthread_join(t, NULL); return 0; }
        """, "-pthread")
        self.assertIn("started a second thread", self.refused(program))
        self.record("--first-thread", program)

    def test_a_name_that_is_no_text(self) -> None:
        program = os.fsencode(self.compile("sample"))
        shutil.copy(program, program + b"\377")
        for words, status in (([], 0), ([b"--from", b"\377"], 1)):
            done = subprocess.run(
                [
                    os.fsencode(TOOLS / "record"), b"-o", os.fsencode(self.folder / "stream"),
                    *words, program + b"\377",
                ],
                capture_output=True,
            )
            self.assertEqual(
                (done.returncode, b"Traceback" in done.stderr), (status, False), done.stderr
            )

    def test_standard_error_that_is_closed(self) -> None:
        program = self.compile("sample")
        words = [str(TOOLS / "record"), "-o", str(self.folder / "closed"), program]
        self.assertEqual(subprocess.run(["sh", "-c", '"$@" 2>&-', "sh", *words]).returncode, 0)
        self.assertEqual(
            (self.folder / "closed").read_text(encoding="ascii").splitlines()[1:],
            self.record(program),
        )

    def test_another_program_in_its_place(self) -> None:
        self.assertRegex(
            self.refused("env", "true"),
            (
                r"record: env became another program, \S*true, which was not recorded: name that "
                r"one in place of env\n$"
            ),
        )
        self.assertRegex(
            self.refused("env", "nosuchprogram"), r"record: env ended with status 127\n$"
        )

    def test_a_child_is_not_recorded(self) -> None:
        program = self.compile("forks", """
            #include <sys/wait.h>
            #include <unistd.h>
            __attribute__((noinline)) void turns(long n) { __asm__ volatile("1: dec %0; jnz 1b" : "+r"(n) : : "cc"); }
            int main(void) { if (!fork()) { turns(1000000); execl("/bin/true", "true", (char *)0); } wait(0); turns(100000); return 0; }
        """)
        self.assertEqual(self.sums(self.record("--from", "turns", program))["c0 00"] // 100_000, 2)

    def test_a_fault_in_the_middle_of_a_block(self) -> None:
        """Ten instructions are run before the one that faults, which has its lines too."""
        program = self.compile("faults", """
            #include <setjmp.h>
            #include <signal.h>
            static jmp_buf back;
            static void on(int n) { (void)n; siglongjmp(back, 1); }
            __attribute__((noinline)) void fault(int *p) { __asm__ volatile("nop;nop;nop;nop;nop;nop;nop;nop;nop;nop;movl $1,(%0)" : : "r"(p) : "memory"); }
            int main(void) { signal(SIGSEGV, on); if (!sigsetjmp(back, 1)) fault((int *)8); return 0; }
        """, "-static", "-fno-pie", "-no-pie", "-fcf-protection=none")
        nm = subprocess.run(["nm", program], capture_output=True, text=True, check=True).stdout
        place = next(
            line.split()[0].lstrip("0") for line in nm.splitlines() if line.endswith(" fault")
        )
        for words in ((), ("--each",), ("--window", "3")):
            lines = self.record("--from", "fault", *words, program)
            found = [
                line.split() for line in lines if line.startswith("0 c0 ")
                and int(place, 16) <= int(line.split()[5], 16) < int(place, 16) + 13
            ]
            self.assertEqual(sum(int(line[4]) for line in found), 11, words)

    def test_code_that_goes_leaves_nothing(self) -> None:
        """Code is made, run and unmapped again and again. What the tool knows of blocks grows by
        less than a byte for each of 1,800 further times."""
        program = self.compile("makes", """
            #include <stdlib.h>
            #include <string.h>
            #include <sys/mman.h>
            int main(int count, char **words) {
                const unsigned char code[] = {0x48, 0x8b, 0x04, 0x24, 0x48, 0x85, 0xc0, 0x74, 0x01, 0x90, 0xc3};
                for (int i = 0; count > 1 && i < atoi(words[1]); i++) {
                    unsigned char *place = mmap(NULL, 4096, PROT_READ | PROT_WRITE | PROT_EXEC, MAP_PRIVATE | MAP_ANONYMOUS, -1, 0);
                    memcpy(place, code, sizeof code);
                    ((void (*)(void))place)();
                    munmap(place, 4096);
                }
                return 0;
            }
        """)
        kept = []
        for rounds in ("200", "2000"):
            command = valgrind.command(
                ["--profile-heap=yes", "--tape=yes", "--model=yes"], program, [rounds]
            )
            told = subprocess.run(
                command, capture_output=True, text=True,
                env=valgrind.environment([program, rounds], {}),
            ).stderr
            (line,) = (line for line in told.splitlines() if line.endswith(": block"))
            kept.append(int(line.split()[0].replace(",", "")))
        self.assertLess(kept[1] - kept[0], 1_800)

    def test_statuses(self) -> None:
        program = self.compile("ends", "#include <signal.h>\n"
                                       "int main(int n, char **w) { (void)w; if (n > 1) "
                                       "raise(SIGUSR1); return 7; }")
        self.assertTrue(self.refused(program).endswith(f"record: {program} ended with status 7\n"))
        self.assertTrue(
            self.refused(program, "x").endswith(
                f"record: {program} was ended by signal {signal.SIGUSR1.value}\n"
            )
        )

    def test_nothing_is_left_behind(self) -> None:
        """Not by a run that ends, and not by one that is interrupted."""
        place = self.folder / "temporary"
        place.mkdir()
        environment = {**os.environ, "TMPDIR": str(place)}
        words = [str(TOOLS / "record"), "-o", str(self.folder / "stream")]
        self.assertEqual(
            subprocess.run([*words, "true"], env=environment, capture_output=True).returncode, 0
        )
        begun = self.folder / "begun"
        process = subprocess.Popen(
            [*words, "sh", "-c", f'echo >"{begun}"; read line'], env=environment,
            stdin=subprocess.PIPE, stderr=subprocess.PIPE,
        )
        end = time.monotonic() + 300
        while not begun.exists() and time.monotonic() < end:
            time.sleep(0.01)
        process.send_signal(signal.SIGTERM)
        process.communicate()
        self.assertEqual((process.returncode, list(place.iterdir())), (128 + signal.SIGTERM, []))

    def test_a_temporary_folder_that_is_not_there(self) -> None:
        done = subprocess.run(
            [str(TOOLS / "record"), "-o", "/dev/null", "true"], capture_output=True, text=True,
            env={**os.environ, "TMPDIR": str(self.folder / "no")},
        )
        self.assertEqual(
            (done.returncode, done.stderr),
            (
                1,
                (
                    f"record: {self.folder / 'no'}: No such file or directory (TMPDIR names "
                    "another folder)\n"
                ),
            ),
        )

    def test_a_temporary_folder_that_takes_little(self) -> None:
        valgrind.tool()  # which the limit would not let be built
        limit = (
            "import os, resource, sys; resource.setrlimit(resource.RLIMIT_FSIZE, (4095, 4095)); "
            "os.execv(sys.argv[1], sys.argv[1:])"
        )
        done = subprocess.run(
            [sys.executable, "-c", limit, str(TOOLS / "record"), "-o", "/dev/null", "true"],
            capture_output=True, text=True, env={**os.environ, "TMPDIR": str(self.folder)},
        )
        self.assertEqual(
            (done.returncode, done.stderr),
            (1, f"record: {self.folder}: File too large (TMPDIR names another folder)\n"),
        )

    def test_words_and_names(self) -> None:
        self.assertIn(
            "record: error: the following arguments are required: PROGRAM\n",
            run_tool("record").stderr,
        )
        self.assertEqual(self.refused("a\nb"), "record: a\\nb: no such program\n")
        done = run_tool("record", "-o", "/nonexistent/x", "true")
        self.assertEqual(
            (done.returncode, done.stderr),
            (1, "record: /nonexistent/x: No such file or directory\n"),
        )
        self.assertRegex(self.refused(self.write("text", "")), r"no such program\n$")


@needs_tool
@needs_library
class OnlyCalls(Recording):
    def test_what_is_recorded_is_what_is_counted(self) -> None:
        """Between start and stop stand a loop of 1,000 turns, and a few instructions of the
        calls."""
        program = self.compile("calls", """
            #include "papi.h"
            #include <stdio.h>
            static __attribute__((noinline)) void turns(long n) { __asm__ volatile("1: dec %0; jnz 1b" : "+r"(n) : : "cc"); }
            int main(void) {
                int set = PAPI_NULL;
                long long count;
                if (PAPI_library_init(PAPI_VER_CURRENT) != PAPI_VER_CURRENT || PAPI_create_eventset(&set) || PAPI_add_named_event(set, "PAPI_TOT_INS")) return 1;
                turns(5000);
                PAPI_start(set);
                turns(1000);
                PAPI_stop(set, &count);
                turns(5000);
                return 0;
            }
        """, f"-I{ROOT / 'include'}", f"{built_library()}/libkistalub.a", "-lpthread")
        recorded = self.sums(self.record("--only-calls", program))["c0 00"]
        self.assertTrue(2000 < recorded < 2020, recorded)
