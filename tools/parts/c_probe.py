"""Asks the C compiler what statements write after a header. Those that it does not take have no
answer."""

from __future__ import annotations

import re
import subprocess
from pathlib import Path

from parts.command import Fault
from parts.started import temporary_folder
from parts.compiler import cause, run_compiler

# What a probe writes for a constant: its value and its type.
CONSTANT = """
#define KIND(x) _Generic((x), int: "int", unsigned: "unsigned", long: "long", unsigned long: "unsigned long", \\
    long long: "long long", unsigned long long: "unsigned long long", default: "another type")
#define CONSTANT(x) ({ enum { is_constant_ = (x) == (x) }; printf("%lld %s", (long long)(x), KIND(x)); })
#define SAME(a, b) printf("%s", __builtin_types_compatible_p(__typeof__(a), __typeof__(b)) ? "that type" : "another type")
#define SIZE(t) printf("%zu bytes, aligned to %zu", sizeof(t), _Alignof(t))
#define PLACE(t, m) printf("%zu bytes at %zu", sizeof(((t *)0)->m), offsetof(t, m))
#define BITS(t, m) ({ t whole; memset(&whole, 0, sizeof whole); whole.m = (__typeof__(whole.m + 0))-1; \\
    const unsigned char *at = (const unsigned char *)&whole; for (size_t i = 0; i < sizeof whole; i++) if (at[i]) printf("%zu=%x ", i, at[i]); \\
    printf(whole.m < 0 ? "signed" : "unsigned"); })
"""


def probe(header: str, folder: Path | None, rows: dict[str, str]) -> dict[str, str]:
    """What each statement writes in a program that includes the header. A statement that does not
    compile writes nothing and has no answer."""
    left = dict(rows)
    where = ["-I", str(folder)] if folder else []
    with temporary_folder("probe-") as place:
        source, program = Path(place, "probe.c"), Path(place, "probe")
        while left:
            lines = [
                f'#include <{header}>', "#include <stddef.h>", "#include <stdio.h>",
                "#include <string.h>", CONSTANT.strip(), "int main(void) {",
            ]
            first = "\n".join(lines).count("\n") + 2
            lines += [
                f'printf("{name}\\t"); {statement}; putchar(10);'
                for name, statement in left.items()
            ]
            source.write_text("\n".join([*lines, "}", ""]), encoding="utf-8")
            done = run_compiler(
                "-std=gnu11", "-w", "-fmax-errors=0", *where, str(source), "-o", str(program)
            )
            if done.returncode == 0:
                return _answers(header, program)
            names = list(left)
            # An error in what a macro stands for is told at the macro's place, and a note names the
            # statement.
            wrong = {
                int(at) - first for at in re.findall(r"probe\.c:(\d+):\d+: ", done.stderr)
            } & set(range(len(names)))
            if not wrong:
                raise Fault(f"the probe of {header} is not built: {cause(done.stderr)}")
            for at in wrong:
                del left[names[at]]
    return {}


def _answers(header: str, program: Path) -> dict[str, str]:
    try:
        done = subprocess.run(
            [str(program)], capture_output=True, text=True, encoding="utf-8", errors="replace"
        )
    except OSError as error:
        raise Fault(f"the probe of {header} does not run: {error.strerror}") from None
    if done.returncode:
        raise Fault(f"the probe of {header} ends with {done.returncode}")
    return dict(line.split("\t", 1) for line in done.stdout.splitlines() if "\t" in line)
