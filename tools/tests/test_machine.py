"""What generated code takes for known of the modelled machine: lines that it may use again without
a call."""

from __future__ import annotations

import random
import subprocess
from pathlib import Path

from parts import valgrind
from tests.support import InFolder, needs_command

STRICT = ["cc", "-std=c11", "-Wall", "-Wextra", "-Wconversion", "-Werror"]
# Of each access: whether its line is known, and then whether its page and its line were missed.
PROGRAM = """
    #include "machine.h"
    #include <stdio.h>
    #include <stdlib.h>
    static cache made(char *words[]) {
        const shape s = {strtoull(words[0], NULL, 10), strtoull(words[1], NULL, 10),
                         strtoull(words[2], NULL, 10)};
        cache c;
        cache_begins(&c, &s, aligned_alloc(64, (cache_room(&s) + 63) / 64 * 64));
        return c;
    }
    int main(int count, char *words[]) {
        unsigned long long address, size;
        if (count != 7) return 1;
        cache lines = made(words + 1), pages = made(words + 4);
        while (scanf("%llx %llu", &address, &size) == 2) {
            uint64_t line = line_of_address(&lines, address);
            bool is_known = *set_of(&lines, line) == line;
            bool is_page_missed = pages_miss(&pages, &lines, address, size);
            bool is_line_missed = lines_miss(&lines, &pages, address, size);
            printf("%d%d%d\\n", is_known, is_page_missed, is_line_missed);
        }
        return 0;
    }
"""
Shape = tuple[int, int, int]
SHAPES: tuple[tuple[Shape, Shape], ...] = (
    ((512, 8, 64), (64, 4, 4096)),
    ((96, 12, 64), (8, 2, 256)),
    ((256, 1, 64), (2, 2, 4096)),
    ((8, 2, 32), (1, 1, 32)),
    ((1024, 4, 16), (4, 1, 64)),
)


class Used:
    """Lines, each set's in the order of their use."""

    def __init__(self, shape: Shape):
        count, self.ways, self.bytes = shape
        self.sets: list[list[int]] = [[] for _ in range(count // self.ways)]

    def is_last(self, address: int) -> bool:
        number = address // self.bytes
        return self.sets[number % len(self.sets)][:1] == [number]

    def misses(self, address: int, size: int) -> bool:
        found = False
        for number in range(address // self.bytes, (address + size - 1) // self.bytes + 1):
            lines = self.sets[number % len(self.sets)]
            found = found or number not in lines
            lines[:] = [number, *(other for other in lines if other != number)][: self.ways]
        return found


@needs_command("cc", "a C compiler")
class Lines(InFolder):
    @staticmethod
    def answers(
        program: Path, words: list[str], accesses: list[tuple[int, int]]
    ) -> list[str]:
        text = "".join(f"{address:x} {size}\n" for address, size in accesses)
        done = subprocess.run(
            [str(program), *words], input=text, capture_output=True, text=True, check=True
        )
        return done.stdout.split()

    def test_a_line_is_known_only_if_its_set_and_that_of_its_page_used_it_last(self) -> None:
        source, program = self.write("lines.c", PROGRAM), self.folder / "lines"
        words = [f"-I{valgrind.SOURCES}", "-o", str(program), str(source)]
        subprocess.run([*STRICT, *words, str(valgrind.SOURCES / "machine.c")], check=True)
        draw = random.Random(1)
        for shapes in SHAPES:
            lines, pages = map(Used, shapes)
            places = [draw.randrange(1 << 16) for _ in range(40)]
            accesses: list[tuple[int, int]] = []
            for _ in range(2000):
                address = draw.choice(places) + draw.randrange(80)
                accesses += [(address, draw.choice((8, 64, 200))), (address, 1), (address, 1)]
            answers = self.answers(program, [str(n) for shape in shapes for n in shape], accesses)
            for number, ((address, size), answer) in enumerate(zip(accesses, answers)):
                line = address // lines.bytes * lines.bytes
                is_last = pages.is_last(line) and lines.is_last(line)
                self.assertTrue(is_last or answer[0] == "0", (shapes, address))
                if number % 3 == 2:
                    self.assertEqual(answer[0], "1", "used a moment ago")
                missed = (pages.misses(address, size), lines.misses(address, size))
                self.assertEqual(answer[1:], "".join(str(int(each)) for each in missed), shapes)
            self.assertEqual(len(answers), len(accesses))
