"""c/build, tools/valgrind/build, and the scripts of examples/ and bench/: what a signal to all that
runs leaves behind. And what the sources of the first two name."""

from __future__ import annotations

import os
import re
import subprocess
from pathlib import Path

from tests.support import ROOT, InFolder, needs_command, some

# Each is called in place of the program of its name, sends a signal to all that runs, and then does
# its work.
SIGNALS = {
    "rm": 'kill -s TERM 0\nPATH=${PATH#*:}\nexec rm "$@"\n',
    "mktemp": 'PATH=${PATH#*:}\nmade=$(mktemp "$@")\nkill -s TERM 0\necho "$made"\n',
}
STATUSES = {"rm": 1, "mktemp": 143}
# The scripts that make a folder, with words over which they fail, and the commands that they look
# for: here none of these does anything.
NOTHING = "nothing"
SCRIPTS = {
    "examples/check": ("/bin/false",),
    "examples/c/check": (NOTHING,),
    "examples/ci/gate": ("c",),
    "examples/count/run": (),
    "examples/ranks/group": ("0", "0", "false", NOTHING),
    "examples/ranks/many": (),
    "examples/ranks/run": (),
    "bench/handing_over": (NOTHING,),
    "bench/live": (NOTHING,),
}
COMMANDS = ("cc", "valgrind", "parallel", "mpicc", "mpirun")
DEFINED = re.compile(r"^\s*#\s*define\s+(\w+)", re.MULTILINE)
ENUMERATED = re.compile(r"^enum \{(.*?)\};", re.MULTILINE | re.DOTALL)
COMMENT = re.compile(r"/\*.*?\*/", re.DOTALL)


def protocol_names(text: str) -> set[str]:
    """What the header of the requests defines."""
    constants = [
        name.strip() for each in some(ENUMERATED.findall(COMMENT.sub("", text)))
        for name in each.split(",")
    ]
    return {*constants, *DEFINED.findall(text)} - {"PROTOCOL_H"}


class Folders(InFolder):
    def put(self, name: str, text: str) -> Path:
        """A program of the shell that is called in place of the one of its name."""
        path = self.folder / "path" / name
        path.parent.mkdir(exist_ok=True)
        path.write_text(f"#!/bin/sh\n{text}", encoding="utf-8")
        path.chmod(0o755)
        return path

    def left_of(self, name: str, *words: str, **variables: str) -> tuple[int, list[str]]:
        """The status of a script in which a signal comes while its folder is made or removed, and
        what is left in the folder for temporary files."""
        path = self.put(name, SIGNALS[name])
        tmp = self.folder / "tmp"
        tmp.mkdir(exist_ok=True)
        before = set(os.listdir(tmp))
        environment = {
            **os.environ,
            "TMPDIR": str(tmp),
            "PATH": f"{path.parent}:{os.environ['PATH']}",
            "CC": "false",
            **variables,
        }
        done = subprocess.run(words, env=environment, start_new_session=True, capture_output=True)
        path.unlink()
        return done.returncode, sorted(set(os.listdir(tmp)) - before)

    def test_none_of_the_library_is_left(self) -> None:
        archive = self.write("archive", "")
        for name, status in STATUSES.items():
            left = self.left_of(
                name, str(ROOT / "c/build"), str(self.folder / "built"), archive,
                KISTALUB_HEAP=archive,
            )
            self.assertEqual(left, (status, []), name)

    @needs_command("valgrind", "valgrind")
    def test_none_of_the_tool_of_valgrind_is_left(self) -> None:
        for name, status in STATUSES.items():
            left = self.left_of(
                name, str(ROOT / "tools/valgrind/build"), str(self.folder / "tmp/tool")
            )
            self.assertEqual(left, (status, []), name)

    def test_none_of_an_example_or_benchmark_is_left(self) -> None:
        for command in COMMANDS:
            self.put(command, "exit 1\n")
        for script, words in SCRIPTS.items():
            for name, status in STATUSES.items():
                with self.subTest(script=script, name=name):
                    left = self.left_of(
                        name, str(ROOT / script), *words, KISTALUB_HEAP=NOTHING, ONLY=NOTHING
                    )
                    self.assertEqual(left, (status, []))

    def test_none_of_what_the_benchmarks_share_is_left(self) -> None:
        for name, status in STATUSES.items():
            left = self.left_of(
                name, "sh", "-c", 'here=$1; . "$here/common.sh"; enter_folder; exit 1', "sh",
                str(ROOT / "bench"),
            )
            self.assertEqual(left, (status, []), name)

    def test_each_script_that_makes_a_folder_is_tried(self) -> None:
        """Those that read the shared file, or make a folder by themselves. One keeps it, and says
        so."""
        texts = {
            path: path.read_text(encoding="utf-8", errors="replace")
            for folder in ("examples", "bench") for path in some((ROOT / folder).glob("**/*"))
            if path.is_file()
        }
        makers = {
            str(path.relative_to(ROOT)) for path, text in texts.items()
            if path.suffix != ".md" and re.search(r"mktemp -d|folder\.sh\"", text)
        }
        self.assertEqual(
            makers - {"examples/folder.sh", "examples/profile/run"}, {*SCRIPTS, "bench/common.sh"}
        )


class Names(InFolder):
    def taken(self, folder: Path) -> set[str]:
        """The macros of the library that have a name of the protocol: a request would have another
        number in the library than in the tool."""
        protocol = protocol_names((ROOT / "tools/valgrind/protocol.h").read_text(encoding="utf-8"))
        sources = some([*folder.glob("*.[ch]"), *(ROOT / "include").glob("*.h")])
        return {
            name for source in sources
            for name in DEFINED.findall(source.read_text(encoding="utf-8")) if name in protocol
        }

    def test_no_macro_has_a_name_of_the_protocol(self) -> None:
        self.assertEqual(self.taken(ROOT / "c"), set())

    def test_one_that_has_is_seen(self) -> None:
        self.write("calls.h", "#define KL_CALLS_H\n# define KL_LEAVE 1\n#define KL_VERSION\n")
        self.write("live.c", "#define KL_CALLS_RETURNED 2\n#define KL_SINGLES_128 2\n")
        self.assertEqual(self.taken(self.folder), {"KL_LEAVE", "KL_VERSION", "KL_SINGLES_128"})
