"""What `outside` draws: the programs around the proved one with a sound call each, and what is made
odd about a call."""

from __future__ import annotations

import json
import os
import shutil
import sys
from dataclasses import dataclass, field
from pathlib import Path
from random import Random
from typing import Callable, Union

from here import ROOT

Word = Union[str, bytes]
SIGNED = 0.15  # how many calls get a signal that did not ask for one by waiting

PROFILE = "range loop 3\n0x4 1\n0x8 2\nrange idle 0\noutside 1\ntotal 4\n"
ERRORS = "papi: lab.unit: row 3: width out of range\nsome other line\n"
PERF = '[{"EventName": "A", "EventCode": "0xc0", "UMask": "0x00", "Counter": "0,1,2,3"}]\n'
FIRST = """
import os, sys
import kistalub
try:
    with kistalub.Library(*sys.argv[1:2], stream=sys.argv[2]), kistalub.EventSet("CYCLES") as events:
        events.start()
        kistalub.go(2)
        assert list(events.stop()) == ["CYCLES"]
except (kistalub.PapiError, OSError, ImportError, ValueError, IndexError) as error:
    sys.stderr = None  # what it could not take would be tried again
    try:
        os.write(2, f"{error}\\n".encode("utf-8", "backslashreplace"))
    except OSError:
        pass
    os._exit(1)
"""
COUNTS = {
    "format": "kistalub-counts", "version": 1, "command": ["x"],
    "unit": {"name": "u", "sha256": "0"}, "presets": None, "cpu": None, "machine": {},
    "tool": {"kistalub": "1", "valgrind": "3"}, "events": ["A"], "functions_counted": [],
    "ended": {"status": 0}, "total": {"A": 100},
    "processes": [], "uncounted_children": 0,
}
COUNTED = {
    "papi_version": "7", "cpu_info": "x",
    "event_definitions": {"A": {"component": "cpu", "type": "delta"}},
    "threads": {
        "0": {
            "regions": {
                "0": {"name": "main", "parent_region_id": "-1", "A": "7"},
                "1": {"name": "in", "parent_region_id": "0", "A": "2"},
            }
        }
    },
}
PROGRAM = "int main(void) { return 0; }\n"


@dataclass(frozen=True)
class Sound:
    """A call that is as it should be. Words that are names of files in the folder may be made odd;
    `{tree}` in one is the copy of the repository."""

    name: str
    command: tuple[str, ...]
    words: tuple[str, ...] = ()
    text: str = ""
    statuses: tuple[int, ...] = (0, 1, 2, 3)
    # a file of the repository that may be made odd, for which the call has a copy of its own
    own_tree: str = ""
    weight: int = 4
    prints: bool = True
    made: tuple[str, ...] = ()  # files that it may leave
    heavy: bool = False  # it reserves much of the address space, as the proved program does
    takes_signals: bool = False  # it catches those that end it
    may_be_ended: bool = True  # the program itself, and not who wrote it, answers signals


BIN = (0, 1, 2, 3, 4, 5, 127)
LAB = ("-U", "lab.unit")
PRESETS = ("-P", "lab.presets", "-C", "lab2")


def _tool(name: str, *words: str, **more: object) -> Sound:
    return Sound(
        f"tools/{name}", (f"{{tree}}/tools/{name}",), words,
        takes_signals=name != "make_deb", **more,  # type: ignore[arg-type]
    )


def _script(name: str, *words: str, **more: object) -> Sound:
    return Sound(
        f"bin/{name}", (f"{{tree}}/bin/{name}",), words,
        statuses=BIN, heavy=True, **more,  # type: ignore[arg-type]
    )


SOUND = [
    _tool("plot", "--title", "T", text=PROFILE, weight=10),
    _tool("preset_lines", "lab.unit", text=ERRORS, weight=8),
    _tool("draw_crates", own_tree="crates.txt", weight=4),
    _tool("draw_crates", "--check", "lab.unit", weight=4, prints=False),
    _tool("make_map", "program", weight=6),
    _tool("make_map", "--stream", "loaded.stream", "program", weight=6),
    _tool("make_map", "--base", "0x1000", "program", weight=3),
    _tool("make_fortran", "--check", weight=3, prints=False, own_tree="include/papi.h"),
    _tool("make_pages", "--check", prints=False, own_tree="bin/usage/papi_run", weight=6),
    _tool("make_unit", "--list", weight=2),
    _tool("make_unit", "wsm", "--events", "perf.json", weight=6),
    _tool("conflict", *LAB, *PRESETS, "CYCLES", "PAPI_BR_INS", "BR_MISP", weight=5, heavy=True),
    _tool("report", *LAB, "first.script", "first.stream", weight=6, heavy=True),
    _tool(
        "report", *LAB, *PRESETS, "-o", "page.html", "--regions", "regions.script", "--events",
        "CYCLES,BR_INST", "first.script", "first.stream", prints=False, made=("page.html",),
        weight=6, heavy=True,
    ),
    _tool("make_deb", "--nothing", weight=2, prints=False),
    Sound(
        "tools/compile_unproved", ("env", "KISTALUB_COMPILE=0", "{tree}/tools/compile_unproved"),
        ("program", "--kept"), statuses=(0, 1, 2, 3, 127), own_tree="crates.txt", weight=2,
        prints=False, takes_signals=True,
    ),
    _tool(
        "record", "-o", "made.stream", "./program", weight=1, prints=False, made=("made.stream",),
        heavy=True, statuses=(0, 1, 2, 3),
    ),
    _tool("count", "./program", weight=1, prints=False, heavy=True, statuses=tuple(range(0, 128))),
    _tool("compare", "--limit", "2%", "base.json", "new.json", weight=6),
    _tool("compare", "--markdown", "regions.json", "regions.json", weight=6),
    _script("papi_run", *LAB, "--notes", "first.script", "first.stream", weight=8),
    _script(
        "papi_run", *LAB, *PRESETS, "--workers", "2", "first.script", "first.stream",
        "first.stream", weight=4,
    ),
    _script("papi_avail", *LAB, *PRESETS, "-a"),
    _script("papi_native_avail", *LAB),
    _script("papi_encode", *LAB, "lab::CYCLES", "NO_SUCH", weight=6),
    _script("papi_avail", *LAB, *PRESETS, "-e", "NO_SUCH", weight=6),
    _script("papi_event_chooser", *LAB, "NATIVE", "CYCLES"),
    _script("papi_decode", *LAB, *PRESETS),
    _script("papi_regions", *LAB, "--events", "CYCLES", "regions.script", "first.stream"),
    _script("papi_profil", *LAB, "-M", "profil.map", "first.script", "first.stream"),
    _script("papi", "--help", weight=2),
    _script("papi", "--version", weight=2),
    _script("install", "--nothing", weight=2, prints=False),
    Sound(
        "completions/candidates", ("{tree}/completions/candidates", "{tree}/bin/papi_avail"),
        (*LAB, *PRESETS, "-e", ""), statuses=(0, 1, 2, 3), prints=False, weight=6, heavy=True,
    ),
    Sound(
        "python", (sys.executable, "-B", "-c", FIRST), ("lab.unit", "first.stream"),
        statuses=(0, 1), weight=4, prints=False, heavy=True, may_be_ended=False,
    ),
]
FILES = ("lab.unit", "lab.presets", "first.script", "first.stream", "regions.script", "profil.map")


def fill(folder: Path, program: Path) -> None:
    """The files of all calls."""
    for name in FILES:
        shutil.copy(ROOT / "examples" / name, folder / name)
    shutil.copy(program, folder / "program")
    (folder / "loaded.stream").write_text("# loaded at 0x108000\n0 c0 00 u 1 109000\n")
    (folder / "perf.json").write_text(PERF)
    for name, content in (("base.json", COUNTS), ("new.json", COUNTS), ("regions.json", COUNTED)):
        (folder / name).write_text(json.dumps(content, indent=1))


@dataclass
class Call:
    """A call that is to be made, and what is odd about it."""

    sound: Sound
    folder: Path
    tree: Path
    words: list[Word]
    text: bytes
    environment: dict[str, str]
    odd: list[str] = field(default_factory=list)
    # what the descriptors 0 to 2 are: closed, full, or an input alone
    ends: dict[int, str] = field(default_factory=dict)
    file_limit: int | None = None
    in_deleted: bool = False
    waits: bool = False  # for a fifo that nobody writes
    signal: tuple[str, str, float] | None = None  # its name, to whom, and after how many seconds
    faulty_words: bool = False


def _bytes(rng: Random, most: int = 200) -> bytes:
    return bytes(rng.randrange(256) for _ in range(rng.randrange(most)))


def _changed(rng: Random, content: bytes) -> bytes:
    """A file's content with something wrong in it."""
    place = rng.randint(0, len(content))
    lines = content.split(b"\n")
    number = rng.randrange(len(lines))
    change = rng.randrange(12)
    if change == 0:
        return b""
    if change == 1:
        return _bytes(rng, 2000)
    if change == 2:
        return content[:place]
    if change == 3:
        return content[:place] + _bytes(rng, 4) + content[place + rng.randrange(3) :]
    if change == 4:
        return content[:place] + b"9" * rng.choice([20, 400, 5000]) + content[place:]
    if change == 5:
        return (
            content[:place]
            + rng.choice(
                [
                    b"\xff", b"\0", b"\r", b"\x1b[2J", b"\xe2\x80\xae", b"\xef\xbb\xbf", b"$(id)",
                    b"'\"<&>", b"-", b",,", b": ",
                ]
            )
            + content[place:]
        )
    if change == 6:
        del lines[number]
    elif change == 7:
        lines.insert(number, lines[rng.randrange(len(lines))])
    elif change == 8:
        rng.shuffle(lines)
    elif change == 9:
        lines[number] = b" ".join(
            rng.sample(lines[number].split(b" "), len(lines[number].split(b" ")))
        )
    elif change == 10:
        return rng.choice(
            [
                b"[" * 100_000, b"{" * 50_000, b"(" * 100_000, content * 50, b"\n" * 10_000,
                b"a" * 300_000,
            ]
        )
    else:
        lines[number] = (
            lines[number].replace(b",", b"", 1) if rng.randrange(2)
            else lines[number] + b"," + _bytes(rng, 5)
        )
    return b"\n".join(lines)


def _files(call: Call) -> list[int]:
    """The places of the words that name files of the folder."""
    there = set(os.listdir(call.folder))
    return [
        place for place, word in enumerate(call.words) if word in there
        and (call.folder / str(word)).is_file() and not (call.folder / str(word)).is_symlink()
    ]


def _odd_file(rng: Random, call: Call) -> None:
    """One of the files that the call names, or of the repository, is something else."""
    names = [str(call.words[place]) for place in _files(call)]
    own = call.tree / call.sound.own_tree
    if (
        call.sound.own_tree and own.is_file() and not own.is_symlink()
        and (not names or rng.randrange(2))
    ):
        path = own
    elif names:
        path = call.folder / rng.choice(names)
    else:
        call.text = _changed(rng, call.text)
        call.odd.append("standard input changed")
        return
    kind = rng.randrange(16)
    if kind >= 6 or path.name == "program" and kind in (3, 4):
        path.write_bytes(_changed(rng, path.read_bytes()))
        call.odd.append(f"{path.name} changed")
        return
    path.unlink()
    if kind == 1:
        path.mkdir()
    elif kind == 2:
        path.symlink_to(path.name)
    elif kind == 3:
        os.mkfifo(path)
        call.waits = True
    elif kind == 4:
        path.symlink_to(rng.choice(["/dev/zero", "/dev/null", "/dev/full", "/proc/self/mem"]))
    elif kind == 5:
        path.symlink_to("/nowhere/at/all")
    kinds = ("absent", "a folder", "a link to itself", "a fifo", "a device", "a link to nothing")
    call.odd.append(f"{path.name} is {kinds[kind]}")


def _odd_name(rng: Random, call: Call) -> None:
    """One of the files has another name."""
    places = _files(call)
    if not places:
        return _odd_words(rng, call)
    place = rng.choice(places)
    name = rng.choice(
        [
            b"\xff\xfe", b"a b", b"new\nline", b"-x", b"x" * 255, b"$(id)", b"'q\"",
            "ö\u2028".encode(), b"~", b"%t", b"a=b", b"\x1b[2J", b"stream 0", b"x:y",
        ]
    )
    shutil.copy(
        os.fsencode(call.folder / str(call.words[place])),
        os.path.join(os.fsencode(call.folder), name),
    )
    call.words[place] = name
    call.odd.append(f"named {name!r}")


def _odd_words(rng: Random, call: Call) -> None:
    words = call.words or [""]
    place = rng.randrange(len(words))
    odds: list[Word] = [
        "", "-", "--", "--help", "-x", "9" * 5000, "-1", "0x", b"\xff", "a\nb", "x" * 10_000,
        "\u2665", "-U", "--workers", "--=", "%s", "{0}", "\x1b[2J", "/dev/null", ".",
    ]
    odd = rng.choice(odds)
    change = rng.randrange(4)
    if change == 0:
        words[place] = odd
    elif change == 1:
        words.insert(place, odd)
    elif change == 2:
        del words[place]
    else:
        words.insert(place, rng.choice(words))
    call.words = words
    call.faulty_words = True
    call.odd.append("words changed")


def _odd_end(rng: Random, call: Call) -> None:
    number = rng.choice([0, 1, 1, 2, 2])
    call.ends[number] = rng.choice(
        ["closed", "full", "input alone", "no reader"] if number else ["closed", "zero"]
    )
    call.odd.append(f"descriptor {number} {call.ends[number]}")


def _odd_place(rng: Random, call: Call) -> None:
    """The folder for temporary files, or the one where the call is made."""
    kind = rng.randrange(4)
    if kind == 0:
        call.environment["TMPDIR"] = str(call.folder / "no/such")
    elif kind == 1:
        call.file_limit = rng.choice([0, 100, 5000])
    elif kind == 2:
        call.in_deleted = True
    else:
        call.environment["HOME"] = "/nowhere"
        call.environment["XDG_CACHE_HOME"] = str(call.folder / "lab.unit")
    call.odd.append(
        ("TMPDIR missing", f"files of {call.file_limit} bytes", "a deleted folder", "no home")[kind]
    )


def _odd_locale(rng: Random, call: Call) -> None:
    variables = rng.choice([
        {"LC_ALL": "C", "PYTHONUTF8": "0", "PYTHONCOERCECLOCALE": "0"},
        {"PYTHONIOENCODING": "ascii"}, {"PYTHONIOENCODING": "utf-16"}, {"LC_ALL": "no_SUCH"},
        {"KISTALUB_HINTS": "0"}, {"TERM": ""}, {"COLUMNS": "1"}, {"PATH": "/usr/bin:/bin"},
        {"CC": rng.choice(["", "true", "false", "/nowhere", "sh -c exit"])},
        {"KISTALUB_LIBRARY": rng.choice(["/nowhere", "/etc/passwd", "libc.so.6"])},
        {"OMPI_COMM_WORLD_RANK": "x" * 10},
    ])
    call.environment.update(variables)
    call.odd.append(f"environment {variables}")


def _signal(rng: Random, call: Call) -> None:
    call.signal = (
        rng.choice(["SIGINT", "SIGTERM", "SIGHUP"]), rng.choice(["alone", "group"]),
        rng.choice([0.15, 0.3, 0.5]),
    )


ODDITIES: list[Callable[[Random, Call], None]] = [
    _odd_file, _odd_file, _odd_file, _odd_name, _odd_words, _odd_end, _odd_end, _odd_place,
    _odd_locale,
]


def draw(rng: Random, sound: Sound, folder: Path, tree: Path, environment: dict[str, str]) -> Call:
    """A call with one to three things odd about it."""
    call = Call(sound, folder, tree, list(sound.words), sound.text.encode(), dict(environment))
    for _ in range(rng.choice([1, 1, 1, 2, 2, 3])):
        rng.choice(ODDITIES)(rng, call)
    if call.waits or sound.may_be_ended and rng.random() < SIGNED:
        _signal(rng, call)
        if call.signal and not sound.may_be_ended:
            call.signal = ("SIGTERM", *call.signal[1:])
    return call
