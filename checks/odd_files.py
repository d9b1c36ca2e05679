"""The files that a tool of the program reads, as files that are no plain files, and as several that
are at fault."""

from __future__ import annotations

import os
import resource
import shutil
import tempfile
import threading
import time
from contextlib import contextmanager
from dataclasses import dataclass, replace
from pathlib import Path
from typing import Callable, Iterator

from running import (
    BAD_WORDS, EXAMPLE_OF, EXAMPLES, NO, READ_FAULT, REFUSED, Example, Program, Run, Tally, differs,
)

NOBODY = 65534
TABLE_LIMIT = 1_048_576
SCRIPT_LIMIT = 8_388_608
STREAM_LIMIT = 67_108_864

# What the examples of the tools that run a script give over a stream that breaks off before its
# first occurrence, as FORMATS says of `run`.
BROKEN_OFF = {
    "papi_run": b"""1 0 create PAPI_OK 0
2 0 add PAPI_OK
3 0 add PAPI_OK
4 0 start PAPI_OK
5 0 run PAPI_ESYS 0 0
6 0 read PAPI_OK 0 0
""",
    "papi_profil": b"""range init 0
range loop 0
outside 0
total 0
""",
    "papi_regions": b"""5 0 inner 0 0
0 outer 1 0 0
0 inner 2 0 0
""",
}

# The files that follow an option.
OPTIONS = {"-U": "unit file", "-P": "preset file", "-M": "map file"}


@dataclass(frozen=True)
class Place:
    """A file of an example: the tool that reads it, the word that names it, and what kind of file
    it is."""

    example: Example
    index: int
    role: str

    @property
    def content(self) -> bytes:
        return (EXAMPLES / self.example.words[self.index]).read_bytes()

    def words_with(self, name: str | bytes) -> list[str | bytes]:
        words: list[str | bytes] = list(self.example.words)
        words[self.index] = name
        return words


def places(example: Example) -> Iterator[Place]:
    for index, word in enumerate(example.words):
        before = example.words[index - 1] if index else ""
        if before in OPTIONS:
            yield Place(example, index, OPTIONS[before])
        elif word.endswith((".script", ".stream")):
            yield Place(example, index, word.rsplit(".", 1)[1])


@contextmanager
def written_by(path: Path, pieces: list[bytes]) -> Iterator[None]:
    """A fifo with a writer that gives these pieces and goes. It waits until the program opens the
    fifo."""
    os.mkfifo(path)
    done = threading.Event()

    def write() -> None:
        while not done.is_set():
            try:
                fifo = os.open(path, os.O_WRONLY | os.O_NONBLOCK)
                break
            except OSError:
                time.sleep(0.001)
        else:
            return
        os.set_blocking(fifo, True)
        try:
            for piece in pieces:
                os.write(fifo, piece)
        except BrokenPipeError:
            pass
        os.close(fifo)

    writer = threading.Thread(target=write)
    writer.start()
    try:
        yield
    finally:
        done.set()
        # (a writer that still waits for a program that was ended finds no reader)
        writer.join()


def padded(content: bytes, size: int) -> bytes:
    """A file of this size in which comment lines follow the content."""
    return (
        content + (b"#" * 99 + b"\n") * ((size - len(content)) // 100)
        + b"#" * ((size - len(content)) % 100)
    )


# What a place answers: the run that is wanted of a name there.
Answer = Callable[[Program, Path, Place, str], Run]


def as_ample(program: Program, folder: Path, place: Place, name: str) -> Run:
    return place.example.wanted


def absent(program: Program, folder: Path, place: Place, name: str) -> Run:
    return Run(REFUSED, b"", f"papi: no such file: {name}\n".encode())


def not_opened(program: Program, folder: Path, place: Place, name: str) -> Run:
    return Run(READ_FAULT, b"", f"papi: cannot read: {name}\n".encode())


def not_read(program: Program, folder: Path, place: Place, name: str) -> Run:
    if place.role == "stream":
        return Run(READ_FAULT, BROKEN_OFF[place.example.words[0]], b"papi: stream 0: read failed\n")
    return not_opened(program, folder, place, name)


def endless(program: Program, folder: Path, place: Place, name: str) -> Run:
    if place.role == "stream":
        return Run(
            REFUSED, BROKEN_OFF[place.example.words[0]], b"papi: stream 0: line 1: line too long\n"
        )
    return Run(REFUSED, b"", f"papi: {name}: too large\n".encode())


def bad_words(program: Program, folder: Path, place: Place, name: str) -> Run:
    return Run(REFUSED, b"", BAD_WORDS)


def as_file_of(cut: Callable[[bytes], bytes]) -> Answer:
    """The answer to a plain file with a part of the content."""

    def answer(program: Program, folder: Path, place: Place, name: str) -> Run:
        (folder / "plain").write_bytes(cut(place.content))
        run = program.run(place.words_with("plain"), folder)
        return replace(run, err=run.err.replace(b"plain", name.encode()))

    return answer


def half(content: bytes) -> bytes:
    return content[: len(content) // 2]


def nothing(content: bytes) -> bytes:
    return b""


def limit_of(place: Place) -> int:
    return SCRIPT_LIMIT if place.role == "script" else TABLE_LIMIT


# How a file comes about: a name below the folder, and what stands there during the run.
Maker = Callable[[Path, Place], None]


def plain(folder: Path, place: Place) -> None:
    (folder / "it").write_bytes(place.content)


def closed_file(folder: Path, place: Place) -> None:
    plain(folder, place)
    (folder / "it").chmod(0)


def closed_folder(folder: Path, place: Place) -> None:
    (folder / "shut").mkdir()
    (folder / "shut/it").write_bytes(place.content)
    (folder / "shut").chmod(0)


def link_to(target: str) -> Maker:
    return lambda folder, place: (folder / "it").symlink_to(target)


def at_limit(folder: Path, place: Place) -> None:
    (folder / "it").write_bytes(padded(place.content, limit_of(place)))


def over_limit(folder: Path, place: Place) -> None:
    (folder / "it").write_bytes(padded(place.content, limit_of(place) + 1))


def over_limit_and_bad(folder: Path, place: Place) -> None:
    (folder / "it").write_bytes(padded(b"x\n", limit_of(place) + 1))


def no_file(folder: Path, place: Place) -> None:
    pass


@dataclass(frozen=True)
class Kind:
    """A kind of file, under its name, and what the program answers."""

    said: str
    name: str | bytes
    make: Maker
    answer: Answer
    as_nobody: bool = False
    not_for: tuple[str, ...] = ()
    pieces: Callable[[bytes], list[bytes]] | None = None


KINDS = [
    Kind("a plain file", "it", plain, as_ample),
    Kind("a name that does not exist", "it", no_file, absent),
    Kind("a name in a folder that does not exist", "no/it", no_file, absent),
    Kind("a link to a name that does not exist", "it", link_to("no"), absent),
    Kind("an empty name", "", no_file, absent),
    Kind("a path through a file", "it/x", plain, not_opened),
    Kind("a file's name with a slash after it", "it/", plain, not_opened),
    Kind("a link to itself", "it", link_to("it"), not_opened),
    Kind("a name of 300 letters", "x" * 300, no_file, not_opened),
    Kind("a file without permission", "it", closed_file, not_opened, as_nobody=True),
    Kind(
        "a file in a folder without permission", "shut/it", closed_folder, not_opened,
        as_nobody=True,
    ),
    Kind("a name that is not UTF-8", b"\xff\xfe", no_file, bad_words),
    Kind("a directory", "it", lambda folder, place: (folder / "it").mkdir(), not_read),
    Kind("a file whose first read fails", "/proc/self/mem", no_file, not_read),
    Kind("a device without an end", "/dev/zero", no_file, endless),
    Kind("a device without content", "/dev/null", no_file, as_file_of(nothing)),
    Kind(
        "a link to a plain file", "ln",
        lambda folder, place: (plain(folder, place), (folder / "ln").symlink_to("it")), as_ample,
    ),
    Kind("a file of its limit", "it", at_limit, as_ample, not_for=("stream",)),
    Kind("a file one byte above its limit", "it", over_limit, endless, not_for=("stream",)),
    Kind(
        "a file above its limit that is bad", "it", over_limit_and_bad, endless, not_for=("stream",)
    ),
    Kind("a fifo", "it", no_file, as_ample, pieces=lambda content: [content]),
    Kind(
        "a fifo, byte by byte", "it", no_file, as_ample,
        pieces=lambda content: [bytes([byte]) for byte in content],
    ),
    Kind(
        "a fifo whose writer goes early", "it", no_file, as_file_of(half),
        pieces=lambda content: [half(content)],
    ),
    Kind(
        "a fifo whose writer gives nothing", "it", no_file, as_file_of(nothing),
        pieces=lambda content: [],
    ),
]


def copy_examples(folder: Path) -> None:
    """The files of the examples in a new folder, for everyone to read."""
    for file in EXAMPLES.iterdir():
        if file.suffix in (".unit", ".presets", ".map", ".script", ".stream"):
            shutil.copy(file, folder)
    folder.chmod(0o755)


def check_kind(tally: Tally, program: Program, kind: Kind, place: Place) -> None:
    name = kind.name if isinstance(kind.name, str) else repr(kind.name)
    with tempfile.TemporaryDirectory() as made:
        folder = Path(made)
        copy_examples(folder)
        wanted = kind.answer(program, folder, place, name)
        kind.make(folder, place)
        how = (
            {"user": NOBODY, "group": NOBODY, "extra_groups": []}
            if kind.as_nobody and os.geteuid() == 0 else {}
        )
        if kind.pieces:
            with written_by(folder / "it", kind.pieces(place.content)):
                run = program.run(place.words_with(kind.name), folder, **how)
        else:
            run = program.run(place.words_with(kind.name), folder, **how)
        for path in (folder / "it", folder / "shut"):
            if kind.as_nobody and path.exists():
                path.chmod(0o700)
    tally.judge(f"{place.example.words[0]}: {place.role}: {kind.said}", differs(run, wanted))


def can_be_nobody(program: Program) -> bool:
    """Whether the program runs as a user who is not root."""
    if os.geteuid() != 0:
        return True
    try:
        with tempfile.TemporaryDirectory() as made:
            copy_examples(Path(made))
            example = Example.named(EXAMPLE_OF["papi_run"])
            run = program.run(
                list(example.words), Path(made), user=NOBODY, group=NOBODY, extra_groups=[]
            )
            return run == example.wanted
    except OSError:
        return False


def check_files(tally: Tally, program: Program, tools: list[str]) -> None:
    nobody = can_be_nobody(program)
    if not nobody:
        print("skipped: the files without permission: here the program runs as root alone")
    for tool in tools:
        for place in places(Example.named(EXAMPLE_OF[tool])):
            for kind in KINDS:
                if place.role not in kind.not_for and (nobody or not kind.as_nobody):
                    check_kind(tally, program, kind, place)


# Several files at fault


@dataclass(frozen=True)
class Several:
    """Words over the folder of `check_several`, and what is wanted."""

    said: str
    words: str
    wanted: Run


def refused(err: str, status: int = REFUSED, out: str = "") -> Run:
    return Run(status, out.encode(), err.encode())


THREADS = Example.named("threads").wanted.out.decode()
THREAD_0_BROKEN = (
    THREADS.replace("12 0 run PAPI_OK 4 2", "12 0 run PAPI_ESYS 0 0")
    .replace("14 0 stop PAPI_OK 1020", "14 0 stop PAPI_OK 0")
    .replace("note 0 0 0 0x400004\nnote 0 0 0 0x40000c\n", "")
)
BOTH_BROKEN = (
    THREAD_0_BROKEN.replace("13 1 run PAPI_OK 3 1", "13 1 run PAPI_ESYS 0 0")
    .replace("15 1 stop PAPI_OK 600", "15 1 stop PAPI_OK 0")
    .replace("note 1 0 0 0x500004\n", "")
)
RUN_THREADS = "papi_run -U lab.unit --notes threads.script"
REGIONS_OF = "papi_regions --events INST_RETIRED,CYCLES -U"
REFUSED_REGIONS = "papi_regions --events INST_RETIRED,PACKETS -U lab.unit regions.script"
SEVERAL = [
    Several(
        "the unit file before the script", "papi_run -U no folder",
        refused("papi: no such file: no\n"),
    ),
    Several(
        "the unit file before the presets", "papi_run -U folder -P no -C lab1 first.script",
        refused("papi: cannot read: folder\n", READ_FAULT),
    ),
    Several(
        "a unit file too large, no script", "papi_run -U /dev/zero no",
        refused("papi: /dev/zero: too large\n"),
    ),
    Several(
        "a bad unit file, no presets", "papi_run -U bad.unit -P no -C lab1 no",
        refused("papi: bad.unit: row 1: bad row\n"),
    ),
    Several(
        "bad presets, no script", "papi_run -U lab.unit -P bad.presets -C lab1 no",
        refused("papi: bad.presets: row 1: preset before cpu\n"),
    ),
    Several(
        "a bad script, no stream", "papi_run -U lab.unit bad.script no",
        refused("papi: bad.script: line 1: unknown call\n"),
    ),
    Several(
        "the second stream is not opened, the first not read",
        "papi_run -U lab.unit first.script folder no", refused("papi: no such file: no\n"),
    ),
    Several(
        "bad words before all files", "papi_run -U no --workers 65 no", refused(BAD_WORDS.decode())
    ),
    Several(
        "the first stream fails", f"{RUN_THREADS} folder threads.1.stream",
        refused("papi: stream 0: read failed\n", READ_FAULT, THREAD_0_BROKEN),
    ),
    Several(
        "both streams fail",
        f"{RUN_THREADS} --workers 2 folder folder",
        refused(
            "papi: stream 0: read failed\npapi: stream 1: read failed\n", READ_FAULT, BOTH_BROKEN
        ),
    ),
    Several(
        "a stream fails and one is bad",
        f"{RUN_THREADS} bad.stream folder",
        refused(
            "papi: stream 0: line 1: wrong number of fields\npapi: stream 1: read failed\n",
            READ_FAULT, BOTH_BROKEN,
        ),
    ),
    Several(
        "the unit file before the region script", f"{REGIONS_OF} no.unit no",
        refused("papi: no such file: no.unit\n"),
    ),
    Several(
        "a bad region script, no stream", f"{REGIONS_OF} lab.unit regions_wrong.script no",
        refused("papi: regions_wrong.script: line 3: wrong region\n"),
    ),
    Several(
        "a region that is not ended, no stream", f"{REGIONS_OF} lab.unit open.script no",
        refused("papi: open.script: line 2: region not ended\n"),
    ),
    Several(
        "the stream of regions that is not opened", f"{REGIONS_OF} lab.unit regions.script no",
        refused("papi: no such file: no\n"),
    ),
    Several(
        "the events of regions before the stream is read", f"{REFUSED_REGIONS} folder",
        Run(NO, b"PACKETS: PAPI_EINVAL\n", b""),
    ),
    Several(
        "the stream of regions is opened before the events are looked up", f"{REFUSED_REGIONS} no",
        refused("papi: no such file: no\n"),
    ),
    Several(
        "the stream of regions is bad at its second line",
        f"{REGIONS_OF} lab.unit regions.script half.stream",
        refused(
            "papi: stream 0: line 2: bad field\n",
            out="5 0 inner 0 0\n0 outer 1 3 0\n0 inner 2 0 0\n",
        ),
    ),
    Several(
        "a stream that no run asks for", "papi_run -U lab.unit conflict.script folder",
        Example.named("conflict").wanted,
    ),
    Several(
        "one file as both streams", "papi_run -U lab.unit first.script first.stream first.stream",
        Example.named("first").wanted,
    ),
    Several(
        "more streams than a thread has runs",
        "papi_run -U lab.unit first.script first.stream" + " folder" * 63,
        Example.named("first").wanted,
    ),
]


DESCRIPTORS = 6


def check_descriptors(tally: Tally, program: Program, folder: Path) -> None:
    """A process that may have no more than six descriptors opens three streams at a time."""
    for streams, wanted in (
        (3, Example.named("first").wanted),
        (4, refused("papi: cannot read: first.stream\n", READ_FAULT)),
    ):
        words = ["papi_run", "-U", "lab.unit", "first.script"] + ["first.stream"] * streams
        run = program.run(
            words,
            folder,
            preexec_fn=lambda: resource.setrlimit(
                resource.RLIMIT_NOFILE, (DESCRIPTORS, DESCRIPTORS)
            ),
        )
        tally.judge(f"{streams} streams with {DESCRIPTORS} descriptors", differs(run, wanted))


def check_long_stream(tally: Tally, program: Program, folder: Path) -> None:
    """A stream of comment lines up to its limit, with a newline behind it, and one byte above it,
    of which a run asks for more occurrences than there are."""
    example = Example.named("first")
    content = (EXAMPLES / "first.stream").read_bytes()
    words = [word.replace("first.stream", "long.stream") for word in example.words]
    (folder / "long.stream").write_bytes(padded(content, STREAM_LIMIT))
    tally.judge("a stream of its limit", differs(program.run(words, folder), example.wanted))
    (folder / "long.stream").write_bytes(padded(content, STREAM_LIMIT) + b"\n")
    tally.judge(
        "a stream of its limit and a newline", differs(program.run(words, folder), example.wanted)
    )
    (folder / "long.stream").write_bytes(padded(content, STREAM_LIMIT + 1))
    lines = content.count(b"\n") + (STREAM_LIMIT - len(content)) // 100 + 1
    out = example.wanted.out.replace(b"4 0 run PAPI_OK 2 0", b"4 0 run PAPI_ESYS 2 0")
    wanted = Run(REFUSED, out, f"papi: stream 0: line {lines}: stream too long\n".encode())
    tally.judge("a stream one byte above its limit", differs(program.run(words, folder), wanted))


def check_several(tally: Tally, program: Program, tools: list[str]) -> None:
    with tempfile.TemporaryDirectory() as made:
        folder = Path(made)
        copy_examples(folder)
        (folder / "folder").mkdir()
        (folder / "bad.unit").write_text("COUNTER,P0,16,P\n")
        (folder / "bad.presets").write_text("PRESET,PAPI_TOT_INS,NOT_DERIVED,lab::CYCLES\n")
        (folder / "bad.script").write_text("0\n")
        (folder / "bad.stream").write_text("0  c0 00 u 1 1\n")
        (folder / "half.stream").write_text("0 c0 00 u 3 1\n0 3c 00 u 256 1\n0 3c 00 u 1 1\n")
        (folder / "open.script").write_text("0 begin a\n")
        for case in SEVERAL:
            if case.words.split()[0] in tools:
                tally.judge(
                    case.said, differs(program.run(case.words.split(), folder), case.wanted)
                )
        if "papi_run" not in tools:
            return
        check_descriptors(tally, program, folder)
        check_long_stream(tally, program, folder)
