"""What processors answered to CPUID, as three other projects keep it for their tests: hwloc (an
archive for each machine), libvirt (an XML file for each), and the Go module klauspost/cpuid (an
archive of all). None of it is in this repository."""

from __future__ import annotations

import re
import tarfile
import zipfile
from dataclasses import dataclass
from pathlib import Path
from typing import Iterator

from parts.command import Fault
from parts.machine import PAGE, Shape

HWLOC, LIBVIRT, KLAUSPOST = "tests/hwloc/x86", "tests/cputestdata", "testdata/cpuid_data.zip"
XML_ROW = re.compile(r"<cpuid ([^/]*)/>")
XML_WORD = re.compile(r"(\w+)='(0x[0-9a-f]+)'")
TEXT_ROW = re.compile(
    r"^CPUID ([0-9A-F]{8}): ([0-9A-F-]{35})(?: \[SL ([0-9A-F]+)\])?", re.MULTILINE
)
FIRST_THREAD, SECOND_THREAD = "Logical CPU #0 ]", "Logical CPU #1 ]"
CACHE_LEAVES = (0x4, 0x8000001D)  # Intel's and AMD's
PARTS = {(1, 1): "l1d", (1, 2): "l1i", (2, 3): "l2", (3, 3): "l3"}  # by the level and the type
AMD_BUFFERS, THREADS, BUFFERS = 0x80000005, 0xB, 0x18
WHOLE = 0xFF  # AMD's word for a buffer with all pages in one set
# Descriptors of leaf 2 (Intel's manual, volume 2A, CPUID; also in arch/x86/kernel/cpu/intel.c of
# Linux): pages of 4 KiB and ways. A thread has its part of the pages of instructions.
DATA_PAGES = {0x03: (64, 4)}
CODE_PAGES = {0xB0: (128, 4), 0xB2: (64, 4), 0xB5: (64, 8), 0xB6: (128, 8)}
# Types of leaf 18, of buffers that loads and fetches use.
BUFFER_TYPES = {1: "dtlb", 2: "itlb", 4: "dtlb"}


@dataclass(frozen=True)
class Answer:
    leaf: int
    subleaf: int
    eax: int
    ebx: int
    ecx: int
    edx: int


@dataclass(frozen=True)
class Dump:
    """The answers of a machine's first thread."""

    name: str
    answers: tuple[Answer, ...]

    def answer(self, leaf: int, subleaf: int = 0) -> Answer | None:
        found = (each for each in self.answers if (each.leaf, each.subleaf) == (leaf, subleaf))
        return next(found, None)

    def model(self) -> tuple[int, int, int] | None:
        """Family, model and stepping of a processor of Intel's or AMD's."""
        vendor, version = self.answer(0), self.answer(1)
        if not vendor or not version or vendor.ebx not in (0x756E6547, 0x68747541):
            return None
        family, model = version.eax >> 8 & 15, version.eax >> 4 & 15
        if family in (6, 15):
            model |= version.eax >> 12 & 0xF0
        return family + (version.eax >> 20 & 0xFF if family == 15 else 0), model, version.eax & 15

    def threads(self) -> int:
        """Of a core."""
        told = self.answer(THREADS)
        return told.ebx & 0xFFFF if told and told.ecx >> 8 & 0xFF == 1 and told.ebx else 1

    def caches(self) -> dict[str, Shape]:
        found: dict[str, Shape] = {}
        for each in self.answers:
            name = PARTS.get((each.eax >> 5 & 7, each.eax & 31))
            if each.leaf in CACHE_LEAVES and name:
                ways, parts = (each.ebx >> 22) + 1, (each.ebx >> 12 & 0x3FF) + 1
                shape = Shape(ways * parts * (each.ecx + 1), ways, (each.ebx & 0xFFF) + 1)
                found.setdefault(name, shape)
        return found

    def buffers(self) -> dict[str, Shape]:
        """Those of the first level for pages of 4 KiB, by what loads and fetches use."""
        found: dict[str, Shape] = {}
        for each in self.answers:
            if each.leaf == AMD_BUFFERS and each.ebx:
                found |= {"dtlb": _amd_buffer(each.ebx >> 16), "itlb": _amd_buffer(each.ebx)}
            elif each.leaf == BUFFERS and each.ebx & 1 and each.edx >> 5 & 7 == 1:
                if name := BUFFER_TYPES.get(each.edx & 31):
                    ways = each.ebx >> 16
                    found[name] = Shape(ways * each.ecx, ways, PAGE)
            elif each.leaf == 2:
                found |= self._by_descriptors(each)
        return found

    def _by_descriptors(self, told: Answer) -> dict[str, Shape]:
        found: dict[str, Shape] = {}
        for number in (told.eax, told.ebx, told.ecx, told.edx):
            for descriptor in number.to_bytes(4, "little"):
                if descriptor in DATA_PAGES:
                    found["dtlb"] = Shape(*DATA_PAGES[descriptor], PAGE)
                if descriptor in CODE_PAGES:
                    pages, ways = CODE_PAGES[descriptor]
                    has_part = pages == 64  # the descriptors of a thread that has one of two
                    found["itlb"] = Shape(pages * (self.threads() if has_part else 1), ways, PAGE)
        return found


def _amd_buffer(fields: int) -> Shape:
    pages, ways = fields & 0xFF, fields >> 8 & 0xFF
    return Shape(pages, pages if ways == WHOLE else ways, PAGE)


def read_lines(text: str) -> tuple[Answer, ...]:
    """hwloc's: lines `MASK EAX EBX ECX EDX => EAX EBX ECX EDX`."""
    found: list[Answer] = []
    for line in text.splitlines():
        asked, arrow, told = line.partition("=>")
        if arrow and not line.startswith("#"):
            _, leaf, _, subleaf, _ = (int(word, 16) for word in asked.split())
            found.append(Answer(leaf, subleaf, *(int(word, 16) for word in told.split())))
    return tuple(found)


def read_xml(text: str) -> tuple[Answer, ...]:
    """libvirt's: elements `cpuid`, with and without `ecx_in`."""
    rows = [dict(XML_WORD.findall(row)) for row in XML_ROW.findall(text)]
    names = ("eax_in", "ecx_in", "eax", "ebx", "ecx", "edx")
    return tuple(
        Answer(*(int(row.get(name, "0"), 16) for name in names)) for row in rows if "eax_in" in row
    )


def read_text(text: str) -> tuple[Answer, ...]:
    """AIDA64's, of the first thread: lines `CPUID LEAF: EAX-EBX-ECX-EDX [SL SUBLEAF]`."""
    first = text.partition(FIRST_THREAD)[2].partition(SECOND_THREAD)[0] or text
    return tuple(
        Answer(int(leaf, 16), int(sub or "0", 16), *(int(word, 16) for word in told.split("-")))
        for leaf, told, sub in TEXT_ROW.findall(first)
    )


def _of_hwloc(folder: Path) -> Iterator[Dump]:
    for path in sorted(folder.glob("*.tar.bz2")):
        with tarfile.open(path) as files:
            member = next((name for name in files.getnames() if name.endswith("/pu0")), None)
            file = files.extractfile(member) if member else None
            if file:
                name = path.name.removesuffix(".tar.bz2")
                yield Dump(name, read_lines(file.read().decode("ascii")))


def _of_libvirt(folder: Path) -> Iterator[Dump]:
    for path in sorted(folder.glob("x86_64-cpuid-*.xml")):
        yield Dump(path.stem.removeprefix("x86_64-cpuid-"), read_xml(path.read_text("utf-8")))


def _of_klauspost(archive: Path) -> Iterator[Dump]:
    with zipfile.ZipFile(archive) as files:
        for name in sorted(files.namelist()):
            if name.endswith("_CPUID.txt"):
                text = files.read(name).decode("latin-1")
                yield Dump(Path(name).name.removesuffix("_CPUID.txt"), read_text(text))


def dumps_of(source: str) -> list[Dump]:
    """Of processors of Intel's and AMD's, in a source of one of the three."""
    for inner, reader in ((HWLOC, _of_hwloc), (LIBVIRT, _of_libvirt), (KLAUSPOST, _of_klauspost)):
        if (Path(source) / inner).exists():
            return [dump for dump in reader(Path(source) / inner) if dump.model()]
    raise Fault(f"{source}: neither {HWLOC} nor {LIBVIRT} nor {KLAUSPOST} is in it")
