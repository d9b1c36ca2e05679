"""The functions of a program, and where it begins, as its file says."""

from __future__ import annotations

from contextlib import contextmanager
from typing import BinaryIO, Iterator

from formats.files import Unread, opened
from parts.command import Fault
from parts.elf_file import HEAD, SHARED_OBJECT, X86_64, ElfHead, Function, symbols_of

ELF_MAGIC = b"\x7fELF"


@contextmanager
def _program(name: str) -> Iterator[tuple[BinaryIO, ElfHead]]:
    try:
        with opened(name) as file:
            head = ElfHead.read(file)
            if head is None:
                file.seek(0)
                content = file.read(HEAD.size)
                is_other = content.startswith(ELF_MAGIC) and len(content) == HEAD.size
                raise Fault(
                    f"{name}: not a program for x86-64, and others can't be recorded" if is_other
                    else f"{name}: not a program file (ELF)"
                )
            yield file, head
    except Unread as unread:
        raise Fault(str(unread)) from None
    except OSError as error:
        raise Fault(f"{name}: {error.strerror}") from None


def read_functions(program: str) -> list[Function]:
    """All functions of known size in the order of their addresses, each address once, by the first
    of its names."""
    with _program(program) as (file, head):
        found = sorted(
            symbols_of(file, head), key=lambda function: (function.address, function.name)
        )
    first: dict[int, Function] = {}
    for function in found:
        first.setdefault(function.address, function)
    return list(first.values())


def is_loaded_anywhere(program: str) -> bool:
    """Whether the program's addresses count from where it is loaded."""
    with _program(program) as (_, head):
        return head.kind == SHARED_OBJECT


def entry_of(program: str) -> int:
    """Where the program itself begins."""
    with _program(program) as (_, head):
        if head.machine != X86_64:
            raise Fault(f"{program}: not a program for x86-64, and others can't be recorded")
        return head.entry
