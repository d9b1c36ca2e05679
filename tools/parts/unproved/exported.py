"""The crate papi_c as a program. What is compiled without a proof is a program, with what its
`main` reaches. So it gets one that calls each function for C."""

from __future__ import annotations

import re
from pathlib import PurePosixPath
from typing import NamedTuple

from parts.command import Fault
from parts.unproved.sources import CRATES, LIBRARY, Sources

SOURCE = f"crates/{LIBRARY.crate}/src/"
FUNCTION = re.compile(
    r'#\[unsafe\(no_mangle\)\]\s*pub extern "C" fn (\w+)\((.*?)\)\s*(->)?', re.DOTALL
)
STATIC = re.compile(rb"^(\w+) staticlib *:", re.MULTILINE)
# A value of each type that a parameter has. Nothing is ever run, so any will do, but the compiler
# has to take it for one that may be.
VALUES = {
    "Global": "alloc",
    "&mut Handle": "&mut handle",
    "u32": "which",
    "u64": "which as u64",
    "&[u8]": "&text",
    "&mut [u8]": "&mut bytes",
    "&mut [u32]": "&mut words",
    "&mut [i64]": "&mut values",
    "&mut u32": "&mut word",
    "&mut StreamFault": "&mut fault",
    "&mut [Passing]": "&mut passings",
    "&mut [Occurrences]": "&mut what",
}
LENGTH = "&mut u64"
LENGTHS = ("&mut length", "&mut other_length")  # no two parameters are lent the same
BEGINNING = """
use crate::faults::StreamFault;
use crate::handle::Handle;
use crate::happening::Occurrences;
use crate::running::Passing;
use std::env;
use std::process::ExitCode;

fn main(rt: HostRuntime) -> ExitCode {
    let alloc = rt.alloc();
    let mut which = 0u32;
    if let Ok(arguments) = env::args(&rt) {
        for argument in arguments {
            which = argument.len() as u32;
        }
    }
    let mut handle = Handle::shut(alloc);
    let text = [0u8; 64];
    let mut bytes = [0u8; 64];
    let mut words = [0u32; 32];
    let mut values = [0i64; 32];
    let mut word = 0u32;
    let mut length = 0u64;
    let mut other_length = 0u64;
    let mut passings = [Passing { set: 0, index: 0, address: 0 }; 4];
    let mut fault = StreamFault { line: 0, cause: 0 };
    let mut what = [Occurrences {
        address: which as u64,
        amount: which,
        component: which as u8,
        select: which as u8,
        umask: which as u8,
        kernel: which as u8,
    }; 4];
    let mut sum = 0i32;
"""
END = """    if sum == 77 {
        return ExitCode::from(word as u8);
    }
    ExitCode::SUCCESS
}
"""


class Function(NamedTuple):
    """A function for C."""

    module: str
    name: str
    parameters: str
    gives_number: bool


def exported_functions(sources: Sources) -> dict[str, str]:
    """The functions for C: their names in the module that is compiled, and in C."""
    found = _functions(sources)
    return {f"{LIBRARY.crate}::{each.module}::{each.name}": each.name for each in found}


def as_program(sources: Sources) -> Sources:
    """The same sources with a `main` in the library's root."""
    texts = dict(sources.texts)
    root = texts.pop(f"{SOURCE}lib.rt", b"")
    calls = "".join(_call(number, each) for number, each in enumerate(_functions(sources)))
    texts[f"{SOURCE}main.rt"] = root + f"{BEGINNING}{calls}{END}".encode()
    texts[CRATES] = STATIC.sub(rb"\1: std", texts[CRATES])
    return Sources(texts)


def _functions(sources: Sources) -> list[Function]:
    found = []
    for path, text in sorted(sources.texts.items()):
        if path.startswith(SOURCE):
            module = "::".join(PurePosixPath(path[len(SOURCE) :]).with_suffix("").parts)
            for name, parameters, arrow in FUNCTION.findall(text.decode()):
                found.append(Function(module, name, parameters, bool(arrow)))
    if not found:
        raise Fault(f"{SOURCE} has no function for C")
    return found


def _call(number: int, function: Function) -> str:
    """A call that no run makes, which the compiler cannot know."""
    lengths = iter(LENGTHS)
    given = []
    for parameter in function.parameters.split(","):
        kind = parameter.partition(":")[2].strip()
        if kind:
            value = next(lengths, None) if kind == LENGTH else VALUES.get(kind)
            if value is None:
                raise Fault(
                    f"{function.name} has a parameter of type {kind}, for which "
                    "tools/parts/unproved/exported.py has no value"
                )
            given.append(value)
    call = f"crate::{function.module}::{function.name}({', '.join(given)})"
    done = f"sum = sum.wrapping_add({call})" if function.gives_number else call
    return f"    if which == {number + 100} {{\n        {done};\n    }}\n"
