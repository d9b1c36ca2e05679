"""What `mutants` changes, by parts: files, and the tests that are to see it."""

from __future__ import annotations

import sys
from dataclasses import dataclass

from here import ROOT


@dataclass(frozen=True)
class Part:
    """Files that are changed, and the tests that are to see it: modules in a folder of tests, and a
    command at the top of the copy."""

    files: tuple[str, ...]
    tests: str = ""
    command: tuple[str, ...] = ()
    folder: str = "tools"  # where the modules are found
    is_pure: bool = True  # neither the proved program nor valgrind is run

    def modules(self) -> list[str]:
        return [f"tests.{name}" if self.folder == "tools" else name for name in self.tests.split()]


def _parts(*names: str) -> tuple[str, ...]:
    return tuple(f"tools/parts/{name}.py" for name in names)


def _all(pattern: str, *, but: tuple[str, ...] = ()) -> tuple[str, ...]:
    return tuple(
        sorted(
            str(path.relative_to(ROOT)) for path in ROOT.glob(pattern)
            if path.name not in ("__init__.py", *but)
        )
    )


_SCRIPTS = (
    "test_silent test_hints_running test_progress test_unproved test_endings.Scripts "
    "test_any_end.Scripts"
)
PARTS = {
    "endings": Part(
        _parts("command", "quiet", "started"),
        "test_command test_plot test_endings test_outside_names test_any_end",
    ),
    "plot": Part(
        ("tools/plot", *_parts("chart", "profile", "xml_text")),
        "test_plot test_endings.Texts test_endings.Streams",
    ),
    "preset_lines": Part(
        ("tools/preset_lines",), "test_preset_lines test_endings.Texts test_endings.Streams",
        is_pure=False,
    ),
    "preset_rows": Part(
        ("tools/preset_rows",), "test_preset_rows test_endings.Texts", is_pure=False
    ),
    "draw_crates": Part(
        ("tools/draw_crates", *_parts("crate_graph", "crate_picture")),
        "test_draw_crates test_endings.Crates", ("tools/draw_crates", "--check", "docs/crates.svg"),
    ),
    "make_map": Part(
        ("tools/make_map", *_parts("map_file", "symbols", "stream_head")),
        "test_make_map test_looked_at test_endings.Texts",
    ),
    "make_fortran": Part(
        ("tools/make_fortran", *_parts("c_header", "c_probe", "compiler", "fortran_header")),
        "test_c_header test_made_files test_endings.Compilers test_endings.Signals",
    ),
    "make_pages": Part(
        (
            "tools/make_pages",
            *_parts("usage", "tools_page", "manual_page", "command_page", "counted_page"),
        ),
        "test_make_pages test_made_files test_processors",
        ("tools/make_pages", "--check"),
    ),
    "make_unit": Part(
        (
            "tools/make_unit",
            *_parts(
                "counted_unit", "event_counters", "left_out", "libpfm4", "linux_source",
                "perf_events", "preset_umasks", "processors", "shared_registers", "unit_file",
                "unit_of_pmu",
            ),
        ),
        "test_make_unit test_processors test_endings.EventFiles",
        is_pure=False,
    ),
    "made": Part(
        (
            "tools/make_calls",
            "tools/make_definitions",
            "tools/make_limits",
            "tools/make_presets",
            "tools/make_tools",
            *_parts(
                "call_answers", "call_table", "session_answers", "definitions", "definitions_page",
                "preset_table", "regions", "steps_rows", "tool_lists", "tool_table", "words_rows",
            ),
        ),
        (
            "test_definitions test_make_calls test_make_presets test_make_tools test_made_files "
            "test_regions test_endings.Texts"
        ),
    ),
    "package": Part(_parts("package_links"), "test_package_links"),
    "building": Part(("python/building.py",), "test_building", folder="python/tests"),
    "python": Part(
        _all("python/kistalub/*.py"),
        "test_event_sets test_forgotten test_library test_pytest_plugin", folder="python/tests",
        is_pure=False,
    ),
    "completions": Part(_all("completions/*"), "test_completions", is_pure=False),
    "examples": Part(
        ("examples/check", "examples/folder.sh"), "test_examples_check", is_pure=False
    ),
    "headers": Part(
        _all("include/*.h"), "test_c_header test_made_files test_declarations test_version",
        ("checks/papi_header",), is_pure=False,
    ),
    "valgrind": Part(
        ("tools/valgrind/build", *_all("tools/valgrind/*.[ch]")),
        "test_tool test_tool_edges test_record test_count test_count_whole test_count_functions "
        "test_count_profile test_thresholds test_kernels "
        "test_any_end.Builds test_order",
        is_pure=False,
    ),
    "install": Part(("bin/install",), "test_install"),
    "make_deb": Part(("tools/make_deb",), "test_make_deb", is_pure=False),
    "conflict": Part(
        ("tools/conflict", *(f"tools/parts/report/{name}.py" for name in ("alone", "matrix"))),
        "test_conflict test_report_page.Limits", is_pure=False,
    ),
    "hints": Part(
        _all("bin/hints/**/*.py"), "test_hints test_hints_running test_report.Rules test_causes",
        is_pure=False,
    ),
    "scripts": Part(
        ("bin/papi", "bin/unproved.sh", *_all("bin/hints/*.sh")), _SCRIPTS, is_pure=False
    ),
    "report": Part(
        ("tools/report", *_all("tools/parts/report/*.py", but=("alone.py", "matrix.py"))),
        "test_report test_report_examples test_report_page test_report_files test_conflict",
        is_pure=False,
    ),
    "unproved": Part(
        ("tools/compile_unproved", *_all("tools/parts/unproved/*.py")),
        "test_unproved test_compile_unproved test_built_library", is_pure=False,
    ),
    "record": Part(
        ("tools/record", *_parts("codes", "recording", "recording_words", "machine", "valgrind")),
        "test_record test_tool test_count", is_pure=False,
    ),
    "count": Part(
        ("tools/count", *_parts("counting", "ranks")), "test_count test_ranks", is_pure=False
    ),
    "count_profile": Part(
        _parts("callgrind_file", "code_profile", "profile_counts"), "test_count_profile",
        is_pure=False,
    ),
    "profile_page": Part(
        _parts("profile_page/annotated", "profile_page/flame", "profile_page/making"),
        "test_profile_page", is_pure=False,
    ),
    "count_whole": Part(
        _parts(
            "attended", "call_names", "count_files", "count_table", "elf_file", "event_sums",
            "kinds", "papi_program", "processes", "whole", "whole_counts", "whole_words",
        ),
        "test_count_whole test_count_functions test_elf_file test_looked_at test_count test_order",
        is_pure=False,
    ),
    "compare": Part(
        ("tools/compare", *_all("tools/parts/compare/*.py")), "test_compare test_compare_texts"
    ),
    "plan": Part(
        ("tools/plan", *_parts("event_refusals"), *_all("tools/parts/planning/*.py")),
        "test_plan test_count_whole", is_pure=False,
    ),
    "c": Part(_all("c/*.c"), command=("examples/c/check",), is_pure=False),
}


def without_part() -> list[str]:
    """The programs of tools/, bin/, completions/, c/, include/, examples/ and python/ that no part
    has. Those of a usage alone are none of them, nor are what examples show."""
    scripts = [
        path for path in (*(ROOT / "tools").iterdir(), *(ROOT / "bin").iterdir())
        if path.is_file() and path.stat().st_mode & 0o111
    ]
    sources = [
        path
        for pattern in (
            "tools/parts/**/*.py", "bin/**/*.py", "bin/**/*.sh", "python/*.py",
            "python/kistalub/*.py", "completions/*", "c/*.c", "include/*.h", "tools/valgrind/*",
            "examples/check", "examples/*.sh",
        )
        for path in ROOT.glob(pattern)
        if path.name != "__init__.py"
    ]
    changed = {file for part in PARTS.values() for file in part.files}
    tools = (ROOT / "bin/usage").iterdir()
    usages = {f"bin/{path.name}" for path in tools if path.name not in ("papi", "install")}
    names = (str(path.relative_to(ROOT)) for path in (*scripts, *sources))
    return sorted(name for name in names if name not in changed and name not in usages)


if __name__ == "__main__":
    print("\n".join(without_part()))
    sys.exit(0)
