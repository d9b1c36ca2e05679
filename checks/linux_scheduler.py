"""Linux's own scheduler of events, compiled out of the kernel's source as a program: which sets of
events does a processor count at once, and on which counters?

The functions, tables and macros are taken by their names out of arch/x86 of that source (Debian's
package linux-source), and compiled with checks/linux_scheduler.c. Of the two functions that make a
processor ready, `intel_pmu_init` and `amd_core_pmu_init`, the statements are taken that say which
tables and which rules it has.
"""

from __future__ import annotations

import glob
import re
import subprocess
import tarfile
from dataclasses import dataclass
from pathlib import Path

from here import CHECKS

from parts.command import Fault, counted

ARCHIVES = "/usr/src/linux-source-*.tar.xz"
EVENTS = "arch/x86/events"
HEADERS = "arch/x86/include/asm"
SOURCES = (
    f"{HEADERS}/perf_event.h", f"{HEADERS}/intel-family.h", f"{EVENTS}/perf_event.h",
    f"{EVENTS}/perf_event_flags.h", f"{EVENTS}/core.c", f"{EVENTS}/intel/core.c",
    f"{EVENTS}/amd/core.c",
)

# What is taken of each file, in this order. A word with `[]` is a table.
TYPES = {
    f"{HEADERS}/perf_event.h": "use_fixed_pseudo_encoding",
    f"{EVENTS}/perf_event.h": "extra_reg_type event_constraint constraint_match is_metric_event "
    "is_slots_event is_topdown_event er_account intel_shared_regs "
    "intel_excl_state_type intel_excl_states intel_excl_cntrs X86_PERF_KFREE cpu_hw_events "
    "extra_reg perf_capabilities x86_pmu_quirk x86_pmu_config x86_lbr_exclusive_lbr "
    "x86_hybrid_pmu hybrid_pmu hybrid_pmu_type x86_pmu",
}
CODE = {
    f"{EVENTS}/perf_event.h": (
        "is_counter_pair has_amd_brs is_pebs_pt is_ht_workaround_enabled intel_pmu_has_bts_period "
        "intel_pmu_has_bts"
    ),
    f"{EVENTS}/core.c": "x86_pmu_extra_regs x86_setup_perfctr x86_pmu_hw_config sched_state "
    "perf_sched perf_sched_init perf_sched_save_state perf_sched_restore_state "
    "__perf_sched_find_counter perf_sched_find_counter perf_sched_next_event perf_assign_events "
    "x86_schedule_events add_nr_metric_event collect_event",
    f"{EVENTS}/intel/core.c": "intel_core2_event_constraints[] intel_gen_event_constraints[] "
    "intel_slm_event_constraints[] intel_slm_extra_regs[] intel_glm_extra_regs[] "
    "intel_knl_extra_regs[] intel_tnt_extra_regs[] intel_nehalem_event_constraints[] "
    "intel_nehalem_extra_regs[] intel_westmere_event_constraints[] intel_westmere_extra_regs[] "
    "intel_snb_event_constraints[] intel_ivb_event_constraints[] intel_snb_extra_regs[] "
    "intel_snbep_extra_regs[] intel_hsw_event_constraints[] intel_bdw_event_constraints[] "
    "intel_skl_event_constraints[] intel_skl_extra_regs[] intel_icl_event_constraints[] "
    "intel_icl_extra_regs[] intel_spr_event_constraints[] intel_spr_extra_regs[] "
    "intel_bts_constraints intel_vlbr_constraints intel_alt_er intel_fixup_er "
    "__intel_shared_reg_get_constraints __intel_shared_reg_put_constraints "
    "intel_shared_regs_constraints x86_get_event_constraints __intel_get_event_constraints "
    "intel_start_scheduling intel_commit_scheduling intel_stop_scheduling dyn_constraint "
    "intel_get_excl_constraints intel_get_event_constraints intel_put_excl_constraints "
    "intel_put_shared_regs_event_constraints intel_put_event_constraints intel_pmu_bts_config "
    "is_available_metric_event is_mem_loads_event is_mem_loads_aux_event "
    "require_mem_loads_aux_event intel_pmu_has_cap intel_pmu_hw_config hsw_hw_config "
    "counter0_constraint counter2_constraint fixed0_constraint fixed0_counter0_constraint "
    "tnt_get_event_constraints hsw_get_event_constraints icl_get_event_constraints "
    "spr_get_event_constraints intel_ht_bug fixup_ht_bug intel_pmu_check_num_counters "
    "intel_pmu_check_event_constraints intel_pmu_check_extra_regs",
    f"{EVENTS}/amd/core.c": "amd_get_event_code amd_is_pair_event_code amd_core_hw_config "
    "amd_pmu_hw_config pair_constraint amd_get_event_constraints_f17h "
    "amd_put_event_constraints_f17h",
}
MACRO = re.compile(r"^#define[ \t]+(?:[^\n]*\\\n)*[^\n]*\n", re.MULTILINE)
COMMENT = re.compile(r"/\*.*?\*/", re.DOTALL)
# of the files of code
OWN_MACRO = re.compile(r"#define\s+(?:AMD_MERGE_EVENT|INTEL_TD_|SCHED_STATES_MAX)")
# of what a maker's processors have in common
FIELDS = re.compile(
    r"^\t\.(?:hw_config|get_event_constraints|put_event_constraints)\s*=\s*\w+,\n", re.MULTILINE
)
STATEMENT = re.compile(
    r"x86_pmu\.(?:event_constraints|extra_regs|flags|get_event_constraints|hw_config"
    r"|num_topdown_events)\s*\|?=\s*\w+;|x86_add_quirk\(intel_ht_bug\);"
    r"|if \(boot_cpu_data\.x86_model == \w+\)|else|fallthrough;|case INTEL_FAM6_\w+:"
)
FLAGS = "#define PERF_ARCH(name, val) PERF_X86_EVENT_##name = val,\nenum {\n%s\n};\n"


@dataclass(frozen=True)
class Core:
    """A processor as Linux tells it by family and model. `model` is a name of intel-family.h, or a
    number."""

    family: int
    model: str
    counters: int
    fixed: int
    counters_alone: int = 0  # of a core with one thread, if they are others
    threads: int = 2


def _intel(model: str, counters: int = 4, fixed: int = 3, alone: int = 0, threads: int = 2) -> Core:
    return Core(6, f"INTEL_FAM6_{model}", counters, fixed, alone, threads)


CORES = {
    "core": _intel("CORE2_MEROM", 2, threads=1), "atom": _intel("ATOM_BONNELL", 2),
    "slm": _intel("ATOM_SILVERMONT", 2, threads=1),
    "glm": _intel("ATOM_GOLDMONT", threads=1), "tmt": _intel("ATOM_TREMONT", threads=1),
    "knl": _intel("XEON_PHI_KNL", 2, threads=4), "knm": _intel("XEON_PHI_KNM", 2, threads=4),
    "nhm": _intel("NEHALEM_EP"), "nhm_ex": _intel("NEHALEM_EX"), "wsm": _intel("WESTMERE"),
    "wsm_dp": _intel("WESTMERE_EP"),
    "snb": _intel("SANDYBRIDGE", alone=8), "snb_ep": _intel("SANDYBRIDGE_X", alone=8),
    "ivb": _intel("IVYBRIDGE", alone=8), "ivb_ep": _intel("IVYBRIDGE_X", alone=8),
    "hsw": _intel("HASWELL", alone=8), "hsw_ep": _intel("HASWELL_X", alone=8),
    "bdw": _intel("BROADWELL", alone=8), "bdw_ep": _intel("BROADWELL_X", alone=8),
    "skl": _intel("SKYLAKE", alone=8), "skx": _intel("SKYLAKE_X", alone=8),
    "clx": _intel("SKYLAKE_X", alone=8),
    "icl": _intel("ICELAKE", 8, 4), "icx": _intel("ICELAKE_X", 8, 4),
    "spr": _intel("SAPPHIRERAPIDS_X", 8, 4),
    "amd64_fam17h_zen1": Core(0x17, "0x01", 6, 0), "amd64_fam17h_zen2": Core(0x17, "0x31", 6, 0),
    "amd64_fam19h_zen3": Core(0x19, "0x21", 6, 0), "amd64_fam19h_zen4": Core(0x19, "0x11", 6, 0),
}


def is_packaged() -> bool:
    return bool(glob.glob(ARCHIVES))


def unpack(into: str, more: tuple[str, ...] = ()) -> str:
    """The parts of Debian's source of Linux that are read here, and more folders."""
    with tarfile.open(sorted(glob.glob(ARCHIVES))[-1]) as archive:
        for member in archive:
            inner = member.name.split("/", 1)[-1]
            if inner in SOURCES or inner.startswith(more or ("\0",)):
                archive.extract(member, into)
    return str(next(Path(into).iterdir()))


def _found(text: str, name: str, file: str) -> str:
    """The definition of a function, a type or a variable. A table's name ends in `[]`."""
    word = re.escape(name.removesuffix("[]"))
    forms = [
        rf"^(?:struct|union|enum) {word} \{{.*?^\}};\n",
        rf"^(?:static )?struct [\w ]+\b{word}(?:\[\])?[^;=()\n]*(?:=[^;]*?)?;\n",
        (
            r"^(?:static |inline |struct |int |u64 |void |bool |unsigned |__always_inline "
            rf")[^;{{}}()#/]*\b{word}\([^;{{}}]*\)\n\{{.*?^\}}\n"
        ),
        rf"^enum \{{\s*{word}.*?^\}};\n",
    ]
    if name.endswith("[]"):
        forms = [rf"^static struct \w+ {word}\[\][^=;]*=\s*\{{.*?^\}};\n"]
    for form in forms:
        if found := re.search(form, text, re.DOTALL | re.MULTILINE):
            return found[0]
    raise Fault(f"{file}: no {name}: this is another Linux than this check knows")


def _block(text: str, start: str, file: str) -> str:
    """From a text up to the brace that closes what it opens."""
    at = text.find(start)
    if at < 0:
        raise Fault(f"{file}: no {start!r}: this is another Linux than this check knows")
    depth, end = 0, text.index("{", at)
    for end in range(end, len(text)):
        depth += {"{": 1, "}": -1}.get(text[end], 0)
        if depth == 0:
            break
    return text[at : end + 1]


def _outermost(body: str) -> list[str]:
    """The lines of a block that stand in no block within it."""
    lines, depth = [], 0
    for line in body.splitlines():
        if depth == 0 and "{" not in line:
            lines.append(line.strip())
        depth += line.count("{") - line.count("}")
    return lines


def _choice_of_model(text: str, models: set[str], file: str) -> str:
    """Of the cases of intel_pmu_init those of these models, with what each says of tables and
    rules."""
    switch = _block(
        text[text.index("intel_pmu_init(void)") :], "switch (boot_cpu_data.x86_model) {", file
    )
    cases: list[list[str]] = [[]]
    for line in _outermost(switch.partition("{")[2].rpartition("}")[0]):
        if line == "break;":
            cases.append([])
        elif STATEMENT.fullmatch(line):
            cases[-1].append(line)
    wanted = [case for case in cases if any(f"case {model}:" in case for model in models)]
    body = "\n".join("\n".join([*case, "break;"]) for case in wanted)
    return (
        f"static void choose_model(void) {{ switch (boot_cpu_data.x86_model) {{\n{body}\n"
        f"default: exit(3); }} }}\n"
    )


def _choice_of_family(text: str, file: str) -> str:
    pairs = _block(
        text[text.index("amd_core_pmu_init(void)") :], "if (boot_cpu_data.x86 >= 0x17) {", file
    )
    return (
        f"static void choose_family(void) {{ u64 even_ctr_mask = 0; int i;\n"
        f"{pairs} else exit(3); }}\n"
    )


def _common(text: str, name: str, file: str) -> str:
    fields = "".join(FIELDS.findall(_block(text, f"const struct x86_pmu {name} = {{", file)))
    # choose_family sets those of each family
    kept = fields.replace("amd_get_event_constraints,", "NULL,").replace(
        "amd_put_event_constraints,", "NULL,"
    )
    return f"static const struct x86_pmu {name} = {{\n{kept}}};\n"


def _taken(texts: dict[str, str], names: dict[str, str]) -> str:
    return "".join(
        _found(texts[file], name, file) for file, words in names.items() for name in words.split()
    )


def _parts(folder: str) -> tuple[str, str, dict[str, int]]:
    """The two parts of the program, and the models by their names."""
    try:
        texts = {name: COMMENT.sub("", (Path(folder) / name).read_text()) for name in SOURCES}
    except OSError as error:
        raise Fault(f"{folder}: {error.filename}: {error.strerror}") from None
    macros = [
        line for name in (f"{HEADERS}/perf_event.h", f"{EVENTS}/perf_event.h")
        for line in MACRO.findall(texts[name])
    ]
    kept = [
        line for line in macros
        if not line.startswith(("#define PERF_ARCH", "#define C(", "#define perf_"))
    ]
    families = MACRO.findall(texts[f"{HEADERS}/intel-family.h"])
    models = {
        words[1]: int(words[2], 16) for words in (line.split() for line in families)
        if len(words) > 2 and words[2].startswith("0x")
    }
    types = (
        "".join([*kept, *families]) + FLAGS % texts[f"{EVENTS}/perf_event_flags.h"]
        + _taken(texts, TYPES)
    )
    intel, amd = f"{EVENTS}/intel/core.c", f"{EVENTS}/amd/core.c"
    of_init = [
        _common(texts[intel], "intel_pmu", intel), _common(texts[amd], "amd_pmu", amd),
        _choice_of_family(texts[amd], amd),
    ]
    chosen = _choice_of_model(texts[intel], {core.model for core in CORES.values()}, intel)
    own_macros = "".join(
        line for name in (f"{EVENTS}/core.c", intel, amd) for line in MACRO.findall(texts[name])
        if OWN_MACRO.match(line)
    )
    return types, own_macros + _taken(texts, CODE) + "".join(of_init) + chosen, models


class Scheduler:
    """The compiled program."""

    def __init__(self, linux: str, folder: str):
        types, code, self.models = _parts(linux)
        for name, text in (("types.inc", types), ("code.inc", code)):
            (Path(folder) / name).write_text(text)
        self.program = Path(folder) / "linux_scheduler"
        words = [
            "cc", "-std=gnu11", "-O1", "-w", "-I", folder, "-o", str(self.program),
            str(CHECKS / "linux_scheduler.c"),
        ]
        done = subprocess.run(words, capture_output=True, text=True)
        if done.returncode:
            raise Fault(f"the kernel's scheduler can't be compiled:\n{done.stderr[-3000:]}")

    def counters(self, pmu: str, threads: bool) -> int:
        core = CORES[pmu]
        return core.counters if threads or not core.counters_alone else core.counters_alone

    def ask(
        self, pmu: str, threads: bool, sets: list[list[tuple[int, int]]], held: int | None = None,
        counters: int = 0,
    ) -> list[list[int] | None]:
        """For each set of codes, each with the value of its second register, the counters; None if
        Linux refuses it. `held` is what the kernel's watchdog counts, and `counters` another number
        of programmable ones."""
        core = CORES[pmu]
        model = (
            self.models.get(core.model) if core.model.startswith("INTEL") else int(core.model, 16)
        )
        if model is None:
            raise Fault(f"{core.model}: this Linux has no such model")
        words = [
            f"{core.family:x}", f"{model:x}", str(counters or self.counters(pmu, threads)),
            str(core.fixed), str(core.threads if threads else 1),
        ]
        lines = "".join(
            " ".join(f"{code:x}:{value:x}" for code, value in each) + "\n" for each in sets
        )
        done = subprocess.run(
            [str(self.program), *words, *([f"{held:x}"] if held is not None else [])], input=lines,
            capture_output=True, text=True,
        )
        answers = done.stdout.splitlines()
        if done.returncode or len(answers) != len(sets):
            raise Fault(
                f"linux_scheduler {' '.join(words)} ended with status {done.returncode} after "
                f"{counted(len(answers), 'set')}: {done.stderr.strip()}"
            )
        return [None if line == "-" else [int(word) for word in line.split()] for line in answers]
