"""PAPI's presets over the unit of each processor's table: those that are available count of each
kernel what PAPI's description of the preset says, or stand below with what PAPI's own formula for
that processor counts otherwise. The program knows some of them; tools/preset_rows makes user events
of the others, under their names without `PAPI_`, and so a program in C has them all."""

from __future__ import annotations

import re
import subprocess
from pathlib import Path

from here import ROOT
from kernel_events import BRANCHES, L3_MISSES, WRONG, Judged, counts_of
from kernel_files import OPERATIONS, Kernel

from parts.codes import codes_of
from parts.command import Fault
from parts.event_sums import Files, Sum, added_up, sums_of
from parts.kinds import kinds_with
from parts.papi_program import ask_program

PRESETS = Path("/usr/share/papi/7.0/papi_events.csv")  # Debian's package papi-tools
L2_DATA = "l2_load_hits l2_store_hits l2_load_misses l2_store_misses"
L2_FETCHES = "l2_fetch_hits l2_fetch_misses"
SINGLES = "scalar_single single_128*4 single_256*8 single_512*16"
DOUBLES = "scalar_double double_128*2 double_256*4 double_512*8"
DOUBLE_INSTRUCTIONS = "scalar_double double_128 double_256 double_512"
# By PAPI's descriptions (papi_avail): kinds, each with a factor if that is not 1.
MEANINGS = {
    "TOT_INS": "instructions",
    "TOT_CYC": "cycles",
    "REF_CYC": "cycles",
    "RES_STL": "stalls",
    "LD_INS": "loads",
    "SR_INS": "stores",
    "LST_INS": "loads stores",
    "L1_DCA": "loads stores",
    "L1_DCM": "l1d_load_misses l1d_store_misses",
    "L1_ICM": "l1i_misses",
    "L1_TCM": "l1d_load_misses l1d_store_misses l1i_misses",
    "L1_LDM": "l1d_load_misses",
    "L1_STM": "l1d_store_misses",
    "L2_DCM": "l2_load_misses l2_store_misses",
    "L2_ICM": "l2_fetch_misses",
    "L2_TCM": "l2_load_misses l2_store_misses l2_fetch_misses",
    "L2_LDM": "l2_load_misses",
    "L2_STM": "l2_store_misses",
    "L2_DCA": L2_DATA,
    "L2_DCR": "l2_load_hits l2_load_misses",
    "L2_DCW": "l2_store_hits l2_store_misses",
    "L2_DCH": "l2_load_hits l2_store_hits",
    "L2_ICA": L2_FETCHES,
    "L2_ICR": L2_FETCHES,
    "L2_ICH": "l2_fetch_hits",
    "L2_TCA": f"{L2_DATA} {L2_FETCHES}",
    "L2_TCR": f"l2_load_hits l2_load_misses {L2_FETCHES}",
    "L2_TCW": "l2_store_hits l2_store_misses",
    "L3_DCA": "l2_load_misses l2_store_misses",
    "L3_DCR": "l2_load_misses",
    "L3_DCW": "l2_store_misses",
    "L3_ICA": "l2_fetch_misses",
    "L3_ICR": "l2_fetch_misses",
    "L3_TCA": "l2_load_misses l2_store_misses l2_fetch_misses",
    "L3_TCR": "l2_load_misses l2_fetch_misses",
    "L3_TCW": "l2_store_misses",
    "L3_TCM": L3_MISSES,
    "L3_LDM": "l3_load_misses",
    "CA_CLN": "l2_store_misses",
    "CA_SHR": "l2_load_misses",
    "TLB_DM": "dtlb_load_misses dtlb_store_misses",
    "TLB_IM": "itlb_misses",
    "BR_UCN": "jumps calls returns",
    "BR_CN": "conditional_taken conditional_not_taken",
    "BR_TKN": "conditional_taken",
    "BR_NTK": "conditional_not_taken",
    "BR_MSP": WRONG,
    "BR_PRC": "conditional_taken conditional_not_taken mispredicted_taken*-1 "
    "mispredicted_not_taken*-1",
    "BR_INS": BRANCHES,
    "FP_OPS": f"{SINGLES} {DOUBLES}",
    "SP_OPS": SINGLES,
    "DP_OPS": DOUBLES,
    "VEC_SP": "single_128*4 single_256*8 single_512*16",
    "VEC_DP": "double_128*2 double_256*4 double_512*8",
}
ZEN = r"amd64_fam1[79]h_zen\d"
BRIDGES = r"(?:snb|ivb)(?:_ep)?"
WELLS_AND_LAKES = r"(?:hsw|bdw)(?:_ep)?|skl|skx|clx|icx"
SKYLAKES = "skl|skx|clx"


def elements(*does: str, forms: tuple[str, ...] = ("doubles", "singles")) -> str:
    """What AMD's processors count of operations: each element of a vector."""
    return " ".join(f"{kind}_{form}" for kind in does or OPERATIONS for form in forms)


# What PAPI's file computes for some processors in place of that: by which PMUs, and what it is.
OTHERWISE = {
    ("BR_TKN", ZEN): "conditional_taken jumps calls returns",  # AMD has no event of these alone
    ("FP_OPS", BRIDGES): "scalar_double scalar_single x87",  # and none of vectors
    ("FP_INS", BRIDGES): "scalar_double scalar_single x87",
    # AMD's FLOPS, which have no maxima, reciprocals and dot products, in place of instructions.
    **{(name, ZEN): elements() for name in ("FP_OPS", "FP_INS", "VEC_INS")},
    ("DP_OPS", ZEN): elements(forms=("doubles",)),
    ("SP_OPS", ZEN): elements(forms=("singles",)),
    ("FAD_INS", ZEN): elements("added"),
    ("FML_INS", ZEN): elements("multiplied"),
    **{(name, ZEN): elements("divided") for name in ("FDV_INS", "FSQ_INS")},  # and both are one
    ("L2_DCH", r"amd64_fam17h_zen\d"): "l2_load_hits",
    ("L2_DCR", "amd64_fam19h_zen3"): L2_DATA,  # with stores
    # An instruction on a vector is one, and one on a single element is one of these too.
    ("VEC_DP", "bdw(?:_ep)?|skl|skx|clx|icx"): DOUBLE_INSTRUCTIONS,
    ("VEC_SP", "bdw(?:_ep)?|skl|skx|clx|icx"): DOUBLE_INSTRUCTIONS.replace("double", "single"),
    # What is asked for on demand has fetches in it, and PAPI adds them once more.
    ("L2_DCA", WELLS_AND_LAKES): f"{L2_DATA} {L2_FETCHES}",
    ("L2_TCA", WELLS_AND_LAKES): f"{L2_DATA} l2_fetch_hits*2 l2_fetch_misses*2",
    # Two names of one event.
    **{(name, SKYLAKES): "l2_store_hits*2" for name in ("L2_DCW", "L2_TCW")},
}


def weights_of(preset: str, pmu: str) -> dict[str, int] | None:
    name = preset.removeprefix("PAPI_")
    rules = OTHERWISE.items()
    others = (words for (of, pmus), words in rules if of == name and re.fullmatch(pmus, pmu))
    words = next(others, MEANINGS.get(name))
    if words is None:
        return None
    pairs = (word.partition("*") for word in words.split())
    return {kind: int(factor or 1) for kind, _, factor in pairs}


def has_presets(pmu: str) -> bool:
    return re.search(rf"^CPU,{pmu}$", PRESETS.read_text(encoding="ascii"), re.MULTILINE) is not None


def with_others(folder: Path) -> str:
    """PAPI's file with user events for the presets that the program does not know."""
    presets = folder / "presets"
    with open(presets, "w", encoding="ascii") as file:
        words = [str(ROOT / "tools/preset_rows"), str(PRESETS)]
        subprocess.run(words, check=True, stdout=file, stderr=subprocess.DEVNULL)
    return str(presets)


def available(pmu: str, unit: str, presets: str) -> list[str]:
    """Of which papi_decode says that they can be counted, by the names of this file."""
    words = ("-U", unit, "-P", presets, "-C", pmu, "-a")
    done = ask_program("papi_decode", *words)
    if done.returncode:
        raise Fault(f"papi_decode {' '.join(words)}: status {done.returncode}: {done.stderr}")
    return re.findall(r"^(?:PRESET|EVENT),(\w+),", done.stdout, re.MULTILINE)


def value_of(each: Sum, counts: dict[str, int]) -> int | None:
    """None if it is not known of a kernel. A formula that is no sum is known by its parts alone."""
    if each.rule or not {kind for kind, weight in each.weights.items() if weight} <= counts.keys():
        return None
    return added_up(each.weights, counts)


def judge_presets(pmu: str, unit: str, presets: str, kernels: list[Kernel]) -> Judged:
    judged = Judged()
    names = available(pmu, unit, presets)
    kinds = kinds_with(codes_of(unit))
    sums = sums_of(Files(unit, presets, pmu), names, kinds)
    for each in sums:
        meaning = weights_of(each.name, pmu)
        found = "no meaning is written for it" if meaning is None else ""
        is_tried = False
        for kernel in kernels if meaning else ():
            counts = counts_of(kernel)
            value = value_of(each, counts)
            if value is None or not (meaning or {}).keys() <= counts.keys():
                continue
            wanted = sum(counts[kind] * factor for kind, factor in (meaning or {}).items())
            is_tried = is_tried or wanted != 0
            if value != wanted and not found:
                found = f"{kernel.name}: {value:,} for {wanted:,}"
        judged.wrong[each.name] = found
        if not is_tried:
            judged.untried[each.name] = "?"
    return judged
