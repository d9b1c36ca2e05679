"""What an event of a real processor counts of a kernel by what its name means, and what it counts
over the unit of its processor's table. The meanings are written from the names and from the makers'
descriptions (perf's event files in Linux's source), and not from the tables."""

from __future__ import annotations

import re
import subprocess
from dataclasses import dataclass, field
from pathlib import Path

from here import ROOT
from kernel_files import Kernel

from parts.codes import codes_of
from parts.command import Fault
from parts.event_sums import Files, Sum, added_up, sums_of
from parts.kinds import kinds_with
from parts.processors import tables

BRANCHES = "conditional_taken conditional_not_taken jumps calls returns"
WRONG = "mispredicted_taken mispredicted_not_taken"
L2 = {
    "DEMAND": "l2_load_hits l2_store_hits l2_fetch_hits l2_load_misses l2_store_misses "
    "l2_fetch_misses",
    "MISS": "l2_load_misses l2_store_misses l2_fetch_misses",
}
L3_MISSES = "l3_load_misses l3_store_misses l3_fetch_misses"
VECTORS = "double_128 single_128 double_256 single_256 double_512 single_512"
ELEMENTS = {"ADD_SUB": "added", "MULT": "multiplied", "DIV": "divided", "M(?:AC|ULT_ADD)": "fused"}
INTEL = r"MEM_(?:INST|UOPS?)_RETIRED:"
L2_OF_AMD = "CORE_TO_L2_CACHEABLE_REQUEST_ACCESS_STATUS:"
FILLS = r"(?:(?:ANY|DEMAND)_DATA_CACHE_FILLS|DATA_CACHE_REFILLS)_FROM_SYSTEM:(?:LS_)?(?:MABRESP_)?"
MEANINGS = {
    r"INST_RETIRED:(?:ANY|ANY_P|ALL|PREC_DIST)|INSTRUCTIONS?_RETIRED|RETIRED_INSTRUCTIONS":
        "instructions",
    r"CPU_CLK_(?:THREAD_)?UNHALTED(?::THREAD|:THREAD_P|:REF_TSC|:REF_TSC_P)?|"
    r"UNHALTED_(?:CORE|REFERENCE)_CYCLES|CYCLES_NOT_IN_HALT": "cycles",
    r"RESOURCE_STALLS:A(?:NY|LL)": "stalls",
    INTEL + r"A(?:LL|NY)_LOADS": "loads",
    INTEL + r"A(?:LL|NY)_STORES": "stores",
    INTEL + r"ANY|DATA_CACHE_ACCESSES": "loads stores",
    INTEL + r"STLB_MISS_LOADS|DTLB_LOAD_MISSES:(?:DEMAND_LD_)?(?:MISS_)?CAUSES_A_WALK|"
    r"DTLB_LOAD_MISSES:(?:DEMAND_LD_)?WALK_COMPLETED(?:_4K)?": "dtlb_load_misses",
    INTEL + r"STLB_MISS_STORES|DTLB_STORE_MISSES:(?:MISS_)?CAUSES_A_WALK|"
    r"DTLB_STORE_MISSES:WALK_COMPLETED(?:_4K)?": "dtlb_store_misses",
    r"L1_DTLB_MISS:TLB_RELOAD_4K_L2_MISS": "dtlb_load_misses dtlb_store_misses",
    r"ITLB_MISSES:(?:MISS_)?CAUSES_A_WALK|ITLB_MISSES:WALK_COMPLETED(?:_4K)?|"
    r"FRONTEND_RETIRED:(?:ITLB|STLB)_MISS|L1_ITLB_MISS_L2_ITLB_MISS:IF4K": "itlb_misses",
    INTEL + r"LOCK_LOADS": "locked_loads",
    INTEL + r"SPLIT_LOADS|MISALIGN_MEM_REF:LOADS|MISALIGNED_LOADS:MA64": "split_loads",
    INTEL + r"SPLIT_STORES|MISALIGN_MEM_REF:STORES": "split_stores",
    r"MEM_LOAD_(?:UOPS_)?RETIRED:L1_HIT": "load_hits",
    r"MEM_LOAD_(?:UOPS_)?RETIRED:L1_MISS|MEM_LOAD_COMPLETED:L1_MISS_ANY": "l1d_load_misses",
    r"MEM_LOAD_(?:UOPS_)?RETIRED:L2_HIT": "l2_load_hits",
    r"MEM_LOAD_(?:UOPS_)?RETIRED:L2_MISS": "l2_load_misses",
    r"MEM_LOAD_(?:UOPS_)?RETIRED:L3_HIT|MEM_LOAD_(?:UOPS_)?L(?:3|LC)_HIT_RETIRED:XSNP_NONE":
        "l3_load_hits",
    r"MEM_LOAD_(?:UOPS_)?RETIRED:L3_MISS|MEM_LOAD_(?:UOPS_)?MISC_RETIRED:LLC_MISS|"
    r"MEM_LOAD_(?:UOPS_)?L(?:3|LC)_MISS_RETIRED:LOCAL_DRAM|"
    r"OFFCORE_REQUESTS:L3_MISS_DEMAND_DATA_RD": "l3_load_misses",
    r"MEM_STORE_RETIRED:L2_HIT": "l2_store_hits",
    r"L1D:REPLACEMENT": "l1d_load_misses l1d_store_misses",
    r"ICACHE:MISSES|ICACHE_64B:IFTAG_MISS|FRONTEND_RETIRED:L1I_MISS|IC_TAG_HIT_MISS:IC_MISS":
        "l1i_misses",
    r"L2_RQSTS:(?:DEMAND_DATA_RD_HIT|ALL_DEMAND_RD_HIT)|" + L2_OF_AMD + "LS_RD_BLK_L_HIT_X":
        "l2_load_hits",
    r"L2_RQSTS:DEMAND_DATA_RD_MISS|OFFCORE_REQUESTS:(?:DEMAND_|ALL_)?DATA_RD": "l2_load_misses",
    r"L2_RQSTS:ALL_DEMAND_DATA_RD|L2_TRANS:(?:LOAD|D(?:E)?MA?ND_DATA_RD)|"
    r"REQUESTS_TO_L2_GROUP1:RD_BLK_L": "l2_load_hits l2_load_misses",
    r"L2_RQSTS:(?:DEMAND_)?RFO_HITS?|" + L2_OF_AMD + "LS_RD_BLK_X": "l2_store_hits",
    r"L2_RQSTS:(?:DEMAND_)?RFO_MISS|L2_STORE_LOCK_RQSTS:MISS|OFFCORE_REQUESTS:DEMAND_RFO":
        "l2_store_misses",
    r"L2_RQSTS:(?:ALL_RFO|RFO_ANY)|L2_STORE_LOCK_RQSTS:ALL|L2_TRANS:RFO|"
    r"REQUESTS_TO_L2_GROUP1:RD_BLK_X": "l2_store_hits l2_store_misses",
    r"L2_RQSTS:CODE_RD_HIT|INSTRUCTION_CACHE_REFILLS_FROM_L2|" + L2_OF_AMD + "IC_FILL_HIT_S":
        "l2_fetch_hits",
    r"L2_RQSTS:CODE_RD_MISS|OFFCORE_REQUESTS:DEMAND_CODE_RD|FRONTEND_RETIRED:L2_MISS|"
    r"INSTRUCTION_CACHE_REFILLS_FROM_SYSTEM|" + L2_OF_AMD + "IC_FILL_MISS": "l2_fetch_misses",
    r"L2_RQSTS:ALL_CODE_RD|L2_TRANS:CODE_RD|REQUESTS_TO_L2_GROUP1:CACHEABLE_IC_READ":
        "l2_fetch_hits l2_fetch_misses",
    r"L2_RQSTS:(?:ALL_DEMAND_)?REFERENCES": L2["DEMAND"],
    r"L2_RQSTS:(?:ALL_DEMAND_)?MISS|L2_LINES_IN:A(?:LL|NY)": L2["MISS"],
    L2_OF_AMD + "LS_RD_BLK_C": "l2_load_misses l2_store_misses",
    r"LONGEST_LAT_CACHE:REFERENCES?|(?:LLC|LAST_LEVEL_CACHE)_REFERENCES":
        f"l3_load_hits l3_store_hits l3_fetch_hits {L3_MISSES}",
    r"LONGEST_LAT_CACHE:MISS|(?:LLC|LAST_LEVEL_CACHE)_MISSES": L3_MISSES,
    FILLS + "LCL_L2": "l2_load_hits l2_store_hits",
    FILLS + "(?:LCL_CACHE|INT_CACHE|LOCAL_CCX)": "l3_load_hits l3_store_hits",
    FILLS + "(?:LCL_DRAM|MEM_IO_LCL|DRAM_IO_NEAR)": "l3_load_misses l3_store_misses",
    r"BR_INST_(?:RETIRED|EXEC):ALL_BRANCHES|BRANCH_INSTRUCTIONS_RETIRED|"
    r"RETIRED_BRANCH_INSTRUCTIONS": BRANCHES,
    r"BR_INST_(?:RETIRED|EXEC):(?:ALL_|ANY_)?COND(?:ITIONAL)?|"
    r"RETIRED_CONDITIONAL_BRANCH_INSTRUCTIONS": "conditional_taken conditional_not_taken",
    r"BR_INST_(?:RETIRED|EXEC):(?:COND_TAKEN|TAKEN_COND(?:ITIONAL)?)": "conditional_taken",
    r"BR_INST_(?:RETIRED|EXEC):(?:COND_NTAKEN|NOT_TAKEN|NONTAKEN_COND(?:ITIONAL)?)":
        "conditional_not_taken",
    r"BR_INST_RETIRED:NEAR_TAKEN|RETIRED_TAKEN_BRANCH_INSTRUCTIONS":
        "conditional_taken jumps calls returns",
    r"BR_INST_RETIRED:NEAR_CALL": "calls",
    r"BR_INST_RETIRED:NEAR_RETURN|RETIRED_NEAR_RETURNS|"
    r"BR_INST_EXEC:(?:(?:ALL|ANY|TAKEN)_INDIRECT_NEAR_RET(?:URN)?|"
    r"TAKEN_(?:NEAR_RETURN|RETURN_NEAR))": "returns",
    r"BR_MISP_(?:RETIRED|EXEC):(?:ALL_BRANCHES|(?:ALL_|ANY_)?COND(?:ITIONAL)?)|"
    r"MISPREDICTED_BRANCH_RETIRED|RETIRED_(?:CONDITIONAL_)?BRANCH_INSTRUCTIONS_MISPREDICTED|"
    r"RETIRED_BRANCH_MISPREDICTED_DIRECTION_MISMATCH": WRONG,
    r"BR_MISP_(?:RETIRED|EXEC):(?:COND_TAKEN|NEAR_TAKEN|TAKEN|TAKEN_COND(?:ITIONAL)?)|"
    r"RETIRED_TAKEN_BRANCH_INSTRUCTIONS_MISPREDICTED": "mispredicted_taken",
    r"BR_MISP_(?:RETIRED|EXEC):(?:COND_NTAKEN|NOT_TAKEN|NONTAKEN_COND(?:ITIONAL)?)":
        "mispredicted_not_taken",
    **{
        rf"FP_ARITH(?:_INST_RETIRED)?:{bits}B_PACKED_{form.upper()}": f"{form}_{bits}"
        for bits in ("128", "256", "512")
        for form in ("double", "single")
    },
    r"FP_ARITH(?:_INST_RETIRED)?:SCALAR_DOUBLE|FP_COMP_OPS_EXE:SSE_SCALAR_DOUBLE": "scalar_double",
    r"FP_ARITH(?:_INST_RETIRED)?:SCALAR_SINGLE|FP_COMP_OPS_EXE:SSE_FP_SCALAR_SINGLE":
        "scalar_single",
    r"FP_ARITH(?:_INST_RETIRED)?:SCALAR": "scalar_double scalar_single",
    r"FP_ARITH(?:_INST_RETIRED)?:VECTOR": VECTORS,
    r"FP_ARITH(?:_INST_RETIRED)?:PACKED": "double_128 single_128 double_256 single_256",
    r"FP_ARITH(?:_INST_RETIRED)?:4_FLOPS": "single_128 double_256",
    r"FP_ARITH(?:_INST_RETIRED)?:8_FLOPS": "single_256 double_512",
    r"FP_ARITH(?:_INST_RETIRED)?:DOUBLE": "scalar_double double_128 double_256",
    r"FP_ARITH(?:_INST_RETIRED)?:SINGLE": "scalar_single single_128 single_256",
    r"FP_COMP_OPS_EXE:SSE_FP_PACKED_DOUBLE": "double_128",
    r"FP_COMP_OPS_EXE:SSE_PACKED_SINGLE": "single_128",
    r"SIMD_FP_256:PACKED_DOUBLE": "double_256",
    r"SIMD_FP_256:PACKED_SINGLE": "single_256",
    r"FP_COMP_OPS_EXE:X87|INST_RETIRED:X87": "x87",
    **{
        rf"RETIRED_SSE_AVX_OPERATIONS:{prefix}_{does}_FLOPS": f"{kind}_{form}"
        for does, kind in ELEMENTS.items()
        for prefix, form in (("DP", "doubles"), ("SP", "singles"))
    },
    **{
        rf"RETIRED_SSE_AVX_FLOPS:{does}_FLOPS": f"{kind}_doubles {kind}_singles"
        for does, kind in ELEMENTS.items()
    },
    r"RETIRED_SSE_AVX_FLOPS:ANY": " ".join(
        f"{kind}_{form}" for kind in ELEMENTS.values() for form in ("doubles", "singles")
    ),
}
# What the model has not: larger pages, a second level of buffers, shared and changed lines, other
# nodes.
NEVER = re.compile(
    r"[DI]TLB_\w+:(?:LARGE_(?:PAGE_)?)?WALK_COMPLETED(?:_2M_4M|_1G)?|L1_DTLB_MISS:TLB_RELOAD_\w+|"
    r"L1_ITLB_MISS_L2_ITLB_\w+(?::\w+)?|REQUESTS_TO_L2_GROUP1:(?:LS_RD_BLK_C_S|CHANGE_TO_X)|"
    + FILLS + r"(?:RMT_\w+|EXT_\w+|\w+_RMT|\w+_FAR)|" + L2_OF_AMD + r"(?:\w+_S|\w+_X)"
)
# Events that no kernel can make count, by what they need.
UNTRIED = {
    re.compile(r".*:512B_PACKED_\w+"): "Valgrind does not run AVX-512",
}


def meaning_of(name: str) -> tuple[str, ...] | None:
    """The kinds of which an event is the sum; none for one that never occurs here, and None for a
    name without a meaning. An event without umasks may have one named by its code."""
    name = re.sub(r":0X[0-9A-F]+$", "", name)
    for pattern, words in MEANINGS.items():
        if re.fullmatch(pattern, name):
            return tuple(words.split())
    return () if NEVER.fullmatch(name) else None


def why_untried(name: str) -> str:
    return next((why for pattern, why in UNTRIED.items() if pattern.fullmatch(name)), "")


@dataclass
class Judged:
    """The events of a unit: what is wrong with each, and which kernels have none of it."""

    wrong: dict[str, str] = field(default_factory=dict)
    untried: dict[str, str] = field(default_factory=dict)


def make_unit(pmu: str, folder: Path) -> str:
    unit = folder / f"{pmu}.unit"
    with open(unit, "w", encoding="ascii") as file:
        words = [str(ROOT / "tools/make_unit"), pmu, "--counted"]
        subprocess.run(words, check=True, stdout=file, stderr=subprocess.DEVNULL)
    return str(unit)


def names_of(unit: str) -> list[str]:
    """The events of a unit with their umasks."""
    names: list[str] = []
    event = ""
    for line in Path(unit).read_text(encoding="ascii").splitlines():
        kind, *fields = line.split(",")
        if kind == "EVENT":
            event = fields[0]
            names.append(event)
        elif kind == "UMASK":
            if names[-1] == event:
                names.pop()
            names.append(f"{event}:{fields[0]}")
    return names


def counts_of(kernel: Kernel) -> dict[str, int]:
    """All that is known of a kernel by hand. None has anything of AVX-512."""
    none = {"double_512": 0, "single_512": 0}
    return {**none, **kernel.wanted(), **(kernel.derived() if kernel.file == "levels" else {})}


def difference(sum_of: Sum, meaning: tuple[str, ...], kernels: list[Kernel]) -> tuple[str, bool]:
    """The first kernel that an event counts otherwise than it means, and whether any is counted."""
    is_tried = False
    for kernel in kernels:
        counts = counts_of(kernel)
        if not set(meaning) <= counts.keys():
            continue
        unknown = {kind for kind, weight in sum_of.weights.items() if weight} - counts.keys()
        if unknown:
            return f"counts {', '.join(sorted(unknown))}", True
        wanted = sum(counts[kind] for kind in meaning)
        found = added_up(sum_of.weights, counts)
        is_tried = is_tried or wanted != 0
        if found != wanted:
            return f"{kernel.name}: {found:,} for {wanted:,}", True
    return "", is_tried


def sum_or_none(files: Files, name: str, kinds: list) -> Sum | None:
    """None of an event that counts nothing."""
    try:
        return sums_of(files, [name], kinds)[0]
    except Fault as fault:
        if "counts nothing" in str(fault):
            return None
        raise


def judge_events(pmu: str, unit: str, kernels: list[Kernel]) -> Judged:
    judged = Judged()
    files = Files(unit, str(ROOT / "examples/recorded.presets"), "recorded")
    kinds = kinds_with(codes_of(unit))
    meanings = {name: meaning_of(name.upper()) for name in names_of(unit)}
    counted = [name for name, meaning in meanings.items() if meaning]
    sums = {each.name: each for each in sums_of(files, counted, kinds)} if counted else {}
    for name, meaning in meanings.items():
        if meaning is None:
            judged.wrong[name] = "no meaning is written for it"
        elif not meaning:
            judged.untried[name] = "the model has none of it"
            each = sum_or_none(files, name, kinds)
            judged.wrong[name] = f"counts {', '.join(each.kinds())}" if each else ""
        else:
            judged.wrong[name], is_tried = difference(sums[name], meaning, kernels)
            if not is_tried:
                judged.untried[name] = why_untried(name) or "?"
    events = {re.sub(r":0X[0-9A-F]+$", "", name.upper()) for name in meanings}
    rows = {row.name.upper() for row in tables()[pmu].rows.values()}
    judged.wrong.update(dict.fromkeys(events - rows, "has no row"))
    judged.wrong.update(dict.fromkeys(rows - events, "is a row, and not in the unit"))
    return judged
