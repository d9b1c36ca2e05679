"""The words that the makers' description of an event has if the event counts what its row says, and
those that it has not."""

from __future__ import annotations

import re

from parts.processors import NOTHING, Row

LOAD, STORE = r"\bloads?\b|data read|\bread", r"\bstores?\b|\brfos?\b|state change"
FETCH = r"code|instruction|i-?cache|\bic\b"
TLB = r"tlb|page walk|\bwalk"
# By the words of a row: what its description has, each of these, and what it has not.
RULES: dict[str, tuple[tuple[str, ...], str]] = {
    "instructions": (
        (r"instructions? (?:retired|that are|at retire)|retired instr",),
        r"branch|x87",
    ),
    "cycles": ((r"cycle|count core clock|tsc",), r"stall"),
    "stalls": ((r"stall",), ""),
    "loads": ((r"load",), r"miss|lock|split"),
    "stores": ((r"store",), r"miss|lock|split"),
    "loads stores": ((r"memory|load and store|any access",), r"miss"),
    "load_hits": ((r"load", r"l1", r"hit"), r"miss"),
    "l1d_load_misses": ((r"load", r"l1", r"miss"), r""),
    "l1d_load_misses l1d_store_misses": ((r"l1|data cache", r"replace|miss|fill"), ""),
    "l1i_misses": ((r"instruction (?:l1 )?cache|l1i", r"miss"), ""),
    "l2_load_hits": ((LOAD, r"hit|l2", r"l2|mid-level"), r"miss|rfo|store|code"),
    "l2_store_hits": ((STORE, r"hit"), r"miss|code read"),
    "l2_fetch_hits": ((FETCH, r"hit|fulfilled|refill|fetch"), r"miss|data read"),
    "l2_load_misses": (
        (LOAD + r"|l2", r"miss|uncore|offcore|demand and prefetch data reads"),
        r"rfo|store|code",
    ),
    "l2_store_misses": ((STORE, r"miss|demand rfo|uncore"), r"code read"),
    "l2_fetch_misses": ((FETCH, r"miss|system memory|code read"), r"data read|hit"),
    "l2_loads": ((r"data (?:cache )?read|demand data", r"l2|request"), r"miss|hit"),
    "l2_stores": ((STORE, r"l2|request|access cache lines"), r"miss|\bhit"),
    "l2_fetches": ((FETCH, r"l2"), r"\bhit"),
    "l2_misses": ((r"l2", r"miss|fill"), ""),
    "l2_loads l2_stores l2_fetches": ((r"l2", r"request"), r"miss"),
    "l2_load_misses l2_store_misses": (
        (r"miss", r"data cache|readblock", r"l2|all types|miss\."),
        "",
    ),
    "l2_load_hits l2_store_hits": ((r"fill|data cache|refill", r"local l2"), r"dram"),
    "l3_load_hits l3_store_hits": ((r"fill|data cache", r"\bl3\b|cache"), r"dram|different node"),
    "l3_load_misses l3_store_misses": ((r"dram",), r"remote|different node"),
    "l3_load_hits": ((r"load", r"hit", r"l3|llc|last-level"), r"miss"),
    "l3_load_misses": ((r"load|data read|dram|last-level", r"l3|llc|dram|cache"), ""),
    "l3_accesses": ((r"refer|access", r"l3|llc|last.level|core-originated"), ""),
    "l3_misses": ((r"miss", r"l3|llc|last.level"), ""),
    "dtlb_load_misses": ((r"load|dtlb", r"miss|walk", TLB), r"store"),
    "dtlb_store_misses": ((r"store", r"miss|walk", TLB), r"\bload miss"),
    "dtlb_load_misses dtlb_store_misses": ((r"dtlb|data tlb", r"4k", r"miss"), ""),
    "itlb_misses": ((r"itlb|code miss|instruction", r"miss|walk", TLB + r"|4kb"), r"\bload"),
    "locked_loads": ((r"load", r"lock"), ""),
    "split_loads": ((r"load", r"split|cross|misaligned"), r"4kb"),
    "split_stores": ((r"store|\bsta\b", r"split"), ""),
    "conditional": ((r"condition",), r"mispred"),
    "branches": ((r"branch",), r"mispred"),
    "taken": ((r"taken", r"branch"), r"mispred|not taken"),
    "conditional_taken": ((r"taken", r"condition"), r"mispred|not taken"),
    "conditional_not_taken": ((r"not taken|non-taken",), r"mispred"),
    "calls": ((r"call",), r"mispred"),
    "returns": ((r"return",), r"mispred"),
    "mispredicted": ((r"mispred|not correctly predicted", r"branch"), ""),
    "mispredicted_taken": ((r"mispred", r"taken"), r"not taken|non-taken"),
    "mispredicted_not_taken": ((r"mispred", r"not taken|non-taken"), ""),
    "scalar_double": ((r"scalar", r"double"), r"single|packed"),
    "scalar_single": ((r"scalar", r"single"), r"double|packed"),
    **{
        f"{form}_{bits}": ((form, rf"{bits}|sse"), "scalar" if bits < 512 else "")
        for bits in (128, 256, 512)
        for form in ("double", "single")
    },
    "scalar_double scalar_single": ((r"scalar",), r"\bpacked"),
    "double_128 single_128 double_256 single_256": ((r"packed",), r"scalar"),
    "double_128 single_128 double_256 single_256 double_512 single_512": ((r"vector",), r"scalar"),
    "scalar_single single_128 single_256": ((r"single",), r"double"),
    "scalar_double double_128 double_256": ((r"double",), r"single"),
    "single_128 double_256": ((r"128", r"256", r"single", r"double"), r"512"),
    "single_256 double_512": ((r"256", r"512", r"single", r"double"), r"128"),
    "x87": ((r"x87|computational uops",), ""),
    "added": ((r"add(?:ition)?/sub",), r"single|double"),
    "multiplied": ((r"\bmult",), r"single|double|add|acc"),
    "divided": ((r"\bdiv",), r"single|double"),
    "fused": ((r"multiply-a|mac\b", ), r"single"),
    "added multiplied divided fused": ((r"all flops|any|flops",), ""),
    **{
        f"{does}_{form}s": ((words, rf"{form}"), "")
        for form in ("single", "double")
        for does, words in {
            "added": r"add/sub",
            "multiplied": r"multiply (?!-)",
            "divided": r"divide",
            "fused": r"multiply-add",
        }.items()
    },
    NOTHING: (
        (
            r"page|tlb|shared|modifiable|2m|1g|exclusive|large|non-modif|writable|remote|"
            r"different|extension",
        ),
        "",
    ),
}
# Descriptions that say less or something else than the event's name, by the name.
KNOWN = {
    r"RETIRED_SSE_AVX_FLOPS:(?:ANY|MAC_FLOPS)": "libpfm4 describes these umasks by that of another",
    r"RETIRED_CONDITIONAL_BRANCH_INSTRUCTIONS_MISPREDICTED": "libpfm4 has the name alone",
    r"MEM_STORE_RETIRED:L2_HIT": "Linux's file has the name alone",
}


def fault(row: Row, texts: list[str]) -> str:
    """What is wrong with the first description, if no other one is right."""
    faults = [fault_of(row, text) for text in texts]
    return faults[0] if all(faults) else ""


def fault_of(row: Row, text: str) -> str:
    if row.words not in RULES:
        return f"no words are written for {row.words}"
    wanted, unwanted = RULES[row.words]
    lacking = [words for words in wanted if not re.search(words, text, re.IGNORECASE)]
    found = re.search(unwanted, text, re.IGNORECASE) if unwanted else None
    if lacking:
        return f"{row.words}: {text!r} has nothing like {lacking[0]}"
    return f"{row.words}: {text!r} has {found[0]}" if found else ""
