"""Words of a tool with exactly one fault, and what the hint on it begins with."""

from __future__ import annotations

from random import Random

from running import RUNNING, TOOLS

TABLES = [["-P", "presets"], ["-C", "lab1"]]
NUMBERS = {
    "--workers": ("1", "64"),
    "--thread": ("0", "63"),
    "--set": ("0", "7"),
    "--index": ("0", "31"),
}
NO_NUMBERS = ("", "x", "1e3", "0x1", "99999999999", "-1")
VALUES = {"-U": "UNIT", "-P": "PRESETS", "-C": "CPU", "-M": "MAP", "--events": "LIST"}


def _options(rng: Random, tool: str) -> tuple[list[list[str]], list[list[str]], list[str]]:
    """Options that a tool needs, others that it takes, and its other words."""
    needed = [] if tool == "papi_soak" else [["-U", "unit"]]
    more: list[list[str]] = []
    words: list[str] = []
    if tool in ("papi_avail", "papi_decode"):
        needed += TABLES
        more.append(["-a"])
    if tool == "papi_native_avail":
        more += [["--noumasks"], ["-i", "E"], ["-x", "X"]]
    if tool == "papi_avail":
        more.append(["-e", "PAPI_TOT_INS"])
    if tool == "papi_profil":
        needed.append(["-M", "map"])
        more += [
            [option, rng.choice(NUMBERS[option])] for option in ("--thread", "--set", "--index")
        ]
    if tool == "papi_run":
        more.append(["--notes"])
    if tool == "papi_regions":
        needed.append(["--events", "A,B"])
    if tool in (*RUNNING, "papi_soak"):
        more.append(["--workers", rng.choice(NUMBERS["--workers"])])
    if tool in RUNNING:
        words = ["script", "stream0"]
    elif tool == "papi_event_chooser":
        words = ["NATIVE", "A"]
    elif tool == "papi_encode":
        words = ["A"]
    elif tool == "papi_soak":
        words = ["7"]
    return needed, [option for option in more if rng.randrange(2)], words


def faulty(rng: Random) -> tuple[list[str], str]:
    """The words with the tool before them, and the beginning of the one hint on them."""
    tool = rng.choice(TOOLS)
    needed, more, words = _options(rng, tool)
    options = [*needed, *more]
    rng.shuffle(options)
    faults = ["unknown", "twice"] * bool(options) or ["unknown"]
    faults += (
        ["missing"] * bool(needed) + ["lone"] * (tool in ("papi_event_chooser", *RUNNING))
        + ["place"] * bool(words)
    )
    faults += ["number"] * any(option[0] in NUMBERS for option in options) + ["value"] * any(
        len(option) == 1 for option in options
    )
    faults += ["surplus"] * (
        tool in ("papi_avail", "papi_decode", "papi_native_avail", "papi_soak")
    )
    fault = rng.choice(faults)
    expected = ""
    if fault == "unknown":
        name = rng.choice(["--nope", "--unit", "-z", "--note"])
        options.insert(rng.randrange(len(options) + 1), [name])
        expected = f'{tool} has no option "{name}"'
    elif fault == "twice":
        again = rng.choice(options)
        options.append(again)
        expected = f"{again[0]} stands twice"
    elif fault == "missing":
        gone = rng.choice(needed)
        options.remove(gone)
        expected = f"{gone[0]} {VALUES[gone[0]]} is missing: "
    elif fault == "lone":
        kept, gone = rng.sample(TABLES, 2)
        options.append(kept)
        expected = (
            f"{gone[0]} {VALUES[gone[0]]} is missing: {kept[0]} {VALUES[kept[0]]} goes with it"
        )
    elif fault == "place":
        expected = {
            "papi_event_chooser": "EVENT.. is missing",
            "papi_encode": "NAME.. is missing",
            "papi_soak": "SIZE is missing",
            "papi_regions": "REGIONS is missing",
        }.get(tool, "SCRIPT is missing")
        words = words[:1] if tool == "papi_event_chooser" else []
    elif fault == "number":
        place = rng.choice([place for place, option in enumerate(options) if option[0] in NUMBERS])
        value = rng.choice(NO_NUMBERS)
        options[place] = [options[place][0], value]
        expected = f'{options[place][0]} "{value}": '
    elif fault == "value":
        place = rng.choice([place for place, option in enumerate(options) if len(option) == 1])
        flag = options[place][0]
        if flag.startswith("--"):
            options[place] = [f"{flag}=1"]
            expected = f"{flag} takes no value"
        else:
            options[place] = [f"{flag}z"]
            expected = f'{tool} has no option "-z"'
    else:
        words = [*words, "surplus"]
        expected = '"surplus" is one word too many'
    return [tool, *(word for option in options for word in option), *words], expected
