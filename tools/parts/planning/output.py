"""A plan as a text for people, and as JSON (docs/FORMATS.md, Plans)."""

from __future__ import annotations

import json
import shlex
from typing import Any, Optional, Sequence

from parts.command import counted
from parts.count_files import file_told
from parts.planning.asking import Tried
from parts.planning.fewest import Fewest, Reason
from parts.planning.limits import Limit
from parts.planning.plan import Plan

FORMAT, VERSION = "kistalub-plan", 1


def as_text(plan: Plan) -> str:
    lines = [f"{other} is {event}, and counted once" for other, event in plan.same]
    if plan.events:
        lines += [_head(plan), ""]
        lines += [_run(number, sets) for number, sets in enumerate(plan.runs, 1)]
        lines += [line for _, found in plan.components for line in _why(found.reason)]
        lines += ["", *_settings(plan)]
    return "".join(f"{line}\n" for line in lines)


def _head(plan: Plan) -> str:
    events, runs = counted(len(plan.events), "event"), counted(len(plan.runs), "run")
    if not plan.is_least:
        return f"{events} in {runs}; at least {plan.at_least} are needed"
    fewer = ", and not in fewer" if plan.at_least > 1 else ""
    return f"{events} in {runs}{fewer}"


def _run(number: int, sets: Sequence[tuple[str, Tried]]) -> str:
    parts = (" ".join(each.taken) for _, each in sets)
    return f"run {number}: {' + '.join(parts)}"


# -- why not fewer --


def _why(reason: Optional[Reason]) -> list[str]:
    if reason is None:
        return []
    events = f"{_listed(reason.events)} need {counted(reason.sets, 'set')}"
    head = f"Not fewer: {events}. Of these native events a set takes"
    return ["", head, *map(_limit, reason.limits)]


def _limit(limit: Limit) -> str:
    if not limit.counters:
        return f"  at most {limit.most} in all"
    allowed = f"which are allowed {_listed(limit.counters)} and no others"
    return f"  at most {limit.most} of {_listed(sorted(limit.natives))}, {allowed}"


def _listed(names: Sequence[str]) -> str:
    return " and ".join(filter(None, (", ".join(names[:-1]), names[-1])))


# -- what to set --


def _settings(plan: Plan) -> list[str]:
    """What a program is told, so that it counts these events."""
    lines = ["PAPI's regions (PAPI_hl_region_begin), a run for each line:"]
    for sets in plan.runs:
        names = [event for _, each in sets for event in each.taken]
        lines.append(f"  PAPI_EVENTS={shlex.quote(','.join(names))}")
    lines.append("Event sets (PAPI_add_named_event), in each run:")
    more = ", and one more behind each +" if len(plan.components) > 1 else ""
    lines.append(f"  one set of the events of that run{more}")
    lines.append("tools/count over a program without calls of PAPI needs one run for all:")
    lines.append(f"  --events {shlex.quote(','.join(plan.events))}")
    return lines


# -- JSON --


def as_json(plan: Plan, unit: str, presets: Optional[str], cpu: Optional[str]) -> str:
    whole = {
        "format": FORMAT,
        "version": VERSION,
        "unit": file_told(unit),
        "presets": None if presets is None else file_told(presets),
        "cpu": cpu,
        "events": list(plan.events),
        "same": dict(plan.same),
        "refused": [
            {"event": each.event, "code": each.code, "hint": each.hint} for each in plan.refused
        ],
        "least_runs": plan.at_least,
        "is_least": plan.is_least,
        "runs": [[_set_told(name, each) for name, each in sets] for sets in plan.runs],
        "components": [_component_told(name, found) for name, found in plan.components],
    }
    return json.dumps(whole, indent=2) + "\n"


def _set_told(component: str, tried: Tried) -> dict[str, Any]:
    return {"component": component, "events": tried.taken, "counters": tried.counters}


def _component_told(name: str, found: Fewest) -> dict[str, Any]:
    reason = found.reason
    return {
        "component": name,
        "sets": len(found.sets),
        "least_sets": found.at_least,
        "reason": reason and {
            "events": list(reason.events),
            "limits": [
                {
                    "most": limit.most,
                    "natives": sorted(limit.natives),
                    "counters": list(limit.counters),
                }
                for limit in reason.limits
            ],
        },
    }
