"""The unit that a program is counted over: the events of a real processor that the modelled machine
has quantities for, with codes of their own (docs/RECORDING.md, Codes)."""

from __future__ import annotations

from dataclasses import replace

from parts.command import Fault
from parts.left_out import Account
from parts.processors import Table, tables
from parts.unit_file import NOTHING_FIXED, Event, Umask, Unit

WHY = "nothing that the model counts is counted by it"


def table_of(pmu: str) -> Table:
    table = tables().get(pmu)
    if table is None:
        raise Fault(
            f"--counted: there is no table of what is counted for the events of {pmu}; there are "
            f"tables for {' '.join(sorted(tables()))}"
        )
    return table


def counted(unit: Unit, table: Table, account: Account) -> Unit:
    """The unit with the codes of the table. What has no row there is left out."""
    events = [made for event in unit.events if (made := _event(event, table, account))]
    if not events:
        raise Fault(f"no event of {unit.pmu} has a row in its table")
    return replace(unit, events=tuple(events))


def _event(event: Event, table: Table, account: Account) -> Event | None:
    if not event.umasks:
        code = table.code(event.name, "")
        if code is None:
            account.leave_out(event.name, WHY)
            return None
        return replace(event, select=code[0])
    umasks = [made for umask in event.umasks if (made := _umask(event, umask, table, account))]
    if not umasks:
        return None
    return replace(event, select=table.select(event.name), umasks=tuple(umasks))


def _umask(event: Event, umask: Umask, table: Table, account: Account) -> Umask | None:
    code = table.code(event.name, umask.name)
    if code is None or umask.fixed != NOTHING_FIXED:
        account.leave_out(f"{event.name}:{umask.name}", WHY)
        return None
    return replace(umask, bits=code[1])
