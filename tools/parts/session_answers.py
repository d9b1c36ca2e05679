"""The answers of proofs of the methods of a session, each of which hands its call on to the core.
Each names what proves a goal, so that no tactic looks for it."""

from __future__ import annotations

from pathlib import Path

from parts.call_answers import ANSWERS, STILL
from parts.call_table import CODE_ALONE, REFUSAL, RUN, TABLE, VALUES, Call, read_calls
from parts.command import read_file
from parts.usage import ROOT

FOLDER = "crates/thread_session/proofs/session/Session"
SESSION = "c.args.book.now q.core q.reader"
CODES = {
    CODE_ALONE: ("plain", "session_model.specs.Replies"),
    REFUSAL: ("changed_reply", "thread_core.specs.Following"),
    VALUES: ("values_reply", "thread_core.specs.Following"),
}  # what makes a reply of what the core gives, and where it stands


def is_of_session(call: Call) -> bool:
    """Whether the method does no more: it reads no stream."""
    return not call.is_question and call.gives != RUN


def _is_still(call: Call) -> bool:
    return call.gives in STILL or call.method == "read"


def _uses(call: Call, still: bool) -> list[str]:
    """The lines that bring the names in."""
    word, module = CODES.get(call.gives, ("reply_of", "thread_core.specs.Following"))
    lines = [
        f"use Rattle.std.proofs.Common.{{{'refl, subst, sym' if call.takes_event else 'refl'}}}",
        "use Rattle.call_type.specs.declared.call.Call.TheVariants as call",
        f"use Rattle.{module}.{{{word}}}",
    ]
    if word == "reply_of":
        lines.append("use Rattle.session_model.specs.declared.reply.Body.TheVariants as body")
    if call.takes_event:
        lines += [
            "use Rattle.postfix_rules.specs.Fitting.{IsNamed}",
            "use Rattle.thread_session.specs.SessionView.{SessionView}",
        ]
    lemmas = "handed_still, may_call" if still else "handed, may_call, still_in_step"
    return [
        *lines,
        f"use Rattle.thread_session.proofs.Handed.{{{lemmas}}}",
        f"use Rattle.thread_session.proofs.session.Session.{call.method}.Goals as goal",
    ]


def _reply(call: Call) -> str:
    """The reply, of what the core gives."""
    given = f"c.{call.method}.result"
    if call.gives == VALUES:
        return f"(values_reply {given} c.{call.method}.new.into)"
    if call.gives in CODES:
        return f"({CODES[call.gives][0]} {given})"
    return f"(reply_of (λ value. body.{call.gives} value) {given})"


def _made(call: Call) -> str:
    """The call, of the arguments."""
    fields = [f"c.args.{field}.now" if field == "e" else f"c.args.{field}" for field in call.fields]
    made = " ".join((f"call.{call.variant}", *fields))
    return f"({made})" if fields else made


def _goal(name: str, body: str) -> list[str]:
    """The answer of a goal."""
    return ["", f"pub {name} : goal.{name}", f"{name} g c = {body}"]


def _opened(name: str, body: str) -> list[str]:
    """The answer of a goal, with a name for the session as its fields are."""
    let = "    let q = c.self.inside in"
    return ["", f"pub {name} : goal.{name}", f"{name} g c =", let, f"    {body}"]


def _requires(call: Call) -> list[str]:
    """That the core may make the call."""
    ready = f"may_call {SESSION} c.self.view_is c.requires.ready"
    name = f"{call.method}-requires"
    if not call.takes_event:
        return _opened(name, ready)
    known = "λ (v : SessionView). IsNamed c.args.book.now v.core.shape c.args.e.now"
    named = f"subst ({known}) (sym c.self.view_is) c.requires.named"
    return [*_opened(f"{name}-clause-agrees", ready), *_goal(f"{name}-clause-named", named)]


def session_text(call: Call) -> str:
    """The answers of the method of a call."""
    method, still = call.method, _is_still(call)
    more = {REFUSAL: "refusal", VALUES: "kept"}.get(call.gives, "")  # a further clause
    does = f"c.{method}.ensures{'.follows' if more else ''}"
    said, new = f"{_made(call)} {_reply(call)}", f"c.{method}.new.self"
    lines = [*_uses(call, still), *_requires(call)]
    if not still:
        kept = f"still_in_step {SESSION} {said} {new} {does} c.self.invariant"
        lines += _opened("invariant_of-self", kept)
    lemma = f"handed_still {SESSION} {said}" if still else f"handed {SESSION} {said} {new}"
    name = "returns-clause-does" if more else "returns"
    lines += _opened(name, f"{lemma} refl {does} c.self.view_is")
    if more:
        lines += _goal(f"returns-clause-{more}", f"c.{method}.ensures.{more}")
    return "\n".join([*lines, ""])


def session_texts(root: Path = ROOT) -> dict[str, str]:
    """Each file of answers as it is to be."""
    calls = read_calls(read_file(str(root / TABLE)))
    methods = [call for call in calls if is_of_session(call)]
    return {f"{FOLDER}/{call.method}/{ANSWERS}": session_text(call) for call in methods}
