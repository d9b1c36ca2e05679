"""The answers of proofs of functions that hand a call on: the match over calls in thread_session,
and methods of papi_calls. Each names what proves a goal, so that no tactic looks for it."""

from __future__ import annotations

from pathlib import Path

from parts.call_table import CODE_ALONE, REFUSAL, RUN, TABLE, VALUES, Call, read_calls
from parts.command import read_file
from parts.usage import ROOT

FOLDER = "crates/papi_calls/proofs/library/Library"
ANSWERS = "Answers.antt"
MAKE = f"crates/thread_session/proofs/answers/make/{ANSWERS}"
STILL = ("State", "Events", "Assigned", "Register")  # what a call gives that changes nothing
LIBRARY = "q.catalog q.codes c.book.result.now q.session"


def is_handed_on(call: Call) -> bool:
    """Whether the method does no more: it looks no event up, and writes no values."""
    return not (call.is_question or call.takes_event or call.gives in (REFUSAL, VALUES, RUN))


def _uses(call: Call) -> list[str]:
    """The lines that bring the names in."""
    lemmas = "may_call, made_still" if call.gives in STILL else "may_call, still_whole, made"
    plain = ["use Rattle.session_model.specs.Replies.{plain}"]
    reply = [
        "use Rattle.session_model.specs.declared.reply.Body.TheVariants as body",
        "use Rattle.thread_core.specs.Following.{reply_of}",
    ]
    return [
        "use Rattle.std.proofs.Common.{refl}",
        "use Rattle.call_type.specs.declared.call.Call.TheVariants as call",
        *(plain if call.gives == CODE_ALONE else reply),
        f"use Rattle.papi_calls.proofs.Calling.{{{lemmas}}}",
        f"use Rattle.papi_calls.proofs.library.Library.{call.method}.Goals as goal",
    ]


def _goal(name: str, *body: str) -> list[str]:
    """The answer of a goal."""
    lines = [f"    {line}" for line in ("let q = c.self.inside in", *body)]
    return ["", f"pub {name} : goal.{name}", f"{name} c =", *lines]


def answer_text(call: Call) -> str:
    """The answers of the method of a call."""
    method, does = call.method, f"c.book.ensures.book c.{call.method}.ensures"
    made = " ".join((f"call.{call.variant}", *(f"c.args.{field}" for field in call.fields)))
    held = "plain" if call.gives == CODE_ALONE else f"reply_of (λ value. body.{call.gives} value)"
    reply = f"{held} c.{method}.result"
    said = f"({made}) ({reply})" if call.fields else f"{made} ({reply})"
    new = "" if call.gives in STILL else f"c.{method}.new.self "
    lemma = "made" if new else "made_still"
    lines = [
        *_uses(call),
        *_goal(
            f"{method}-requires",
            f"record {{ ready = may_call {LIBRARY} c.book.ensures.book c.self.invariant }}",
        ),
    ]
    if new:
        kept = f"still_whole {LIBRARY} {new}{said} {does} c.self.invariant"
        lines += _goal("invariant_of-self", kept)
    told = f"{lemma} {LIBRARY} {new}{said} {does} _ c.self.view_is refl"
    lines += _goal("returns", f"record {{ made = {told} }}")
    return "\n".join([*lines, ""])


def make_text(calls: list[Call]) -> str:
    """The answers of the match over calls, where a call gives a code alone."""
    lines = ["use Rattle.thread_session.proofs.answers.make.Goals as goal"]
    for number, call in enumerate(call for call in calls if call.gives == CODE_ALONE):
        name = f"returns-in-{call.variant}"
        step = f"plain-in-{call.variant}" if number else "plain"  # the first stands without its arm
        rewritten = f"rw (c.in-{call.variant}.is, c.{step}.ensures) c.{call.method}.ensures"
        lines += ["", f"pub {name} : goal.{name}", f"{name} c = {rewritten}"]
    return "\n".join([*lines, ""])


def answer_texts(root: Path = ROOT) -> dict[str, str]:
    """Each file of answers as it is to be."""
    calls = read_calls(read_file(str(root / TABLE)))
    methods = [call for call in calls if is_handed_on(call)]
    texts = {f"{FOLDER}/{call.method}/{ANSWERS}": answer_text(call) for call in methods}
    return {MAKE: make_text(calls), **texts}
