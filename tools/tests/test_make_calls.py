"""tools/make_calls: what other files have of the table of calls."""

from __future__ import annotations

import re
import unittest

from parts.call_answers import FOLDER, MAKE, answer_texts, make_text
from parts.call_table import (
    ABOVE_CALLS, MADE, TABLE, WIDTH, Call, event_arms, eventless_lines, form_clauses, made_texts,
    read_calls, rule_lines, with_usage,
)
from parts.command import Fault
from parts.session_answers import FOLDER as SESSION
from parts.session_answers import session_text, session_texts
from tests.support import ROOT, before_and_after, run_tool, some

HEAD = "word,arguments,variant,gives,papi,usage,replies,refusals\n"
LINE = "start,SET,Start,code,PAPI_start,begins to count,,ENOEVST\n"
WIDE = "wide" * 9
PROBE = (
    "probe,SET,ProbeSet,SetNumber,PAPI_num_events,replies how many events it has,the number of "
    "events,ENOEVST\n"
)


def call_of(line: str) -> Call:
    return read_calls(HEAD + line)[0]


def made_after(line: str) -> tuple[dict[str, str], dict[str, str]]:
    return before_and_after(line, TABLE, MADE, made_texts)


class MakeCalls(unittest.TestCase):
    def test_no_file_is_out_of_date(self) -> None:
        done = run_tool("make_calls", "--check")
        self.assertEqual((done.returncode, done.stdout, done.stderr), (0, "", ""))

    def test_a_new_line_of_the_table_is_in_each_file(self) -> None:
        before, after = made_after(PROBE)
        lines = {
            "crates/call_type/src/call_name.rt": [
                "    Probe,", '        CallName::Probe => "probe",',
            ],
            "crates/call_type/specs/CallNames.antt": ['word_of name.Probe = codes "probe"'],
            "crates/call_type/src/call.rt": [
                "    ProbeSet { set: u32 },",
                "            Call::ProbeSet { .. } => CallName::Probe,",
            ],
            "crates/call_type/specs/Calls.antt": [
                "name_of_call (call.ProbeSet set) = name.Probe",
                "call_with f (call.ProbeSet set) = call.ProbeSet set",
            ],
            "crates/script_lines/specs/Calls.antt": [
                "    ∷ row name.Probe (Number (λ set. asked.Call (call.ProbeSet set)))"
            ],
            "crates/script_lines/src/asked.rt": [
                "    CallName::Probe,",
                (
                    "        CallName::Probe => one_number(arguments).map(|set| "
                    "Asked::Call(Call::ProbeSet { set })),"
                ),
            ],
            "crates/script_runner/src/asking.rt": [
                "        call_type::Call::ProbeSet { set } => Call::ProbeSet { set },"
            ],
            "crates/thread_session/src/answers.rt": [
                "        Call::ProbeSet { set } => reply(core.probe_set(book, "
                "*set).map(Body::SetNumber)),"
            ],
            "bin/hints/formats/scripts.py": ['"probe": ("SET",),'],
            "bin/hints/formats/refusals.py": ['    "probe": "ENOEVST",'],
            "bin/usage/papi_run": [
                "  probe SET                       replies how many events it has (PAPI_num_events)"
            ],
            "docs/FORMATS.md": [
                "| `probe` | SET | the number of events |", ", `probe` | `ENOEVST` |",
            ],
        }
        self.assertEqual(set(lines), set(some(MADE)))
        for name, new in lines.items():
            self.assertNotIn("probe", before[name].lower(), name)
            self.assertEqual([line for line in new if line not in after[name]], [], name)

    def test_a_line_is_as_wide_as_it_may_be(self) -> None:
        made = [
            eventless_lines(
                [call_of(f"go,SET COUNTER,W{'w' * length},code,PAPI_x,goes,,ENOEVST\n")]
            )
            for length in range(1, 60)
        ]
        whole = [lines for lines in made if len(lines) == 3]
        self.assertEqual(
            (max(len(line) for lines in whole for line in lines), 0 < len(whole) < len(made)),
            (WIDTH, True),
        )

    def test_each_form_of_arguments_is_read_and_made(self) -> None:
        for word, arguments, read, row in (
            (
                "go", "",
                ["CallName::Go => nothing(arguments).map(|_none| Asked::Call(Call::Go)),"],
                "Nothing (asked.Call call.Go)",
            ),
            (
                "go",
                "SET COUNTER",
                [
                    "CallName::Go => {",
                    "    two_numbers(arguments).map(|(set, c)| Asked::Call(Call::Go { set, c }))",
                    "}",
                ],
                "TwoNumbers (λ set c. asked.Call (call.Go set c))",
            ),
            (
                "go",
                "SET EVENT",
                [
                    "CallName::Go => {", "    let (set, event) = set_and_event(arguments)?;",
                    "    let e = Text::copy_of(alloc, event)?;",
                    "    Ok(Asked::Call(Call::Go { set, e }))", "}",
                ],
                "SetAndEvent (λ set e. asked.Call (call.Go set e))",
            ),
            (
                "go",
                "SET EVENT THRESHOLD",
                [
                    "CallName::Go => {",
                    "    let (set, event, t) = set_event_and_threshold(arguments)?;",
                    "    let e = Text::copy_of(alloc, event)?;",
                    "    Ok(Asked::Call(Call::Go { set, e, t }))", "}",
                ],
                "SetEventAndThreshold (λ set e t. asked.Call (call.Go set e t))",
            ),
            (
                WIDE,
                "N",
                [
                    f"CallName::{WIDE.capitalize()} => {{",
                    "    one_number(arguments).map(|n| Asked::Call(Call::Go { n }))", "}",
                ],
                "Number (λ n. asked.Call (call.Go n))",
            ),
        ):
            call = call_of(f"{word},{arguments},Go,code,,goes,,none\n")
            self.assertEqual(
                (event_arms if call.takes_event else eventless_lines)([call]),
                [" " * 8 + line for line in read],
            )
            self.assertEqual((eventless_lines if call.takes_event else event_arms)([call]), [])
            self.assertEqual(form_clauses([call])[0], f"    row name.{word.capitalize()} ({row})")

    def test_a_call_that_is_too_wide_has_a_line_for_each_field(self) -> None:
        arms = eventless_lines([call_of("go,SET COMPONENT,GoToTheComponent,code,,goes,,none\n")])
        self.assertEqual(
            arms[1:-1],
            [
                (
                    "            two_numbers(arguments).map(|(set, comp)| "
                    "Asked::Call(Call::GoToTheComponent {"
                ),
                *(" " * 16 + f"{field}," for field in ("set", "comp")), "            }))",
            ],
        )

    def test_long_refusals_are_cut_between_words(self) -> None:
        words = " ".join(["refused"] * 40)
        lines = rule_lines([call_of(f"go,,Go,code,,goes,,{words}\n")])
        self.assertGreater(len(lines), 4)
        self.assertEqual(eval("{" + "".join(lines[1:-1]) + "}"), {"go": words})

    def test_a_call_that_is_handed_on_has_answers(self) -> None:
        before, after = before_and_after(PROBE, TABLE, (), answer_texts)
        name = f"{FOLDER}/probe_set/Answers.antt"
        self.assertEqual([new for new in some(after) if new not in before], [name])
        kept = "still_whole q.catalog q.codes c.book.result.now q.session c.probe_set.new.self"
        said = "(call.ProbeSet c.args.set) (reply_of (λ value. body.SetNumber value)"
        self.assertIn(f"    {kept} {said} c.probe_set.result) c.book.ensures.book", after[name])

    def test_a_call_that_changes_nothing_keeps_the_session(self) -> None:
        _, after = before_and_after(PROBE.replace("SetNumber", "State"), TABLE, (), answer_texts)
        text = after[f"{FOLDER}/probe_set/Answers.antt"]
        self.assertIn("made_still", text)
        for left_out in ("invariant_of-self", "new.self"):
            self.assertNotIn(left_out, text)

    def test_a_call_with_an_event_or_values_has_no_answers(self) -> None:
        for old, new in (("SET,", "SET EVENT,"), ("SetNumber", "values")):
            before, after = before_and_after(PROBE.replace(old, new), TABLE, (), answer_texts)
            self.assertEqual(after, before)

    def test_a_method_of_a_session_has_answers(self) -> None:
        for arguments, gives, goals, reply in (
            (
                "SET", "SetNumber", "requires self returns",
                "(reply_of (λ value. body.SetNumber value) GIVEN) NEW",
            ),
            ("SET", "code", "requires self returns", "(plain GIVEN) NEW"),
            (
                "SET", "State", "requires returns",
                "(reply_of (λ value. body.State value) GIVEN) refl",
            ),
            (
                "SET", "values", "requires self does kept",
                "(values_reply GIVEN c.probe_set.new.into) NEW",
            ),
            ("SET EVENT", "refusal", "agrees named self does refusal", "(changed_reply GIVEN) NEW"),
        ):
            told = "" if gives in ("code", "refusal") else "a number"
            text = session_text(
                call_of(f"probe,{arguments},ProbeSet,{gives},,probes,{told},none\n")
            )
            stated = re.findall(r"(?m)^pub (?:.*[-_])?(\w+) :", text)
            self.assertEqual(stated, goals.split())
            said = reply.replace("GIVEN", "c.probe_set.result").replace(
                "NEW", "c.probe_set.new.self"
            )
            self.assertIn(f"c.args.set{' c.args.e.now' if 'named' in goals else ''}) {said}", text)

    def test_a_new_call_has_answers_of_its_method(self) -> None:
        for old, new, made in (
            ("SET,", "SET,", [f"{SESSION}/probe_set/Answers.antt"]), ("SetNumber", "Ran", []),
        ):
            before, after = before_and_after(PROBE.replace(old, new), TABLE, (), session_texts)
            self.assertEqual([name for name in after if name not in before], made)

    def test_the_first_of_the_codes_stands_without_its_arm(self) -> None:
        calls = [call_of(line) for line in (PROBE, LINE, LINE.replace("tart", "top"))]
        lines = make_text(calls).splitlines()
        rewritten = "rw (c.in-{0}.is, c.plain{1}.ensures) c.{2}.ensures"
        for variant, arm in (("Start", ""), ("Stop", "-in-Stop")):
            body = rewritten.format(variant, arm, variant.lower())
            self.assertIn(f"returns-in-{variant} c = {body}", lines)
        self.assertEqual(len(lines), 7)
        self.assertIn(MAKE, answer_texts())

    def test_a_bad_line_is_refused_with_its_number(self) -> None:
        for line, what in (
            ("start,SET,Start\n", "not eight fields"),
            (LINE.replace("start,", "Start,"), "bad word"),
            (LINE + LINE.replace("Start,", "Go,"), "bad word"),
            (LINE.replace("SET", "PLACE"), "bad arguments"),
            (LINE.replace("SET", "EVENT SET"), "bad arguments"),
            (LINE.replace("Start", "start_set"), "bad variant"),
            (LINE + LINE.replace("start,", "go,"), "bad variant"),
            (LINE.replace("code", "codes"), "bad gives"),
            (LINE.replace("PAPI_start", "start"), "bad papi"),
            (LINE.replace("begins to count", ""), "bad usage"),
            (LINE.replace(",,ENOEVST", ",a number,ENOEVST"), "bad replies"),
            (PROBE.replace("the number of events", ""), "bad replies"),
            (LINE.replace("ENOEVST", ""), "bad refusals"),
        ):
            with self.assertRaises(Fault) as raised:
                read_calls(HEAD + line)
            self.assertEqual(
                str(raised.exception), f"{TABLE}: line {1 + line.count(chr(10))}: {what}", line
            )
        with self.assertRaisesRegex(Fault, "no call"):
            read_calls(HEAD)

    def test_a_usage_text_without_its_line_is_refused(self) -> None:
        for text in ("", f"{ABOVE_CALLS}\n", f"{ABOVE_CALLS}\n\na\n\n{ABOVE_CALLS}\n\nb\n"):
            with self.assertRaisesRegex(Fault, f"a: not one line that ends: {ABOVE_CALLS}"):
                with_usage("a", text, ["  go"])
        self.assertEqual(
            with_usage("a", f"Go. {ABOVE_CALLS}\n\n  x\n  y\n\nb\n", ["  go"]),
            f"Go. {ABOVE_CALLS}\n\n  go\n\nb\n",
        )
