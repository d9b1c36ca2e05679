"""checks/edits: which edits of a small crate are refused, and for what, beside `rt must-fail`."""

from __future__ import annotations

import re
import shutil
import signal
import subprocess
import tempfile
import unittest
from pathlib import Path
from types import SimpleNamespace

from edit_kit import class_of, rt
from edit_rounds import Edit, Round, alone, judge, plan, read
from edit_running import checked
from edit_source import Function, functions_of
from tests.support import ROOT, InFolder

CODE = """//! Numbers.

#![tactic(auto)]

ghost use Rattle.std.specs.Prelude.{◌≡◌, ◌≤◌, nat_lt};

const MOST: u32 = 10;

/// The lesser of two numbers.
pub fn least(a: u32, b: u32) -> u32
    ensures first { result ≤ a }
    ensures second { result ≤ b }
{
    if a < b {
        return a;
    }
    b
}

/// A number that neither the first of three nor the third is below.
pub fn least_of_three(a: u32, b: u32, c: u32) -> u32
    ensures first { result ≤ a }
    ensures third { result ≤ c }
{
    let lesser = least(a, b);
    least(lesser, c)
}

/// Whether a number is below ten.
pub fn is_few(n: u32) -> bool
    ensures { result ≡ nat_lt n 10 }
{
    n < MOST
}

/// A number that the second of two is not below.
pub fn lower(a: u32, b: u32) -> u32
    ensures { result ≤ b }
{
    least(a, b)
}
"""
ANSWERS = """use Rattle.tiny.proofs.lower.Goals as goal

pub returns : goal.returns
returns c = c.least.ensures.second
"""
# What each edit changes, and what rt makes of it. What is said to be the third as the first means
# the same as before, and calls what another edit changes.
TAKEN = "refused, as it must be (only because a proof file names"
EDITS = {
    "greater_of_two": ("        return a;", "        return b;", "refused"),
    "third_is_first": ("    least(lesser, c)", "    least(c, lesser)", "NOT REFUSED"),
    "name_is_gone": ("    least(a, b)", "    if a < b { a } else { b }", TAKEN),
    "ten_is_few": ("const MOST: u32 = 10;", "const MOST: u32 = 11;", "refused"),
    "no_such_text": ("    most(a, b)", "    least(a, b)", "BAD EDIT"),
    "no_such_words": ("    n < MOST", "    n < MOST +", "BAD EDIT"),
}
BY_RT = ("greater_of_two", "third_is_first", "name_is_gone")
RATTLE = Path(shutil.which("rt") or "/").resolve().parent / "rattle"
needs_rt = unittest.skipUnless(shutil.which("rt"), "rt is not installed")


class Crate(InFolder):
    """A folder with a small crate of its own."""

    def setUp(self) -> None:
        super().setUp()
        self.crate = self.folder / "crates/tiny"
        for name in ("src", "proofs/lower", "edits", "must-fail"):
            (self.crate / name).mkdir(parents=True)
        (self.folder / ".git").mkdir()
        self.write("crates.txt", "tiny:\n")
        self.write("crates/tiny/src/lib.rt", CODE)
        self.write("crates/tiny/proofs/lower/Answers.antt", ANSWERS)

    def edit(self, folder: str, name: str) -> Path:
        old, new, _ = EDITS[name]
        text = f"file: src/lib.rt\nold: {old}\nnew: {new}\n"
        return Path(self.write(f"crates/tiny/{folder}/{name}.edit", text))


RECURSIONS = """fn down(n: u32) -> u32 {
    if n == 0 { 0 } else { down(n - 1) }
}
impl P {
    fn of(n: u32) -> u32 {
        Self::of(n)
    }
    fn len(&self) -> usize {
        self.list.len()
    }
    fn new() -> P {
        Q::new()
    }
}
struct P;
"""


@needs_rt
class Tried(Crate):
    def tried(self, *words: str) -> subprocess.CompletedProcess[str]:
        command = [str(ROOT / "checks/edits"), "--in", str(self.folder), *words]
        return subprocess.run(command, capture_output=True, text=True)

    def test_an_edit_of_each_class(self) -> None:
        for name in EDITS:
            self.edit("edits", name)
        for name in BY_RT:
            self.edit("must-fail", name)
        ran = self.tried("--anew")
        ended = ran.stdout.splitlines()[-1], ran.returncode, ran.stderr
        self.assertEqual(ended, ("3 passed, 3 failed", 1, ""))
        for name, (_, _, said) in EDITS.items():
            shown = re.findall(rf"^edits: tiny/{name}\.edit: (.*)", ran.stdout, re.M)
            known = [each.startswith(said) for each in shown]
            self.assertEqual(known, [] if said == "refused" else [True], f"{name}: {shown}")
        by_rt = ["rt", "must-fail"]
        told = subprocess.run(by_rt, cwd=self.folder, capture_output=True, text=True).stdout
        for name in BY_RT:
            self.assertIn(f"must-fail tiny/{name}.edit: {EDITS[name][2]}", told)

    def test_what_was_found_is_kept_until_something_changes(self) -> None:
        self.edit("edits", "no_such_words")
        self.write("crates/tiny/src/lib.rt", CODE.replace("Numbers", str(self.folder)))
        self.assertNotIn("by an earlier run", self.tried().stdout)
        again = self.tried().stdout
        self.assertIn("1 of 1 was tried by an earlier run", again)
        self.assertEqual(again.splitlines()[-1], "0 passed, 1 failed")
        self.write("crates/tiny/src/lib.rt", CODE.replace("Numbers", f"{self.folder} too"))
        self.assertNotIn("by an earlier run", self.tried().stdout)

    def test_a_limit_of_the_prover_is_no_refusal(self) -> None:
        crate = SimpleNamespace(name="tiny", folder=str(self.crate))
        limit = "antt ran out of the steps that the check of one declaration may take"
        said = f"src/lib.rt:10:1: error: {limit}\nrattle: no verdict\n"
        check = subprocess.CompletedProcess([], 3, said)
        kind, said = class_of(crate, self.edit("edits", "greater_of_two"), check)
        self.assertEqual(kind, rt().UNSURE)
        self.assertRegex(said, "^tiny/greater_of_two.edit: NOT TRIED: the prover met a limit")

    def test_what_cannot_be_tried(self) -> None:
        for word, said in (("huge", "crates.txt has no crate huge"), ("--jobs=-1", "above 0")):
            ran = self.tried(word)
            self.assertEqual((ran.returncode, ran.stdout), (2, ""))
            self.assertIn(said, ran.stderr)

    def test_a_library_that_is_not_built(self) -> None:
        self.edit("edits", "greater_of_two")
        self.write("crates.txt", "low:\ntiny: low\n")
        (self.folder / "crates/low/src").mkdir(parents=True)
        self.write("crates/low/src/lib.rt", f"//! {self.folder}\n")
        ran = self.tried()
        self.assertEqual((ran.returncode, ran.stdout), (2, ""))
        self.assertIn("edits: the library low is not built of the text that is there", ran.stderr)


IMPLS = """impl<'a, T: Ord> Pair<'a, T> {
    fn f(&self) {
    }
}
impl<C: Fn(u8) -> u8> From<io::Error<u8>> for crate::Fault<C, Text> {
    fn from() {
    }
}
impl Drop for Handle {
    fn drop(&mut self) {
    }
}
mod apart {
    impl Pair<'_, Text> {
        fn g() {
        }
    }
    impl Handle {
        fn close(&mut self) {
        }
    }
}
struct Handle(u8);
struct Pair<'a, T>(&'a T);
"""
AT_TOP = ["Pair::f", "FaultTextFromError::from", "Handle::drop"]
NAMES = [*AT_TOP, "apart::Pair+Text::g", "Handle::close"]
BRACES = """mod a {
    const fn f() -> char
        ensures { (λ x. x) 1 ≡ 1 }
    {
        // }
        g("}", '}')
    }
}

#[cycle(both)]
fn h() {
}
"""


@needs_rt
class Functions(Crate):
    def functions(self, code: str) -> list[Function]:
        self.write("crates/tiny/src/lib.rt", code)
        return functions_of(str(RATTLE), "tiny", self.crate)

    def test_each_has_its_name_and_the_lines_of_its_body(self) -> None:
        found = {each.name: (each.begin, each.first, each.last) for each in self.functions(CODE)}
        least = {"tiny::least": (10, 14, 17), "tiny::least_of_three": (21, 25, 26)}
        others = {"tiny::is_few": (30, 33, 33), "tiny::lower": (37, 40, 40)}
        self.assertEqual(found, {**least, **others})

    def test_those_of_impls_have_the_names_of_type_and_trait(self) -> None:
        found = [each.name for each in self.functions(IMPLS)]
        self.assertEqual(found, [f"tiny::{name}" for name in NAMES])

    def test_braces_in_texts_and_clauses_are_none(self) -> None:
        f, h = self.functions(BRACES)
        self.assertEqual((f.name, f.first, f.last, f.is_const), ("tiny::a::f", 5, 6, True))
        self.assertEqual((h.name, h.begin, h.first, h.last), ("tiny::h", 10, 12, 11))
        self.assertEqual((f.together, h.together), ("tiny::a::f", "cycle both"))


    def test_one_that_calls_itself_is_a_cycle_of_its_own(self) -> None:
        found = {each.name[6:]: bool(each.cycle) for each in self.functions(RECURSIONS)}
        self.assertEqual(found, {"down": True, "P::of": True, "P::len": False, "P::new": False})


def function(name: str, first: int, last: int, **more: bool) -> Function:
    return Function(f"tiny::{name}", "src/lib.rt", first, first, last, **more)


TEXTS = {"src/lib.rt": "one\ntwo\nthree\nfour\nfive\n"}
FUNCTIONS = [function("f", 1, 2), function("g", 3, 3), function("h", 4, 4, is_const=True)]


class Texts(InFolder):
    def edit(self, *pairs: tuple[str, str]) -> Edit:
        text = "file: src/lib.rt\n" + "".join(f"old: {old}\nnew: {new}\n" for old, new in pairs)
        return read(Path(self.write(f"{pairs[0][0]}.edit", text)), TEXTS, FUNCTIONS)


class Rounds(Texts):
    def test_one_edit_a_function_and_round(self) -> None:
        f, again, g = self.edit(("one", "1")), self.edit(("two", "2")), self.edit(("three", "3"))
        rounds = plan(None, [f, again, g], TEXTS)
        self.assertEqual([each.edits for each in rounds], [[f, g], [again]])
        self.assertEqual(rounds[0].texts, {"src/lib.rt": "1\ntwo\n3\nfour\nfive\n"})
        self.assertEqual(rounds[0].flags(), ["--only", "tiny::f", "--only", "tiny::g"])

    def test_proofs_of_functions_that_no_edit_changes_are_taken_at_their_word(self) -> None:
        more = [function("f::fn::any", 2, 2), function("k", 9, 9, cycle="cycle both")]
        edit, functions = self.edit(("one", "1")), [*FUNCTIONS, *more]
        [turn] = plan(SimpleNamespace(name="tiny"), [edit], TEXTS, functions)
        self.assertEqual([each.function for each in turn.stand_ins()], ["tiny::g"])
        self.assertEqual(turn.flags(), ["--allow-holes", "--only", "tiny::f"])
        (self.folder / "proofs/g").mkdir(parents=True)
        own = Path(self.write("proofs/g/Answers.antt", "what g has of its own"))
        next(turn.stand_ins()).put(self.folder)
        self.assertFalse(own.exists())
        stands = (self.folder / "proofs/g/Proof.antt").read_text(encoding="utf-8")
        self.assertIn("use Rattle.tiny.proofs.g.Statement.{statement}", stands)
        self.assertTrue(stands.endswith("\ng_spec = ?\n"))
        self.assertEqual(list(alone(turn.crate, edit, TEXTS).stand_ins()), [])

    def test_edits_that_others_may_rest_on_go_alone(self) -> None:
        const, outside = self.edit(("four", "4")), self.edit(("five", "5"))
        both = self.edit(("one", "1"), ("three", "3"))
        first, *lone = plan(None, [const, self.edit(("two", "2")), outside, both], TEXTS)
        self.assertEqual([each.edits for each in lone], [[const], [outside], [both]])
        self.assertEqual([each.is_whole for each in (first, *lone)], [False, False, True, False])
        self.assertEqual(lone[1].flags(), [])

    def test_a_text_that_another_edit_doubles_waits(self) -> None:
        rounds = plan(None, [self.edit(("one", "three")), self.edit(("three", "3"))], TEXTS)
        self.assertEqual([len(each.edits) for each in rounds], [1, 1])


OWN = "note: src/lib.rt:1:1: it is not proved that what the function ensures holds"
OPEN = "no proof: expected answers in ./proofs/f/Answers.antt; `search` did not prove `returns`"
REFUSED = f"fn tiny::f: {OPEN}"
CLOSURE = f"fn tiny::fn::f::any+FnMut::call_mut: {OPEN}"
BY_CLOSURE = "fn tiny::f: no proof: it calls `tiny::fn::f::any`, which is not proved"
BEHIND = "fn tiny::g: no proof: it calls `tiny::f`, which is not proved"
BOTH = "fn tiny::g: not proved; it calls `tiny::f`, which is not proved"
ERROR = "./proofs/g/Answers.antt:3:1: error: "
WRONG = f"{ERROR}`returns`: expected type `1`, but this has type `3`"
RESTS = f"{ERROR}1 declaration that depends on `met`, which was rejected, was not checked: returns"


@needs_rt
class Judged(Texts):
    """What the output of a check says of each edit."""

    def judged(self, *lines: str, status: int = 1) -> tuple[list[str], list[str]]:
        turn = Round(SimpleNamespace(name="tiny"), [], TEXTS)
        for edit in (self.edit(("one", "1")), self.edit(("three", "3"))):
            self.assertTrue(turn.takes(edit))
        seen, guilty = judge(turn, subprocess.CompletedProcess([], status, "\n".join(lines)))
        return [edit.path.stem for edit in seen], [edit.path.stem for edit in guilty]

    def test_for_its_own_sake(self) -> None:
        only = "only=2 proved=0"
        self.assertEqual(self.judged(OWN, REFUSED, BEHIND, only), (["one"], []))
        self.assertEqual(self.judged(OWN, REFUSED, WRONG, BOTH, only), (["one", "three"], []))

    def test_a_hole_in_another_function_changes_nothing(self) -> None:
        hole = "fn tiny::k: depends on a hole in `Rattle.tiny.proofs.k.Proof.k_spec`"
        rests = "fn tiny::g: depends on a hole in `Rattle.tiny.proofs.k.Proof.k_spec`"
        found = self.judged(OWN, REFUSED, hole, rests, "only=3 holes=2")
        self.assertEqual(found, (["one"], []))

    def test_a_closure_is_of_its_function(self) -> None:
        only, other = "only=2 proved=0", CLOSURE.replace("::f:", "::ff:")
        self.assertEqual(self.judged(OWN, CLOSURE, BY_CLOSURE, only), (["one"], []))
        self.assertEqual(self.judged(OWN, other, only), ([], []))

    def test_what_rests_on_another_is_not(self) -> None:
        self.assertEqual(self.judged(OWN, REFUSED, RESTS, BOTH, "only=2 proved=0"), (["one"], []))

    def test_a_check_that_came_to_no_end_shows_nothing(self) -> None:
        none: tuple[list[str], list[str]] = ([], ["one", "three"])
        self.assertEqual(self.judged(OWN, REFUSED, BEHIND, "logic=not-proved"), none)
        self.assertEqual(self.judged(OWN, REFUSED, "only=2 proved=1", status=3), none)
        self.assertEqual(self.judged("", status=-9), none)

    def test_a_text_that_cannot_be_read_is_told_from_the_others(self) -> None:
        syntax = "src/lib.rt:3:1: error[unexpected-token]: expected expression"
        self.assertEqual(self.judged(syntax), ([], ["three"]))
        scope = "src/lib.rt:1:1: error: `x` is not in scope"
        self.assertEqual(self.judged(scope, OWN, REFUSED, "only=2 proved=1"), ([], ["one"]))


@needs_rt
class Bounded(unittest.TestCase):
    def ended(self, *words: str, limit: float) -> tuple[int, bool]:
        rt().rtlib.guarded()
        with tempfile.TemporaryFile() as said:
            status, _, is_late = checked([*words], "/", said, limit)
        return status, is_late

    def test_a_check_that_does_not_end_is_killed(self) -> None:
        for words in (("sh", "-c", "while :; do :; done"), ("sleep", "60")):
            self.assertEqual(self.ended(*words, limit=0.2), (-signal.SIGKILL, True))
        self.assertEqual(self.ended("sh", "-c", "exit 3", limit=60), (3, False))


if __name__ == "__main__":
    unittest.main()
