"""Tests of the check itself: of what it keeps, how it reads edits and the checker's lines, and of ./run."""

import io
import os
import runpy
import shutil
import subprocess
import sys
import tempfile
import threading
import unittest
from pathlib import Path
from unittest import mock

from gate import edits, program, record, steps, tasks, tries, verdicts
from gate.crates import TOP, crates_in, shown_sum, sources_sum, strays
from gate.kept import RECORD, Kept, default_folder
from gate.record import Record
from gate.rooms import Rooms, only_run
from gate.tasks import Done, Task

LIBRARY = "crates/low/out/rlib/low.rlib"
SOURCE = """\
pub fn first(octet: u8) -> u8
    ensures { result ≡ octet }
{
    one(octet)
}

impl Iterator for Header {
    fn next(&mut self) -> Option<u8> {
        Some(self.0)
    }
}

const STEP: u8 = 1;

fn one(
    octet: u8,
) -> u8 {
    octet + STEP
}
"""
LINES = """\
fn low::first: no proof: expected answers in ./proofs/first/Answers.antt; `search` did not prove `returns`
fn low::HeaderIterator::next: not proved; it calls `low::one`, which is not proved
fn low::one: not proved
./proofs/one/Answers.antt:3:4: error: `returns`: the two types differ
logic=not-proved
""".splitlines()
MET = "empty contracts: 0 found; tried 3 of 3 functions\nlogic=proved functions=3\n"
FIRST = edits.Edit("first", "first", (("src/lib.rt", "    one(octet)", "    octet"),))
NEXT = edits.Edit("next", "HeaderIterator::next", (("src/lib.rt", "Some(self.0)", "None"),))
ONE = edits.Edit("one", "one", (("src/lib.rt", "octet + STEP", "octet"),))


class Repository(unittest.TestCase):
    """Each test has a repository of two crates, one above the other, and a folder for kept work."""

    def setUp(self):
        room = tempfile.TemporaryDirectory()
        self.addCleanup(room.cleanup)
        self.top = Path(room.name) / "top"
        self.write("crates.txt", "# crates\nlow: hex\nrtps_listen: low hex\n")
        self.write("crates/low/src/lib.rt", SOURCE)
        self.write("crates/rtps_listen/src/main.rt", "fn main() {}\n")
        self.write("crates/low/out/incremental/a/proof", "a proof")
        self.write(f"{LIBRARY}/lang/lib.rt", "pub fn first() -> u8 ensures { result ≡ 1 } ;\n")
        self.write("HANDLES", "Handles allowed: Threads, Wait, Net.\n")
        self.kept = Kept(Path(room.name) / "kept", "kit 1")
        self.low, self.high = crates_in(self.top)
        self.gate = steps.Gate([self.low, self.high], Rooms(self.top / "rooms"), self.kept, set(), "code 1", Record(self.top, ""))

    def write(self, name, text):
        path = self.top / name
        path.parent.mkdir(parents=True, exist_ok=True)
        path.unlink(missing_ok=True)
        path.write_text(text, encoding="utf-8")

    def test_crates_are_read_lowest_first_and_no_file_is_left_out(self):
        self.assertEqual(("low", "rtps_listen", (self.low,)), (self.low.name, self.high.name, self.high.below))
        self.assertEqual([], strays(self.top, [self.low, self.high]))
        for name in ("crates/low/specs/One.rt", "other.antt", "crates/low/more/One.antt"):
            self.write(name, "")
            self.assertEqual([Path(name)], strays(self.top, [self.low, self.high]))
            (self.top / name).unlink()

    def test_a_proof_hangs_on_what_is_shown_below_and_a_run_on_bodies_too(self):
        totals = lambda: (steps.shown_total(self.gate, self.high), sources_sum(self.high, "kit 1"))
        shown, sources = totals()
        for name in ("format", "toolchain/mir.json", "lang/antt/made.json"):
            self.write(f"{LIBRARY}/{name}", "a body")
        self.gate.rooms.shows.clear()
        self.write("crates/low/src/lib.rt", SOURCE.replace("= 1", "= 2"))
        self.assertEqual((shown, False), (totals()[0], totals()[1] == sources))
        self.write(f"{LIBRARY}/lang/lib.rt", "pub fn first() -> u8 ensures { result ≡ 2 } ;\n")
        self.gate.rooms.shows.clear()
        self.assertNotEqual(shown, totals()[0])
        self.write("crates/low/src/lib.rt", SOURCE)
        self.write("crates/low/src/tests/one.rt", "a test")
        self.assertEqual((sources, False), (totals()[1], sources == sources_sum(self.high, "kit 2")))
        for has_tests in (False, True):
            with self.gate.rooms.room(self.low, has_tests=has_tests) as inside:
                self.assertEqual(has_tests, (inside.folder / "src/tests").is_dir())
        shutil.rmtree(self.low.out)
        self.assertRaises(FileNotFoundError, shown_sum, self.low)

    def test_kept_work_is_taken_where_it_is_whole_and_of_this_toolchain(self):
        self.kept.keep(self.low)
        self.assertEqual([], self.kept.take_all([self.low]))
        file = self.kept.folder / "low/out/incremental/a/proof"
        for spoil in (None, lambda: file.unlink(), lambda: file.write_text("another"), lambda: shutil.rmtree(file.parents[2])):
            self.write("crates/low/out/incremental/a/proof", "a proof")
            self.assertEqual(["low"], self.kept.keep_all([self.low, self.high]))
            shutil.rmtree(self.low.out)
            self.assertFalse(Kept(self.kept.folder, "kit 2").take(self.low))
            if spoil:
                spoil()
            self.assertEqual(not spoil, self.kept.take(self.low))

    def test_a_task_that_passed_is_done_again_where_anything_changed_or_the_record_is_cut(self):
        calls = []
        call = lambda: calls.append("call") or Done(3)
        for total, is_there, count in (("a", True, 1), ("a", True, 1), ("b", True, 2), ("b", False, 3)):
            self.assertEqual(3, steps.once(self.gate, "rows", lambda: total, call, is_there).passed)
            self.assertEqual(count, len(calls))
        record = self.kept.folder / RECORD
        for text in (record.read_text()[:9], "[]", '{"rows": 1}'):
            record.write_text(text)
            self.assertEqual(0, self.kept.passed("rows", "b"))
        steps.once(self.gate, "rows", lambda: "c", lambda: steps.failure("rows", "why"))
        self.assertEqual(0, self.kept.passed("rows", "c"))

    def test_a_crate_that_is_known_and_built_is_neither_proved_nor_built_again(self):
        calls = []
        with mock.patch.object(steps, "run", lambda words, folder: calls.append(words[1]) or tasks.Ran(0, MET, 1.0)):
            spoils = (lambda: None, lambda: None, lambda: self.write(f"{LIBRARY}/format", "another"),
                      lambda: self.write("crates/low/src/lib.rt", "// another"), lambda: setattr(self.gate, "code", "code 2"))
            for spoil, is_done in zip(spoils, (True, False, True, True, True)):
                spoil(), calls.clear()
                self.assertEqual(({}, ["lib"] * is_done), (steps.prove(self.gate, self.low, 1).failed, calls))
            calls.clear()
            steps.prove(self.gate, self.high, 1), steps.prove(self.gate, self.high, 1)
            self.assertEqual(["check"], calls)
        for text, crate in (("logic=proved hides=1", self.low), ("", self.high)):
            self.write("crates/low/src/lib.rt", "// a third")
            self.gate.rooms.shows.clear()
            self.write(f"{LIBRARY}/lang/lib.rt", "pub fn another() ;\n")
            with mock.patch.object(steps, "run", lambda words, folder, text=text: tasks.Ran(0, text, 1.0)):
                self.assertIn(crate.name, steps.prove(self.gate, crate, 1).failed)

    def test_edits_and_contracts_hold_by_the_record_of_a_commit_and_by_no_other(self):
        git = lambda *words: subprocess.run(["git", "-c", "user.name=x", "-c", "user.email=x@x", *words], cwd=self.top, check=True, capture_output=True)
        self.write("crates/low/must-fail/one.edit", "# by: one\nfile: src/lib.rt\nold: octet + STEP\nnew: octet\n")
        calls, said = [], tasks.Ran(1, "\n".join(LINES), 1.0)
        runs = lambda words, folder: calls.append(words) or (tasks.Ran(0, MET, 1.0) if "--empty-contracts" in words else said)

        def tried(revision, is_sampled=False, toolchain="kit 1"):
            """How many checks were made with the record of a commit by a machine that kept nothing, and how much passed and was taken."""
            calls.clear()
            kept = Kept(Path(tempfile.mkdtemp(dir=self.top.parent)), toolchain)
            gate = steps.Gate([self.low], self.gate.rooms, kept, set(), "code 1", Record(self.top, revision))
            with mock.patch.object(record, "ONE_IN", 1 if is_sampled else 1 << 40), mock.patch.object(steps, "run", runs):
                passed = steps.meet(gate, self.low, 1).passed + steps.try_edits(gate, self.low, steps.MUST_FAIL, 1).passed
            gate.record.write([self.low])
            return len(calls), passed, sum(gate.record.taken.values())

        self.write("gate/other", "")
        git("init", "-q"), git("add", "HANDLES"), git("commit", "-qm", "first")
        self.assertEqual((2, 2, 0), tried("HEAD"))
        # A line that isn't committed yet says nothing.
        self.assertEqual((2, 2, 0), tried("HEAD"))
        git("add", record.FILE), git("commit", "-qm", "second")
        self.assertEqual([(0, 0, 2), (2, 2, 0), (2, 2, 0), (2, 2, 0), (2, 2, 0)],
                         [tried("HEAD"), tried("HEAD~"), tried(""), tried("HEAD", is_sampled=True), tried("HEAD", toolchain="kit 2")])
        self.write("crates/low/must-fail/note.txt", "a file that is no edit has them tried, and fails")
        self.assertEqual((1, 1, 1), tried("HEAD"))
        (self.top / "crates/low/must-fail/note.txt").unlink()
        self.write("crates/low/must-fail/one.edit", "# by: one\nfile: src/lib.rt\nold: octet + STEP\nnew: STEP\n")
        self.assertEqual((1, 1, 1), tried("HEAD"))
        said = tasks.Ran(0, "fn low::one: proved", 1.0)
        self.write("crates/low/must-fail/one.edit", "# by: one\nfile: src/lib.rt\nold: octet + STEP\nnew: octet + 1\n")
        self.assertEqual((1, 0, 1), tried("HEAD"))
        for text, count in ((SOURCE, 1), ("// another", 0)):
            self.write("crates/low/src/lib.rt", text)
            self.assertIn(f"{count} of 1 crates", record.proved_before(self.top, [self.low], "kit 1"))

    def test_a_try_is_called_as_rt_calls_it_or_by_rt(self):
        words = tries.try_words(self.high, "9", "no input", ["--test"], ["a word"])
        libraries = [word.rpartition("=")[0] for flag, word in zip(words, words[1:]) if flag == "--lib"]
        self.assertEqual((["low:core,std,hex"], True), (libraries[:1], {"hex:std", "core:"} <= set(libraries)))
        self.assertEqual(("--test", "src/main.rt"), tuple(words[words.index("--test") :][:2]))
        with mock.patch.object(tries, "USAGE", "another"):
            tries.is_known.cache_clear()
            self.assertEqual(["rt", "try", "--seconds", "9", "--test", "--", "a word"], tries.try_words(self.high, "9", "", ["--test"], ["a word"]))
        tries.is_known.cache_clear()
        for text, status in (("x\nrun=ended status=3 runners=1 proved=no\n", 3), ("run=none proved=no\n", None)):
            self.assertEqual(status, tries.ended_with(text))

    def test_rows_by_one_build_are_compared_each_by_its_text_and_its_status(self):
        with mock.patch.object(sys, "path", [str(TOP / "conformance"), *sys.path]):
            script = runpy.run_path(str(TOP / "conformance/run.py"))
        for name, text in (("args", "dump\n-\n"), ("input.hex", "52 # R\n"), ("stdout", "a line\n"), ("status", "3\n")):
            self.write(f"rows/group/one/{name}", text)
        line = "case=group.one run=ended status={} races=unchecked output={} proved=no"
        script["run_cases"].__globals__["HERE"] = self.top / "rows"
        for status, output, counts in ((3, "expected", (1, 0)), (0, "expected", (0, 1)), (3, "differs", (0, 1)), (33, "expected", (0, 1))):
            says = f'[ "$(cat "$0/group.one.stdout" "$0/group.one.args")" = "$(printf "a line\ndump\n-")" ] && echo "{line.format(status, output)}" >&2'
            with mock.patch("builtins.print"):
                self.assertEqual(counts, script["run_cases"](["sh", "-c", says, "{cases}"]))

    def test_tests_are_proved_again_where_they_change(self):
        calls, says = [], lambda text: lambda words, folder: calls.append(words[4]) or tasks.Ran(0, text, 1.0)
        for text, says_so, passed, count in (("one", "only=3 proved=4", 3, 1), ("one", "", 3, 1), ("two", "only=0 proved=0", 0, 2),
                                             ("two", "only=2 proved=2", 2, 3)):
            self.write("crates/low/src/tests.rt", f"#[test]\nfn {text}() {{}}\n")
            with mock.patch.object(steps, "run", says(says_so)):
                work = [*steps.test_proof_tasks(self.gate, [self.low, self.high])]
                self.assertEqual(["low: proof of tests"], [task.name for task in work])
                done = work[0].call(1)
                self.assertEqual((passed, not passed, ["low::tests"] * count), (done.passed, bool(done.failed), calls))

    def test_where_nothing_can_be_written_nothing_is_kept_there(self):
        with mock.patch.dict("os.environ", {"CHECK_KEPT": str(self.top / "HANDLES" / "kept")}):
            folder = default_folder()
        self.addCleanup(folder.rmdir)
        self.assertEqual([], list(folder.iterdir()))

    def test_a_room_is_a_copy_and_runs_wait_for_each_other(self):
        with self.gate.rooms.room(self.high, {"src/main.rt": "fn main() { }\n"}) as inside:
            self.assertEqual("fn main() { }\n", (inside.folder / "src/main.rt").read_text())
            self.assertEqual(["rlib"], os.listdir(inside.below[0].out))
        self.assertEqual([], list(self.gate.rooms.folder.iterdir()))
        said, other = [], lambda: only_run(self.top, said.append).__enter__()
        with only_run(self.top, said.append):
            waiting = threading.Thread(target=other, daemon=True)
            waiting.start()
            waiting.join(0.2)
            self.assertEqual((["waiting until another run in this repository has ended"], True), (said, waiting.is_alive()))
        waiting.join()

    def test_edits_that_cannot_be_applied_or_name_no_function_are_bad(self):
        good = "# by: one\nfile: src/lib.rt\nold: octet + STEP\nnew: octet\n"
        bad = (good[10:], good.replace("octet + STEP", "nowhere"), good.replace("octet + STEP", "octet"), good[:36])
        for at, text in enumerate((good, *bad, good.replace("src/", "../src/"))):
            self.write(f"crates/low/must-fail/edit{at}.edit", text)
        found, faults = steps.read_edits(self.low, ("must-fail",))
        self.assertEqual((["edit0"], 5), ([edit.name for edit in found], len(faults)))

    def test_edits_of_bodies_with_different_functions_share_a_check(self):
        again = edits.Edit("again", "one", (("src/lib.rt", "octet + STEP", "STEP"),))
        first = edits.Edit("makes", "first", (("src/lib.rt", "    one(octet)", "    Some(self.0)"),))
        alone = [edits.Edit("x", "one", (pair,)) for pair in (("src/lib.rt", "u8 = 1", "u8 = 2"), ("src/lib.rt", "≡ octet", "≡ 1"))]
        named = edits.Edit("named", "first", ONE.pairs)
        for given, groups in (([FIRST, NEXT, ONE, again], [[FIRST, NEXT, ONE], [again]]), ([first, NEXT], [[first], [NEXT]]),
                              ([*alone, FIRST, named], [[FIRST], *[[edit] for edit in alone], [named]])):
            self.assertEqual(groups, edits.groups_of(given, self.low.folder))

    def test_an_edit_is_refused_by_a_goal_of_its_own_function_alone(self):
        fault = lambda name, text: f"./proofs/{name}/Answers.antt:3:4: error: {text}"
        waits, path = "fn low::one: not proved; it calls `low::first`, which is not proved", "src/lib.rt:8:9: error"
        meaning = edits.Edit("meaning", "one", (("specs/One.antt", "1", "2"),))
        law = [LINES[2], fault("one", "1 declaration that depends on `is_one`, which was not admitted, was not checked: returns")]
        lemma = "./proofs/Ones.antt:3:4: error: `is_one`: the two types differ"
        for edit, lines, is_refused in (
            (FIRST, LINES, True), (ONE, LINES, True), (NEXT, LINES, False), (ONE, LINES[:3], False), (ONE, [], False),
            (ONE, [LINES[2], fault("one", "`returns`: `octet` is not in scope")], False),
            (ONE, [LINES[2], fault("one", "`returns`: the record `Answers` (nearest: `one`)"), "  has no field `octet`"], False),
            (ONE, [LINES[2], fault("first", "`returns`: the two types differ")], False),
            (ONE, [waits, fault("one", "`returns`: the two types differ")], True), (ONE, [waits], False),
            (ONE, [waits.replace("not proved;", "no proof: `search` did not prove `returns`;", 1)], True),
            (ONE, [f"{path}[unknown-name]: cannot find value", *LINES], False),
            (ONE, ["specs/One.antt:3:4: error: `one` is not in scope", *LINES], False), (ONE, ["fn low::one: proved"], False),
            (meaning, [*law, lemma], True), (meaning, law, False), (ONE, [*law, lemma], False),
            (meaning, [*law, lemma.replace("the two types differ", "`one` is not in scope")], False),
        ):
            self.assertEqual(is_refused, edits.judge(edit, "low", lines) is None, (edit.name, lines))

    def test_edits_that_wait_for_others_are_tried_together_again(self):
        for edit in (FIRST, NEXT, ONE):
            file, old, new = edit.pairs[0]
            self.write(f"crates/low/must-fail/{edit.name}.edit", f"# by: {edit.by}\nfile: {file}\nold: {old}\nnew: {new}\n")
        last = ["fn low::HeaderIterator::next: no proof: `search` did not prove `returns`"]
        said = lambda words, folder: tasks.Ran(1, "\n".join(LINES if "low::one" in words else last), 1.0)
        with mock.patch.object(steps, "run", said):
            self.assertEqual((3, "3 refused, 0 of them before; 2 checks"), (lambda it: (it.passed, it.says))(steps.try_edits(self.gate, self.low, ("must-fail",), 1)))

    def test_an_edit_that_is_let_through_fails_alone_and_among_others(self):
        for edit in (FIRST, ONE):
            file, old, new = edit.pairs[0]
            self.write(f"crates/low/must-fail/{edit.name}.edit", f"# by: {edit.by}\nfile: {file}\nold: {old}\nnew: {new}\n")
        said = lambda words, folder: tasks.Ran(1, "\n".join(LINES[2:] if "low::one" in words else ["fn low::first: proved"]), 1.0)
        with mock.patch.object(steps, "run", said):
            done = steps.try_edits(self.gate, self.low, ("must-fail",), 1)
            self.assertEqual((1, ["low/first"]), (done.passed, [*done.failed]))
            self.assertIn("1 of them before", steps.try_edits(self.gate, self.low, ("must-fail",), 1).says)

    def test_a_verdict_has_only_words_that_are_allowed_and_each_contract_can_be_met(self):
        for text in ("", "logic=proved hides=1", "rt: warning: a tactic\nlogic=proved functions=3", "logic=proved main=Threads"):
            self.assertTrue(verdicts.beyond(text, set()))
        self.assertFalse(verdicts.beyond("logic=proved may-wait=1 main=Threads", {"Threads", "Wait"}))
        for numbers in ((0, 3, 3), (1, 3, 3), (0, 2, 3)):
            text = "empty contracts: {} found; tried {} of {} functions".format(*numbers)
            self.assertEqual(numbers == (0, 3, 3), not verdicts.unmet(text))
        self.assertTrue(verdicts.unmet("logic=proved functions=3"))

    def test_a_command_passes_by_its_status_and_its_line(self):
        for words, is_passed in (("echo 2 passed", True), ("echo none", False), ("sh -c 'echo 2 passed; exit 1'", False)):
            done = steps.passes("rows", ["sh", "-c", words], self.top, r"^(\d+) passed")
            self.assertEqual((2, {}) if is_passed else (0, done.failed), (done.passed, done.failed))
            self.assertEqual(is_passed, not done.failed)

    def test_tasks_wait_for_those_that_they_name_and_fail_alone(self):
        order = []
        first = Task("first", lambda jobs: order.append("first") or Done(1))
        then = Task("then", lambda jobs: order.append("then") or Done(1), ("first",), 100)
        self.assertEqual((2, {}, []), tasks.run_all([then, first], str, 2))
        self.assertEqual(["first", "then"], order)
        broken = Task("first", lambda jobs: 1 // 0)
        passed, failed, untried = tasks.run_all([broken, then, Task("other", lambda jobs: Done(1))], str, 2)
        self.assertEqual((1, ["first"], ["then"]), (passed, [*failed], untried))
        self.assertEqual((0, {}, ["then"]), tasks.run_all([then], str, 2))

    def test_run_proves_and_builds_by_tasks_in_their_order(self):
        for fails in (False, True):
            said, order = [], []
            done = lambda name: order.append(name) or (steps.failure(name, "why") if fails else Done(1))
            work = mock.Mock(build=lambda gate, crate, jobs, backends: done(crate.name))
            work.proof_tasks = lambda gate, crates: [Task(it.name, lambda jobs, it=it: done(it.name)) for it in crates]
            is_built = program.prove_and_build(self.top, "kit 1", self.kept.folder, said.append, work)
            self.assertEqual((not fails, ["low"] if fails else ["low", "rtps_listen"]), (is_built, order))

    def test_an_unproved_answer_gets_its_words_files_and_stream(self):
        said, calls, stream = [], [], io.BytesIO(b"RDG1")
        self.write("a capture", "RDG1")
        file = str(self.top / "a capture")
        ran = lambda words, folder, stdin, is_shown: calls.append((words, stdin.read())) or tasks.Ran(0, "bad\nrun=ended status=3 proved=no\n", 1.0)
        with mock.patch.object(tasks, "run", ran):
            self.assertEqual(3, program.answer_unproved(self.high, ["replay", file, "-"], said.append, stream))
            self.assertEqual((b"RDG1", "bad"), (calls[0][1], said[-1]))
            words = " ".join(calls[0][0])
            self.assertTrue(f"--data input0={file}" in words and "--arg replay --arg input0 --arg -" in words, words)
            self.write("a capture", "x" * (program.MOST_INPUT + 1))
            self.assertEqual(2, program.answer_unproved(self.high, ["replay", file], said.append))
        self.assertEqual((1, True, True), (len(calls), "not proved" in said[0], "--prove" in said[-1]))

    def test_what_is_shown_first_is_by_one_build_or_by_the_program(self):
        shown, text = [], "== 0\na line\n== 1\n== 2\nlast\ncase=0 run=ended\ncases=3\n"
        with mock.patch.object(tasks, "run", lambda *given: tasks.Ran(0, text, 1.0)):
            self.assertEqual(0, program.show_unproved(self.high, str, shown.append))
        self.assertEqual([f"$ ./run {words}\n{said}" for (_, words), said in zip(program.SHOWN, ("a line\n", "", "last\n"))], shown)
        self.assertEqual(1, program.show_proved("false", str))

    def test_a_file_that_is_not_laid_out_is_named(self):
        for text in ("fn main() {}\n", "fn  main( ) {}\n"):
            self.write("crates/rtps_listen/src/main.rt", text)
            done = steps.layout(steps.Gate([self.high], None, self.kept, set(), "", None))
            self.assertEqual(text == "fn main() {}\n", "main.rt is not in the layout" not in done.failed.get("layout", ""))
        self.assertTrue(all((TOP / name).is_file() for name in ("check", "run")))


if __name__ == "__main__":
    unittest.main()
