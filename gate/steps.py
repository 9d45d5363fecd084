"""What is done for each crate: its proof, its tests, its edits, and where it is a program, its runs."""

import os
import re
import shutil
import subprocess
import sys
import tempfile
from dataclasses import dataclass
from functools import partial
from pathlib import Path

from gate import edits as editing
from gate import tries, verdicts
from gate.crates import TOP, joined_sum, sources_sum, strays, sum_of, tree_sum
from gate.rooms import BESIDE
from gate.tasks import Done, Task, run

LISTENER = "rtps_listen"
"""The program of the conformance rows, and of ./run."""
FIRST_PROGRAM = "rtps_dump"
"""The program of few crates, which is there first, and answers two of the commands."""
SCRIPTS = (
    (LISTENER, "conformance rows", "run.py"),
    (LISTENER, "files by many cuts", "cuts.py"),
    (LISTENER, "a peer on loopback", "live.py"),
    (LISTENER, "datagrams cut at each octet", "truncated.py"),
    (LISTENER, "memory that is refused", "starved.py"),
    (LISTENER, "files and pipes that fail", "failing.py"),
    (LISTENER, "random octets", "fuzzed.py"),
    (LISTENER, "floods", "floods.py"),
    (FIRST_PROGRAM, "conformance rows of two commands", "run.py"),
)
"""What is run on a program: its name, and its file in conformance/."""
TEST_SECONDS = "300"
"""How long the tests of a crate may run once they are built."""
ROW_SECONDS = "120"
"""How long a row may run."""
MUST_FAIL = ("must-fail",)
"""The folders of edits that every check tries."""
FIRST = 1e9
"""The work of a task that nothing is to come before."""


@dataclass
class Gate:
    crates: list
    rooms: object
    kept: object
    handles: set
    """Words of the file HANDLES."""
    code: str
    """A sum of the code that judges, and of HANDLES."""
    record: object
    """The record that goes with the code."""


def code_sum(top):
    """A sum of the code that judges, and of the file HANDLES."""
    others = ("tests", "tasks", "program", "record")
    judges = [path for path in sorted((TOP / "gate").glob("*.py")) if path.stem not in others]
    return joined_sum(sum_of(judges, TOP), sum_of([top / "HANDLES"], top))


def failure(name, shows, seconds=0.0):
    return Done(failed={name: shows.rstrip()[-6000:]}, seconds=seconds)


def once(gate, name, total, call, is_there=True):
    """Does a task, or nothing where it passed before with all that it hangs on as it is now, and what it left is there."""
    now = total()
    count = gate.kept.passed(name, now)
    if count and is_there:
        return Done(count, says="passed before, and nothing that it hangs on has changed")
    done = call()
    if not done.failed:
        gate.kept.note(name, now, done.passed)
    return done


def shown_total(gate, crate):
    """A sum of all that a crate's proof hangs on but for what judges it: its code, what the libraries below it show to
    it, the toolchain. No body of a crate below is among them: proofs here see its contracts alone."""
    below = (f"{each.line}\n{gate.rooms.shown(each)}" for each in crate.below)
    return joined_sum(gate.kept.toolchain, *below, crate.line, sum_of(crate.code(), crate.folder))


def run_total(gate, crate, beside=()):
    """A sum of all that a run of a crate's code hangs on: the sources of it and below, files beside them, what judges."""
    found = sorted(path for each in beside for path in (each.rglob("*") if each.is_dir() else [each]) if path.is_file())
    found = [path for path in found if "__pycache__" not in path.parts]
    return joined_sum(gate.code, sources_sum(crate, gate.kept.toolchain), sum_of(found, TOP))


def layout(gate):
    """Every file has to be as rt fmt lays it out, and no check may leave one out."""
    files = [path for crate in gate.crates for path in crate.files()]
    ran = run([Path(shutil.which("rt")).resolve().with_name("rattle"), "fmt", "--check", *files], TOP)
    unread = "".join(f"{path}: no check reads it\n" for path in strays(TOP, gate.crates))
    if ran.status or unread:
        return failure("layout", unread + ran.text, ran.seconds)
    return Done(1, says="every file is as rt fmt lays it out", seconds=ran.seconds)


def prove(gate, crate, jobs):
    """Proves a crate over the work that is kept, where it isn't known to be done with all that it hangs on as it is: a library by
    rt lib, which builds it in one, and a program by rt check."""
    built = lambda: joined_sum(sources_sum(crate, gate.kept.toolchain), tree_sum(crate.out / "rlib"))
    total, library = joined_sum(gate.code, shown_total(gate, crate)), f"{crate.name}: library"
    if gate.kept.passed(crate.name, total) and (crate.is_program or gate.kept.passed(library, built())):
        return Done(1, says="proved before")
    with gate.rooms.room(crate) as inside:
        ran = run(["rt", "check" if crate.is_program else "lib", "--jobs", str(jobs)], inside.folder)
        # Of a library that it finds built from the same text, rt says nothing. The look at its contracts has the verdict.
        why = verdicts.beyond(ran.text, gate.handles) if crate.is_program or "logic=" in ran.text else ""
        # What isn't proved leaves no library, but its work: what of it holds is not done again.
        if ran.status or why:
            shutil.rmtree(inside.out / "rlib", ignore_errors=True)
        gate.rooms.adopt(crate, inside)
    gate.kept.keep(crate)
    if ran.status or why:
        return failure(crate.name, f"{ran.text}{crate.name}: {why or 'not proved'}", ran.seconds)
    if not crate.is_program:
        gate.kept.note(library, built(), 1)
    gate.kept.note(crate.name, total, verdicts.functions(ran.text))
    return Done(1, says="proved", seconds=ran.seconds)


def contracts_total(gate, crate):
    """A sum of all that it hangs on whether each contract of a crate can be met."""
    judge = Path(verdicts.__file__)
    return joined_sum(sum_of([judge], judge.parent), " ".join(sorted(gate.handles)), shown_total(gate, crate))


def meet(gate, crate, jobs):
    """Looks for contracts of a crate that no call can meet, over the work of its proof, and for words of a clause that the
    checker warns of."""
    name, total, seconds = f"{crate.name}: contracts", contracts_total(gate, crate), 0.0
    before, said = gate.kept.passed(name, total), gate.record.stands(crate, "contracts", total)
    count = before or said
    if not count:
        with gate.rooms.room(crate) as inside:
            ran = run(["rt", "check", "--empty-contracts", "--jobs", str(jobs)], inside.folder)
        why = verdicts.beyond(ran.text, gate.handles) or verdicts.unmet(ran.text)
        if ran.status or why:
            return failure(name, f"{ran.text}{name}: {why or 'not looked at'}", ran.seconds)
        count, seconds = verdicts.functions(ran.text), ran.seconds
        gate.kept.note(name, total, count)
    is_recorded = said > 0 and not before
    gate.record.note(crate, "contracts", count, total, taken=int(is_recorded))
    gate.record.note(crate, "proof", count, sources_sum(crate, gate.kept.toolchain))
    says = f"each of {count} can be met{', by the record' * is_recorded}"
    return Done(int(not is_recorded), says=says, seconds=seconds)


def passes(name, words, folder, pattern):
    """Runs a command, which has to end well and to print such lines; of a pattern with a group this is how much passed."""
    ran = run(words, folder)
    found = re.search(pattern, ran.text, re.MULTILINE)
    if ran.status or not found:
        return failure(name, ran.text, ran.seconds)
    return Done(int(found[1]) if found.groups() else 1, says=found[0].strip().rpartition("\n")[2], seconds=ran.seconds)


def test(gate, crate):
    """Runs the tests of a crate by a build that stops at a sum that wraps, and at an index or an access out of bounds."""
    with gate.rooms.room(crate, has_tests=True, has_work=False) as inside:
        words = ["env", f"TMPDIR={inside.folder}", *tries.try_words(inside, TEST_SECONDS, os.devnull, ["--test"])]
        return passes(f"{crate.name}: tests", words, inside.folder, r"^test result: ok\..*(?=\n(?:.*\n)*?run=ended status=0 )")


def rows(gate, crate):
    """Runs the conformance rows on the program, each once, by one build that is not proved."""
    with gate.rooms.room(crate, has_work=False) as inside:
        words = tries.try_words(inside, ROW_SECONDS, os.devnull, ["--cases", "{cases}"])
        words = ["env", f"TMPDIR={inside.folder}", sys.executable, str(TOP / "conformance/run.py"), "--cases", *words]
        return passes("conformance rows by one build", words, inside.folder, r"^(\d+) passed, 0 failed\s*\Z")


def prove_tests(gate, crate, jobs):
    """Proves the tests of a crate over the work of its own proof: that each of their calls meets its condition, and that no
    sum or index of theirs can fail."""
    with gate.rooms.room(crate, has_tests=True) as inside:
        words = ["rt", "check", "--test", "--only", f"{crate.name}::tests", "--jobs", str(jobs)]
        return passes(f"{crate.name}: proof of tests", words, inside.folder, r"^only=([1-9]\d*) proved=\d+$")


def build(gate, crate, jobs, backends=("rattle", "llvm")):
    """Builds a program by both compilers, the one whose program stays last, and compares what each writes with the
    crate's file stdout."""
    seconds = 0.0
    with gate.rooms.room(crate) as inside:
        for backend in backends:
            (inside.out / crate.name).unlink(missing_ok=True)
            ran = run(["rt", "run", "--backend", backend, "--jobs", str(jobs)], inside.folder)
            seconds += ran.seconds
            if not (inside.out / crate.name).is_file():
                return failure(f"{crate.name} (built by {backend})", ran.text, seconds)
            fault = run_fault(inside)
            if fault:
                return failure(f"{crate.name} (run as {backend} built it)", fault, seconds)
        gate.rooms.adopt(crate, inside)
        built_from(crate).write_text(sources_sum(inside, gate.kept.toolchain), encoding="utf-8")
    gate.kept.keep(crate)
    return Done(1, says=f"built by {' and '.join(backends)}, and ran", seconds=seconds)


def run_fault(inside):
    """What a program does otherwise than the files beside its source say: it runs on stdin with the words of args, one a
    line, where the files of data are, has to write stdout and to end with the status of status."""
    def beside(name, other):
        return (inside.folder / name).read_bytes() if (inside.folder / name).is_file() else other

    words = beside("args", b"").decode().splitlines()
    with tempfile.TemporaryDirectory() as room:
        if (inside.folder / "data").is_dir():
            shutil.copytree(inside.folder / "data", room, dirs_exist_ok=True)
        how = {"input": beside("stdin", b""), "capture_output": True, "timeout": 120, "check": False}
        done = subprocess.run([inside.out / inside.name, *words], cwd=room, **how)
    if done.returncode == int(beside("status", b"0")) and done.stdout == beside("stdout", b""):
        return None
    return f"status {done.returncode}; it wrote {done.stdout[-300:]!r}; standard error {done.stderr[-300:]!r}"


def built_from(crate):
    """The file that has the sum of all that a program was built from."""
    return crate.out / f"{crate.name}.sum"


def is_built(crate, toolchain):
    """Whether the program that is there was built from what the crates hold now."""
    try:
        return (crate.out / crate.name).is_file() and built_from(crate).read_text() == sources_sum(crate, toolchain)
    except OSError:
        return False


def read_edits(crate, folders):
    """The edits of a crate in these folders, and by name the fault of each file that is none, or can't be applied."""
    found, faults = [], {}
    for path in sorted(path for folder in folders for path in (crate.folder / folder).glob("*")):
        try:
            if path.suffix != ".edit":
                raise editing.BadEdit("a file of edits ends in .edit")
            edit = editing.read_edit(path)
            editing.applied([edit], crate.folder)
            found.append(edit)
        except (editing.BadEdit, ValueError) as fault:
            faults[f"{crate.name}/{path.name}"] = f"{crate.name}/{path.name}: BAD EDIT: {fault}"
    return found, faults


def try_edits(gate, crate, folders, jobs):
    """Tries those of a crate's edits that weren't refused before with all that they hang on as it is now: several in one
    check, then those that were not refused there, as one that waits for another edit's function, at last each alone."""
    judge = Path(editing.__file__)
    base = joined_sum(sum_of([judge], judge.parent), shown_total(gate, crate))
    edits, faults = read_edits(crate, folders)
    done, checks, total = Done(failed=faults), 0, joined_sum(base, *map(repr, edits))
    left = [edit for edit in edits if not gate.kept.passed(f"{crate.name}/{edit.name}", joined_sum(base, repr(edit)))]
    if left and not faults and gate.record.stands(crate, "edits", total) == len(edits):
        gate.record.note(crate, "edits", len(edits), total, taken=len(left))
        return Done(len(edits) - len(left), says=f"{len(edits)} refused, {len(left)} of them by the record")
    groups = editing.groups_of(left, crate.folder)
    while groups:
        group, checks = groups.pop(0), checks + 1
        said, seconds = judged(gate, crate, group, jobs)
        done.seconds += seconds
        for edit in (edit for edit in group if not said[edit]):
            gate.kept.note(f"{crate.name}/{edit.name}", joined_sum(base, repr(edit)), 1)
        rest = [edit for edit in group if said[edit]]
        if len(group) == 1:
            done.failed.update({f"{crate.name}/{edit.name}": f"{crate.name}/{edit.name}: {said[edit]}" for edit in rest})
        else:
            groups += [rest] if 0 < len(rest) < len(group) else [[edit] for edit in rest]
    if not done.failed and folders == MUST_FAIL:
        gate.record.note(crate, "edits", len(edits), total)
    done.passed = len(edits) - sum(f"{crate.name}/{edit.name}" in done.failed for edit in edits)
    done.says = f"{done.passed} refused, {len(edits) - len(left)} of them before; {checks} checks"
    return done


def judged(gate, crate, group, jobs):
    """By edit of a group, why a check of the functions that they name doesn't refuse it, or None; and its seconds."""
    words = [word for edit in group for word in ("--only", f"{crate.name}::{edit.by}")]
    with gate.rooms.room(crate, editing.applied(group, crate.folder)) as inside:
        ran = run(["rt", "check", "--jobs", str(jobs), *words], inside.folder)
    lines = ran.text.splitlines()
    ended = None if ran.status == 1 else f"NOT REFUSED: the check ended with status {ran.status}"
    return {edit: editing.judge(edit, crate.name, lines) or ended for edit in group}, ran.seconds


def task(gate, name, total, call, waits=(), work=100.0, is_there=True):
    """A task that is not done again where it passed before with all that it hangs on as it is."""
    return Task(name, lambda jobs: once(gate, name, total, lambda: call(jobs), is_there), waits, work)


def edits_tasks(gate, crates, folders=MUST_FAIL):
    """A task for the edits of each crate."""
    for crate in crates:
        if any((crate.folder / folder).is_dir() for folder in folders):
            call = lambda jobs, crate=crate: try_edits(gate, crate, folders, jobs)
            yield Task(f"{crate.name}: edits", call, (crate.name,), crate.lines() / 2)


def proof_tasks(gate, crates):
    """A task for the proof of each crate."""
    for crate in crates:
        waits = tuple(each.name for each in crate.below)
        yield Task(crate.name, lambda jobs, crate=crate: prove(gate, crate, jobs), waits, crate.lines())


def contracts_tasks(gate, crates):
    """A task for the contracts of each crate, which no crate above waits for."""
    for crate in crates:
        call = lambda jobs, crate=crate: meet(gate, crate, jobs)
        yield Task(f"{crate.name}: contracts", call, (crate.name,), crate.lines() / 8)


def test_proof_tasks(gate, crates):
    """A task for the proof of each crate's tests."""
    for crate in (crate for crate in crates if crate.has_tests()):
        total = lambda it=crate: joined_sum(gate.code, shown_total(gate, it), sum_of(it.files("src"), it.folder))
        call = lambda jobs, it=crate: prove_tests(gate, it, jobs)
        yield task(gate, f"{crate.name}: proof of tests", total, call, (crate.name,), crate.lines() / 4)


def test_tasks(gate, crates):
    """Tasks for the layout of all files and for the tests of each crate, which wait for no proof."""
    yield Task("layout", lambda jobs: layout(gate), work=FIRST)
    for crate in (crate for crate in crates if crate.has_tests()):
        total = partial(run_total, gate, crate, [crate.folder / "src"])
        yield task(gate, f"{crate.name}: tests", total, lambda jobs, it=crate: test(gate, it), work=crate.lines() / 10)


def rows_tasks(gate, crates):
    """A task for the conformance rows on a build of their program that waits for no proof."""
    for crate in (crate for crate in crates if crate.name == LISTENER):
        total = partial(run_total, gate, crate, [TOP / "conformance"])
        yield task(gate, "conformance rows by one build", total, lambda jobs, it=crate: rows(gate, it), work=FIRST)


def program_tasks(gate, crates):
    """Tasks for the programs, and for what is run on them."""
    for crate in (crate for crate in crates if crate.is_program):
        total = partial(run_total, gate, crate, [crate.folder / part for part in BESIDE])
        call = lambda jobs, it=crate: build(gate, it, jobs)
        name, is_there = f"{crate.name}: program", is_built(crate, gate.kept.toolchain)
        yield task(gate, name, total, call, (crate.name,), crate.lines() / 4, is_there)
        total = partial(run_total, gate, crate, [TOP / "conformance"])
        for says, script in ((says, script) for runs, says, script in SCRIPTS if runs == crate.name):
            words = ["python3", str(TOP / "conformance" / script), str(crate.out / crate.name)]
            call = lambda jobs, it=says, words=words: passes(it, words, TOP, r"^(\d+) passed, 0 failed\s*\Z")
            yield task(gate, says, total, call, (name,), FIRST)
        if crate.name == LISTENER:
            prints = rf"\A{re.escape((crate.folder / 'stdout').read_text(encoding='utf-8'))}\Z"
            words = [str(TOP / "run"), "dump", str(crate.folder / "stdin")]
            yield Task("./run", lambda jobs, words=words, prints=prints: passes("./run", words, TOP, prints), (name,), 100)
