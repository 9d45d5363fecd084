"""The programs of ./run: their proof and build, and answers by a build that is not proved."""

import os
import re
import subprocess
import sys
import tempfile
from pathlib import Path

from gate import steps, tasks, tries
from gate.crates import crates_in, handles_in
from gate.kept import Kept
from gate.record import Record
from gate.rooms import Rooms, only_run

MOST_INPUT = 2 << 20
"""Octets of input that an answer that is not proved is given for: it is some 400 times slower than the program."""
UNPROVED = """\
run: this answer comes from a build that is not proved, made each time anew: half a minute or so for dump and explain,
run: one to three minutes for all else. It comes at the end and has at most 1 MiB. ./run --prove proves and builds the
run: program, in an hour or two on four processors; from then on ./run starts it at once."""
AT_THE_END = "run: listen prints its lines at its end too: the program that ./run --prove builds prints each as it comes."
SHOWN = (
    ("crates/rtps_listen/stdin", "dump crates/rtps_listen/stdin"),
    (
        "crates/rtps_listen/stdin",
        "replay crates/rtps_listen/stdin --fixed 0a0a0a0a0a0a0a0a0a0a0a0a00000102 --summary",
    ),
    (
        "conformance/captures/cyclone_replay/file.hex",
        "replay cyclone.rdg --own 01108c6bd5710c313130ded2 --topic Square",
    ),
)
"""What ./run shows where no words are given: a file of the repository, and the command that reads it."""


def capture(name):
    """The octets of a file of the repository; of one in hex those that it has, where # begins a comment."""
    path = steps.TOP / name
    return bytes.fromhex(re.sub(r"#.*", "", path.read_text(encoding="ascii"))) if path.suffix == ".hex" else path.read_bytes()


def prove_and_build(top, toolchain, folder, say, work=steps):
    """Proves what the programs stand on, builds them, the one of few crates first, and returns whether all went well."""
    crates = crates_in(top)
    programs = [crate for crate in crates if crate.name in (steps.FIRST_PROGRAM, steps.LISTENER)]
    needed = {each.name for program in programs for each in program.below}
    with only_run(top, lambda text: say(f"run: {text}")) as rooms:
        kept = Kept(folder, toolchain)
        gate = steps.Gate(crates, Rooms(rooms), kept, handles_in(top), steps.code_sum(top), Record(top, ""))
        took = kept.take_all([crate for crate in crates if crate.name in needed or crate in programs])
        if all(steps.is_built(program, toolchain) for program in programs):
            return True
        say(f"run: proving and building; taken from earlier runs: {', '.join(took) or 'nothing'}")
        todo = [*work.proof_tasks(gate, [crate for crate in crates if crate.name in needed])]
        for program in programs:
            call = lambda jobs, program=program: work.build(gate, program, jobs, ("llvm",))
            waits = tuple(crate.name for crate in program.below)
            todo.append(tasks.Task(f"{program.name}: program", call, waits, program.lines()))
        _, failed, untried = tasks.run_all(todo, say)
    return not failed and not untried


def answer_unproved(crate, words, say, given=None):
    """Answers by a build that is not proved, which gets each file that a word names, and standard input where the word -
    stands, and returns the exit status."""
    files = {word: Path(word).resolve() for word in words if Path(word).is_file()}
    stream = (given or sys.stdin.buffer).read(MOST_INPUT + 1) if "-" in words else b""
    if sum(path.stat().st_size for path in files.values()) + len(stream) > MOST_INPUT:
        say("run: an input above 2 MiB is for the proved program alone, since any other build is too slow: ./run --prove builds it")
        return 2
    say(UNPROVED + f"\n{AT_THE_END}" * (words[:1] == ["listen"]))
    # Its copy of a file has no folder in its name.
    names = {word: f"input{at}" if os.sep in word else word for at, word in enumerate(files)}
    data = [part for word, path in files.items() for part in ("--data", f"{names[word]}={path}")]
    status, _ = tried(crate, say, stream, data, [names.get(word, word) for word in words])
    return status


def tried(crate, say, stream=b"", flags=(), words=(), is_shown=True):
    """Builds a program that is not proved, runs it, says what it writes to standard error, and returns its exit status and what it
    printed where that isn't shown."""
    with tempfile.TemporaryDirectory() as folder:
        path = Path(folder) / "stdin"
        path.write_bytes(stream)
        call = ["env", f"TMPDIR={folder}", *tries.try_words(crate, "86400", str(path), flags, words)]
        with path.open("rb") as file:
            ran = tasks.run(call, crate.folder, file, is_shown)
    status = tries.ended_with(ran.text)
    own = ran.text if status is None else tries.own_lines(ran.text)
    if is_shown and own:
        say(own.rstrip("\n"))
    return 2 if status is None else status, ran.text


def show_unproved(crate, say, show):
    """Shows what the first commands print, by one build that is not proved."""
    say(UNPROVED)
    with tempfile.TemporaryDirectory() as folder:
        for at, (name, words) in enumerate(SHOWN):
            (Path(folder) / f"{at}").write_bytes(capture(name))
            (Path(folder) / f"{at}.args").write_text("\n".join(dashed(words)) + "\n", encoding="utf-8")
        _, text = tried(crate, say, flags=["--cases", folder], is_shown=False)
    printed = re.split(r"^== \d+\n", re.sub(r"^cases?=.*\n", "", text, flags=re.MULTILINE), flags=re.MULTILINE)[1:]
    for (_, words), each in zip(SHOWN, printed):
        show(f"$ ./run {words}\n{each}")
    return 0 if len(printed) == len(SHOWN) else 2


def dashed(words):
    """The words of a command with standard input in the place of its file."""
    command, _, *others = words.split()
    return [command, "-", *others]


def show_proved(program, show):
    """Shows what the first commands print by the program that is built, and returns the exit status."""
    for name, words in SHOWN:
        done = subprocess.run([program, *dashed(words)], input=capture(name), stdout=subprocess.PIPE, check=False)
        show(f"$ ./run {words}\n{done.stdout.decode()}")
        if done.returncode:
            return done.returncode
    return 0
