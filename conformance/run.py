#!/usr/bin/env python3
"""Runs a program on the conformance rows and compares what it writes and how it ends.

    run.py PROGRAM [GROUP..]
    run.py --cases COMMAND

A row is a folder GROUP/NAME: `args` has the words, one a line, as octets; `input.hex` what is on standard input, in hex,
where `#` begins a comment; `stdout`, `stderr` and `status` what the run has to give. The word `{file}` is the name of a
file that holds what is in `file.hex`. A row that is longer, or that a script says more clearly, has `long.py` in place of
`input.hex` and `stdout`: its `records` and `lines` give the datagrams and the lines one by one; where it has `moments` in
place of `records`, they give the moments of a file with moments, each with its datagram, or with None for a tick. Where a
row has the file `memory`, a run may take the MiB of address space that it names; it has one worker, since each thread takes
some of its own. Where it has the file `output`, standard output is the file named there, or is closed where none is. Where
PROGRAM is `rtps_dump`, which has two of the commands, only their rows are run, and its faults begin with its own name. Where
the status is 2 and the row has no `stderr`, the text of standard error is the command line's own and free. A row of `replay`
or `samples` is run with every batch size and worker count below, which change nothing. A row that fails names itself and
shows the first difference. The last line is 'N passed, M failed', counted by runs.

With --cases, COMMAND builds a program that is not proved and runs it on each case in a folder, of which its word `{cases}` is the
name, as `rt try --cases` does. Each row is one run, with its own words. Left out are rows that such a program can't be given:
those with `memory`, `output` or `{file}`, with a word that is no text, or of more than 64 KiB.
"""

import itertools
import os
import re
import runpy
import subprocess
import sys
import tempfile
from concurrent.futures import ThreadPoolExecutor
from pathlib import Path

import files

HERE = Path(__file__).resolve().parent
BATCHES = (None, "1", "2", "4096")
WORKERS = (None, "1", "2", "7")
SECONDS = 120
SOME_COMMANDS = {"rtps_dump": ("dump", "explain")}
"""The commands of a program that hasn't all."""
MOST_OF_A_CASE = 65_536
"""Octets of input of a row that a program that is not proved, which is some 400 times slower, is run on."""


def octets(path):
    """The octets that a file has in hex."""
    return bytes.fromhex("".join(line.split("#")[0] for line in path.read_text(encoding="ascii").splitlines()))


def content(path):
    return path.read_bytes() if path.exists() else b""


def given(row):
    """What is on standard input, and what has to be on standard output."""
    if not (row / "long.py").exists():
        return octets(row / "input.hex"), content(row / "stdout")
    long = runpy.run_path(str(row / "long.py"))
    data = files.of_moments(long["moments"]()) if "moments" in long else files.of_datagrams(long["records"]())
    return data, "".join(line + "\n" for line in long["lines"]()).encode()


def limited(command, row):
    """A command, held to the memory and the output that a row allows."""
    mib, output = content(row / "memory").decode(), (row / "output").exists()
    limits = f"ulimit -v {int(mib) * 1024} && " if mib else ""
    to = (content(row / "output").decode().strip() or "&-") if output else ""
    return ["sh", "-c", f'{limits}exec "$0" "$@"' + (f" >{to}" if output else ""), *command] if mib or output else command


def runs_of(row):
    """The words of each run of a row."""
    words = os.fsdecode((row / "args").read_bytes()).splitlines()
    if not words or words[0] not in ("replay", "samples"):
        return [words]
    batches = (None,) if "--batch" in words else BATCHES
    workers = (None,) if "--workers" in words or (row / "memory").exists() else WORKERS
    return [
        words + (["--batch", batch] if batch else []) + (["--workers", count] if count else [])
        for batch, count in itertools.product(batches, workers)
    ]


def difference(name, got, wanted):
    """The first line in which two texts differ."""
    pairs = itertools.zip_longest(got.splitlines(True), wanted.splitlines(True))
    for number, (line, other) in enumerate(pairs, 1):
        if line != other:
            return f"{name}, line {number}: got {line!r:.300}, wanted {other!r:.300}"
    return f"{name} differs"


def fault_of(program, words, row):
    """What a run gives otherwise than its row, if anything."""
    data, out = given(row)
    with tempfile.NamedTemporaryFile() as file:
        if (row / "file.hex").exists():
            file.write(octets(row / "file.hex"))
            file.flush()
        words = [file.name if word == "{file}" else word for word in words]
        try:
            command = limited([program, *words], row)
            done = subprocess.run(command, input=data, capture_output=True, timeout=SECONDS, check=False)
        except subprocess.TimeoutExpired:
            return f"no end in {SECONDS} seconds"
    status = int(content(row / "status") or b"0")
    err = content(row / "stderr").replace(b"rtps_listen", os.fsencode(os.path.basename(program)))
    if done.returncode != status:
        return f"status {done.returncode}, wanted {status}; standard error: {done.stderr[-300:]!r}"
    if done.stdout != out:
        return difference("standard output", done.stdout, out)
    if done.stderr != err and (err or status != 2):
        return difference("standard error", done.stderr, err)
    return None


def write_case(row, name, folder):
    """Puts a row into a folder as a case of this name, and returns whether it can be one."""
    words = (row / "args").read_bytes()
    if (row / "memory").exists() or (row / "output").exists() or b"{file}" in words or not words.isascii():
        return False
    data, out = given(row)
    if len(data) > MOST_OF_A_CASE:
        return False
    for path, octets_of_it in ((folder / name, data), (folder / f"{name}.args", words), (folder / f"{name}.stdout", out)):
        path.write_bytes(octets_of_it)
    return True


def run_cases(command):
    """Runs a command on the rows as cases, prints what ended otherwise than its row says, and returns how many passed and failed."""
    with tempfile.TemporaryDirectory() as folder:
        rows = {f"{path.parent.parent.name}.{path.parent.name}": path.parent for path in sorted(HERE.glob("*/*/args"))}
        cases = {name: row for name, row in rows.items() if write_case(row, name, Path(folder))}
        words = [folder if word == "{cases}" else word for word in command]
        done = subprocess.run(words, stdin=subprocess.DEVNULL, capture_output=True, text=True, errors="replace", check=False)
    said = dict(re.findall(r"^case=(\S+) (.*)$", done.stderr, re.MULTILINE))
    wanted = {name: f"run=ended status={int(content(row / 'status') or b'0')} " for name, row in cases.items()}
    failed = [name for name in cases if not said.get(name, "").startswith(wanted[name]) or "output=expected" not in said[name]]
    for name in failed:
        print(f"{name}: {said.get(name, 'it was not run')}, wanted {wanted[name]}output=expected")
    if failed:
        print(f"{done.stdout[-3000:]}{done.stderr[-3000:]}")
    return len(cases) - len(failed), len(failed)


def main():
    if len(sys.argv) < 2:
        print(__doc__, file=sys.stderr)
        return 2
    if sys.argv[1] == "--cases":
        passed, failed = run_cases(sys.argv[2:])
        print(f"{passed} passed, {failed or int(not passed)} failed")
        return 1 if failed or not passed else 0
    program, groups = os.path.abspath(sys.argv[1]), sys.argv[2:]
    rows = sorted(path.parent for path in HERE.glob("*/*/args") if not groups or path.parent.parent.name in groups)
    commands = SOME_COMMANDS.get(os.path.basename(program))
    runs = [(row, words) for row in rows for words in runs_of(row) if not (commands and words) or words[0] in commands]
    with ThreadPoolExecutor(os.cpu_count()) as pool:
        faults = list(pool.map(lambda run: fault_of(program, run[1], run[0]), runs))
    for (row, words), fault in zip(runs, faults):
        if fault:
            print(f"{row.relative_to(HERE)}: {' '.join(words)}: {fault}")
    failed = sum(fault is not None for fault in faults)
    print(f"{len(runs) - failed} passed, {failed or int(not runs)} failed")
    return 1 if failed or not runs else 0


if __name__ == "__main__":
    sys.exit(main())
