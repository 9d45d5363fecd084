#!/usr/bin/env python3
"""Measures the program over loads that it makes, and prints a table; and of the engine alone another one.

    tools/bench.py PROGRAM [--against PROGRAM] [--engine BENCH] [--scale N] [--repeat N] [--load NAME..]
        [--command [NAME..]] [--workers N,N]

Each command reads each load from standard input, and its output is thrown away. A row has the median and the least of
the seconds by the clock, the median of the seconds of processor time, the greatest memory in MiB, which shows only
where it is above that of this script, and the datagrams a second by the median of the clock. With --against another
program of the same commands runs in turn with this one: its output has to be the same, octet for octet, and two more
columns have the seconds of this program divided by the other's. The first run of a row is not measured.

With --engine the program `rtps_bench` runs the engine over the same loads, and over one of more readers than the
program has, without reading and printing; it measures itself. Its table has the median and the least of the
milliseconds of its runs, and by the median the datagrams a second and the nanoseconds for each sample. After --command
without names it is measured alone.

Before a load is measured, what `replay --summary` counts of it is compared with what its making says, and so is what
the engine counts. The status is 0; 2 for a bad line; 1 for a count or an output that differs or a run that fails,
which is named on standard error.
"""

import argparse
import hashlib
import os
import subprocess
import sys
import tempfile
import time
from collections import Counter
from pathlib import Path
from statistics import median
from typing import NamedTuple

import loads

COMMANDS = ("replay", "dump", "samples", "explain")
COLUMNS = ("load", "command", "workers", "datagrams", "median clock", "least clock", "processor", "memory",
           "datagrams/s")
RATIOS = ("processor ratio", "clock ratio")
ENGINE_COLUMNS = ("load", "workers", "datagrams", "samples", "median ms", "least ms", "datagrams/s", "ns/sample")
STATUS = (None, None, None, "matched", "incompatible", None, "lost", "samples")
"""What the words of a `status` line of the summary count."""


class Difference(Exception):
    """A count or an output that isn't as it has to be, or a run that fails."""


class Used(NamedTuple):
    """What a run used: seconds by the clock and of the processor, and MiB of memory."""
    clock: float
    processor: float
    memory: float


class Job(NamedTuple):
    """A command over the record file of a load."""
    load: str
    path: Path
    words: list

    def run(self, program, read=None):
        """Runs it to its end, and returns what it used, and what `read` makes of its output, or throws that away."""
        output, begun = subprocess.PIPE if read else subprocess.DEVNULL, time.perf_counter()
        with open(self.path, "rb") as source, tempfile.TemporaryFile() as errors:
            with subprocess.Popen([program, *self.words], stdin=source, stdout=output, stderr=errors) as process:
                result = read(process.stdout) if read else None
                _, status, used = os.wait4(process.pid, 0)
                clock = time.perf_counter() - begun
                process.returncode = os.waitstatus_to_exitcode(status)
            if process.returncode:
                errors.seek(0)
                said = errors.read(300).decode(errors="replace").strip()
                raise Difference(f"{self.named(program)} has status {process.returncode}: {said}")
        return Used(clock, used.ru_utime + used.ru_stime, used.ru_maxrss / 1024), result

    def named(self, program):
        return f"{self.load}: {program} {' '.join(self.words)}"


def digest(pipe):
    """A hash of an output."""
    found = hashlib.sha256()
    for piece in iter(lambda: pipe.read(1 << 20), b""):
        found.update(piece)
    return found.hexdigest()


def counted(lines):
    """What the lines of `replay --summary` count, of all readers."""
    found = Counter()
    for line in lines:
        if b" answer " in line:
            found["answers"] += 1
        elif line.startswith(b"status "):
            found.update({name: int(word) for name, word in zip(STATUS, line.split()) if name})
    return found


def check_counts(job, program, due):
    """A load has to give the counts that its making says."""
    differ(job.named(program), job.run(program, counted)[1], due)


def differ(named, found, due):
    """What was found has to be what is due."""
    names = sorted({*found, *due})
    wrong = [f"{name} {found[name]}, due {due[name]}" for name in names if found[name] != due[name]]
    if wrong:
        raise Difference(f"{named} counts {'; '.join(wrong)}")


def numbers(octets):
    """The numbers of lines that have a name and a number each, by name."""
    return {name: int(number) for name, number in (line.split() for line in octets.decode().splitlines())}


def engine_row(job, count, due, line):
    """Has the engine measure itself over a load, and returns the last columns of its row."""
    with open(job.path, "rb") as source:
        done = subprocess.run([line.engine, *job.words], stdin=source, capture_output=True, check=False)
    if done.returncode:
        said = done.stderr[:300].decode(errors="replace").strip()
        raise Difference(f"{job.named(line.engine)} has status {done.returncode}: {said}")
    found, times = numbers(done.stdout), numbers(done.stderr)
    differ(job.named(line.engine), found, engine_due(count, due))
    median_ms, least_ms = (f"{times[name] / 1e6:.1f}" for name in ("median_ns", "best_ns"))
    return [str(found["samples"]), median_ms, least_ms, str(times["datagrams_per_s"]), str(times["ns_per_sample"])]


def engine_due(count, due):
    """What the engine has to count of a load with this number of datagrams."""
    return Counter(datagrams=count, events=count, **{name: due[name] for name in ("samples", "answers", "lost")})


def row(job, count, line):
    """Measures a job, by both programs in turn if there are two, and returns the last columns of its row."""
    programs = [program for program in (line.program, line.against) if program]
    if len({job.run(program, digest)[1] for program in programs}) > 1:
        raise Difference(f"{job.named(line.program)} has another output than {line.against}")
    runs = [[job.run(program)[0] for program in programs] for _ in range(line.repeat)]
    own, *others = ([*zip(*each)] for each in zip(*runs))
    clock, processor = median(own[0]), median(own[1])
    columns = [f"{clock:.2f}", f"{min(own[0]):.2f}", f"{processor:.2f}", f"{max(own[2]):.0f}", f"{count / clock:.0f}"]
    for other in others:
        columns += [ratio(processor, median(other[1])), ratio(clock, median(other[0]))]
    return columns


def ratio(own, other):
    return f"{own / other:.2f}" if other else "-"


def show(columns):
    print(f"| {' | '.join(columns)} |", flush=True)


def show_table(columns):
    show(columns)
    show(["---"] * len(columns))


def measure(line):
    """Makes the loads, and prints a row for each command over each, and then those of the engine."""
    engine_rows = []
    if line.command:
        show_table(COLUMNS + RATIOS * bool(line.against))
    with tempfile.TemporaryDirectory() as folder:
        for name in line.load:
            load, path = loads.LOADS[name], Path(folder, name)
            count, due = loads.write(load, line.scale, path)
            if not load.is_for_engine:
                measure_program(Job(name, path, load.words), count, due, line)
            for workers in line.workers if line.engine else ():
                words = [*load.words, "--workers", workers, "--repeat", str(line.repeat)]
                columns = engine_row(Job(name, path, words), count, due, line)
                engine_rows.append([name, workers, str(count), *columns])
            path.unlink()
    if line.engine:
        show_table(ENGINE_COLUMNS)
        for columns in engine_rows:
            show(columns)


def measure_program(load, count, due, line):
    """Prints a row for each command over a load, whose words are those of `replay` after the file."""
    for program in filter(None, (line.program, line.against)) if line.command else ():
        check_counts(load._replace(words=["replay", "-", *load.words, "--summary"]), program, due)
    for command in line.command:
        words = [command, "-"] + [*load.words] * (command in ("replay", "samples"))
        for workers in line.workers if command == "replay" else "-":
            job = load._replace(words=words + ["--workers", workers] * (workers != "-"))
            show([load.load, command, workers, str(count), *row(job, count, line)])


def whole(least, most):
    """A number of the command line."""
    def read(words):
        if not (words.isascii() and words.isdigit() and least <= int(words) <= most):
            raise argparse.ArgumentTypeError(f"{words!r} is no number from {least} to {most}")
        return int(words)
    return read


def workers_of(words):
    """Numbers of workers with commas between them."""
    return [str(whole(1, 64)(word)) for word in words.split(",")]


def scale(words):
    """The size of the loads."""
    if not 0.001 <= float(words) <= 1000:
        raise ValueError
    return float(words)


def parsed(words):
    parser = argparse.ArgumentParser(description=__doc__, formatter_class=argparse.RawDescriptionHelpFormatter)
    add = parser.add_argument
    add("program", metavar="PROGRAM")
    add("--against", metavar="PROGRAM")
    add("--engine", metavar="BENCH")
    add("--scale", type=scale, default=1, metavar="N", help="0.001 to 1000; 1 if it isn't given")
    add("--repeat", type=whole(1, 1000), default=5, metavar="N", help="the runs of a row, 1 to 1000; 5")
    add("--load", nargs="+", choices=loads.LOADS, default=loads.LOADS, metavar="NAME",
        help=f"of {', '.join(loads.LOADS)}; all")
    add("--command", nargs="*", choices=COMMANDS, default=COMMANDS, metavar="NAME",
        help=f"of {', '.join(COMMANDS)}; all")
    add("--workers", type=workers_of, default=["1", "2", "4"], metavar="N,N",
        help="of replay and of the engine, 1 to 64 each; 1,2,4")
    return parser.parse_args(words)


def main(words):
    try:
        measure(parsed(words))
    except (Difference, OSError) as difference:
        print(f"bench: {difference}", file=sys.stderr)
        return 1
    return 0


if __name__ == "__main__":
    sys.exit(main(sys.argv[1:]))
