#!/usr/bin/env python3
"""Refuses growths of the heap in runs of the program, and starts of its threads: each one alone, and each with all that follow.

    starved.py PROGRAM          each growth of short files, and some of long ones
    starved.py PROGRAM --all    each growth of long files too, which takes an hour

`dump`, `explain`, `replay` and `samples` run over the files of some rows, by several workers and sizes of batches. A
run in which a growth was refused has to end with status 5 and `rtps_listen: out of memory`, and what it wrote has to be
a front of the text that it writes with ample memory. It may end as with ample memory in two cases: with several
workers, where a growth was refused to one that should have started, and the others did its work; and where a growth was
refused that the program can do without. There are two of these before the file is read: a large block, which is freed
at once, and room for the words of the command line in advance. A run in which a thread didn't start has to end as any
other. The last line is 'N passed, M failed', counted by runs.
"""

import itertools
import os
import random
import sys
import tempfile
from concurrent.futures import ThreadPoolExecutor
from pathlib import Path

import cuts
import files
from preloaded import Run, built, status_of
from run import HERE, octets

SEED = 20_261
ROWS = (
    "event_line/each_kind_of_event",
    "discovery/routed_by_the_matches_of_the_moment",
    "fragments/fragments_in_reverse",
    "values/disposed",
    "cache/keep_last",
    "moments/lease_ends",
)
"""Rows whose files are short."""
OPTIONS = ["--topic", "Square", "--fixed", "0a" * 12 + "00000102"]
PACES = tuple(itertools.product((1, 2, 7), (1, 256)))
"""Numbers of workers, and sizes of batches."""
OUT_OF_MEMORY = (5, b"rtps_listen: out of memory\n")
NOT_NEEDED = 2
"""How many growths the program can do without."""
SOME = 40
"""How many growths of a long file are refused."""


def short_files():
    """The words of each command for each short file, its number of workers, and the file."""
    for row in ROWS:
        data = octets(HERE / row / "input.hex")
        yield ["dump", "-"], 1, data
        yield ["explain", "-"], 1, data
        for command, (workers, batch) in itertools.product(("replay", "samples"), PACES):
            yield [command, "-", *OPTIONS, "--workers", str(workers), "--batch", str(batch)], workers, data


def long_files():
    """The same of files whose batches are shared by several workers."""
    wholes = files.of_datagrams(cuts.datagrams(3_000)), files.of_moments(cuts.moments(3_000))
    for data, workers, command in itertools.product(wholes, (1, 7), ("replay", "samples")):
        words = ["--readers", "8", "--fixed", cuts.FIXED, "--workers", str(workers), "--batch", "4096", "--summary"]
        yield [command, "-", *words], workers, data


def is_as(run, whole):
    return run.ended() == whole.ended() and run.text == whole.text


def fault_of(run, whole, workers):
    """What a run with a refused growth does otherwise than it has to, if anything."""
    if run.refused and run.ended() == OUT_OF_MEMORY:
        return None if whole.text.startswith(run.text) else "what it wrote is no front of the whole text"
    if is_as(run, whole) and (workers > 1 or run.refused == run.early):
        return None
    return f"status {run.status}, {len(run.text)} of {len(whole.text)} octets; standard error {run.faults[-200:]!r}"


def main():
    if len(sys.argv) < 2 or sys.argv[2:] not in ([], ["--all"]) or not os.path.isfile(sys.argv[1]):
        print(__doc__, file=sys.stderr)
        return 2
    program, chance = os.path.abspath(sys.argv[1]), random.Random(SEED)
    passed, faults, threads = 0, [], 0
    with tempfile.TemporaryDirectory() as room, ThreadPoolExecutor(os.cpu_count()) as pool:
        library = built(Path(room))
        for most, (words, workers, data) in [(None, each) for each in short_files()] + [(SOME, each) for each in long_files()]:
            whole = Run(library, [program, *words], data)
            growths = range(1, whole.growths + 1)
            if most and not sys.argv[2:]:
                growths = sorted(chance.sample(growths, min(most, whole.growths)))
            told = [("GROWTHS", *each) for each in itertools.product(growths, ("", "-"))]
            told += [("STARTS", *each) for each in itertools.product(range(1, whole.starts + 1), ("", "-"))]
            given = lambda what, number, others: Run(library, [program, *words], data, **{what: f"{number}{others}"})
            runs = list(pool.map(lambda each: given(*each), told))
            found = [(each, fault_of(run, whole, workers)) for each, run in zip(told, runs)]
            passed += sum(not fault for _, fault in found)
            faults += [f"{' '.join(words)}: {each}: {fault}" for each, fault in found if fault]
            threads += whole.starts
            not_needed = sum(run.refused == run.early > 0 and is_as(run, whole) for run in runs)
            if whole.status or not whole.growths or not_needed > NOT_NEEDED:
                faults.append(f"{' '.join(words)}: {whole.ended()}, {whole.growths} growths, {not_needed} not needed")
    if not threads:
        faults.append("no run has started a thread")
    print("".join(f"{fault}\n" for fault in faults), end="")
    print(f"{passed} passed, {len(faults)} failed")
    return 1 if faults else 0


if __name__ == "__main__":
    sys.exit(status_of(main))
