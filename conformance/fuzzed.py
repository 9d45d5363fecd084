#!/usr/bin/env python3
"""Runs the program on random octets, and on rows and captures that are changed at random.

    fuzzed.py PROGRAM               some files, by a fixed seed
    fuzzed.py PROGRAM --all         files for an hour, by a seed that it prints
    fuzzed.py PROGRAM --seed SEED   one file, by its seed, which is left in the folder for temporary files

Each file goes through `dump`, and through `replay` and `samples` by several cuts and numbers of workers: no run ends by a
signal, or with other text on standard error than a fault that docs/FORMATS.md names; all name the same fault; each line has its
form; and one text comes for every cut and number of workers. The last line is 'N passed, M failed', counted by runs.
"""

import os
import random
import re
import subprocess
import sys
import tempfile
import time
from concurrent.futures import ThreadPoolExecutor
from pathlib import Path

import cuts
import files
import truncated
from announced import peer, writer

SOME, HOUR = 1_200, 3_600
"""Files of a usual run, and seconds of a long one."""
SEED = 20_261
SECONDS = 60
CUTS = (1, 2, 3, 7, 64, 256, 4096)
WORKERS = (1, 2, 3, 7)
EDGES = (0x00, 0x01, 0x7F, 0x80, 0xFF)
"""Octets that numbers begin or end with at their limits."""
FAULT = re.compile(rb"rtps_listen: (not an RDG1 file|cut record \d+|record \d+ too long|too many records)\n")

GUID, HEX, HASH, TIME = r"[0-9a-f]{32}", r"(-|([0-9a-f]{2})+)", r"(-|[0-9a-f]{32})", r"(-|[0-9a-f]{8}\.[0-9a-f]{8})"
CHANGE = r"\d+ [0-9a-f]{2} (value|key|other|none)"
EVENT = "|".join((
    rf"data {CHANGE} {HEX} {HASH}", rf"frag {CHANGE} \d+ \d+ \d+ \d+ {HEX} {HASH}", r"heartbeat \d+ \d+ -?\d+ (-|FL?|L)",
    r"gap \d+ \d+ (-|\d+(,\d+)*)", r"heartbeat-frag \d+ \d+ -?\d+",
))
BODY = rf"(value {HEX}( -?\d+ -?\d+ -?\d+)?|(disposed|unregistered) [0-9a-f]{{32}}|unread [1-4])"
REPORT = rf"sample {GUID} \d+ {TIME} {BODY}|lost {GUID} \d+|(un)?matched {GUID}|incompatible {GUID} \d+"
ADDRESS = r"\d+\.\d+\.\d+\.\d+:\d+"
STATES = "(Not)?Read (Not)?New (Alive|Disposed|NoWriters)"
SUMMARY = rf"match [0-7] {GUID}|status [0-7] \d+ \d+ \d+ (-|\d+) \d+ \d+"
LINES = {
    "dump": re.compile(rf"\d+:\d+ [0-9a-f]{{24}} {TIME} [0-9a-f]{{8}} [0-9a-f]{{8}} ({EVENT})\n"),
    "replay": re.compile(rf"\d+:\d+ (reader [0-7] ({REPORT})|answer (-|{ADDRESS}(,{ADDRESS})*) {HEX})\n|({SUMMARY})\n"),
    "samples": re.compile(rf"(entry [0-7] {GUID} \d+ {TIME} {STATES} {BODY}|{SUMMARY})\n"),
}
"""The forms of the lines of each command."""


def changed(datagram, seeds, chance):
    """A datagram, changed at some places."""
    octets = bytearray(datagram)
    for _ in range(chance.choice((0, 1, 1, 2, 4, 16))):
        at, kind = chance.randrange(len(octets) + 1), chance.randrange(7)
        other = chance.choice(seeds)
        if kind == 0 and at < len(octets):
            octets[at] ^= 1 << chance.randrange(8)
        elif kind == 1 and at < len(octets):
            octets[at] = chance.choice(EDGES)
        elif kind == 2:
            octets[at:at + 4] = chance.choice((bytes(4), b"\xff" * 4, bytes([1, 0, 0, 0]), chance.randbytes(4)))
        elif kind == 3:
            del octets[at:at + chance.choice((1, 4, 16, 4096))]
        elif kind == 4:
            octets[at:at] = other[20:20 + chance.choice((1, 4, 24, 4096))]
        elif kind == 5:
            octets += other[20:]
        else:
            octets[8:20] = chance.choice((other[8:20], octets[8:20]))
    return bytes(octets[:65507])


def file_of(seeds, chance):
    """A record file, with moments or without; one in four is changed outside its datagrams too."""
    whole = [chance.choice(seeds) for _ in range(chance.randrange(1, 60))]
    at, count = chance.randrange(len(seeds)), chance.randrange(120)
    whole += seeds[at:at + count]
    octets = lambda each: chance.randbytes(chance.randrange(80)) if chance.random() < 0.05 else changed(each, seeds, chance)
    given = [octets(each) for each in whole]
    moment, moments = 0, []
    for datagram in given:
        moment += chance.choice((0, 0, 1, 500, 100_000))
        moments += [(moment, None)] * chance.choice((0, 0, 0, 1)) + [(moment, datagram)]
    data = files.of_moments(moments) if chance.random() < 0.5 else files.of_datagrams(given)
    if chance.random() < 0.75:
        return data
    at = chance.randrange(len(data))
    return chance.choice((data[:at], data[:at] + chance.randbytes(1) + data[at + 1:], data[:at] + chance.randbytes(9)))


def options_of(chance):
    """Options of a run."""
    words = ["--readers", str(chance.randrange(1, 9)), "--topic", "Square"]
    words += ["--fixed", (peer("a") + writer(1)).hex()] * (chance.random() < 0.7)
    words += ["--own", chance.choice(("0b" * 12, "0c" * 12, CAPTURED))] * (chance.random() < 0.5)
    return words + [word for word in ("--best-effort", "--raw", "--summary") if chance.random() < 0.3]


CAPTURED = "01108c6bd5710c313130ded2"
"""The participant of a reader in a capture."""


def run(program, words, data):
    """What a run gives: its status, its text and its standard error."""
    try:
        done = subprocess.run([program, *words], input=data, capture_output=True, timeout=SECONDS, check=False)
    except subprocess.TimeoutExpired:
        return None, b"", b"no end in %d seconds" % SECONDS
    return done.returncode, done.stdout, done.stderr


def fault_of(words, got):
    """What a run gives that none may give, if anything."""
    status, text, err = got
    if status not in (0, 3) or (status == 3) != bool(FAULT.fullmatch(err)) or (status == 0) != (err == b""):
        return f"status {status}, standard error {err[-200:]!r}"
    wrong = [line for line in text.decode("ascii", "replace").splitlines(True) if not LINES[words[0]].fullmatch(line)]
    return f"a line of no form: {wrong[0]!r:.200}" if wrong else None


def faults_of(program, data, chance):
    """The runs of a file: the words of each, and what it gives otherwise than it has to, or None."""
    words = ["dump", "-"]
    first = run(program, words, data)
    yield words, fault_of(words, first)
    options = options_of(chance)
    for command in ("replay", "samples"):
        own = options + (["--keep", str(chance.randrange(3))] if command == "samples" else [])
        paces = [(1, 1)] + [(chance.choice(CUTS), chance.choice(WORKERS)) for _ in range(3)]
        texts = []
        for batch, workers in paces:
            words = [command, "-", *own, "--batch", str(batch), "--workers", str(workers)]
            got = run(program, words, data)
            texts.append(got)
            fault = fault_of(words, got) or (got != texts[0] and "another text than of one datagram at a time")
            yield words, fault or (got[2] != first[2] and f"{got[2]!r}, but dump has {first[2]!r}") or None


def tried(program, seeds, seed):
    """The faults of the file of a seed, and how many runs had none."""
    chance = random.Random(seed)
    data = file_of(seeds, chance)
    runs = list(faults_of(program, data, chance))
    faults = [f"--seed {seed}: {' '.join(words)}: {fault}" for words, fault in runs if fault]
    return faults, len(runs) - len(faults), data


def main():
    how = sys.argv[2:]
    one = int(how[1]) if how[:1] == ["--seed"] and len(how) == 2 and how[1].isdecimal() else None
    if len(sys.argv) < 2 or (how not in ([], ["--all"]) and one is None) or not os.path.isfile(sys.argv[1]):
        print(__doc__, file=sys.stderr)
        return 2
    program, seeds = os.path.abspath(sys.argv[1]), truncated.datagrams() + list(cuts.datagrams(300))
    first = (time.time_ns() // 1_000_000_000 if how else SEED) if one is None else one
    if how:
        print(f"seeds from {first} on", flush=True)
    passed, failed, number, until = 0, 0, 0, time.monotonic() + HOUR
    with ThreadPoolExecutor(os.cpu_count()) as pool:
        while number == 0 or (how == ["--all"] and time.monotonic() < until):
            count = SOME if one is None else 1
            given = range(first + number, first + number + count)
            for faults, right, data in pool.map(lambda seed: tried(program, seeds, seed), given):
                print("".join(f"{fault}\n" for fault in faults), end="", flush=True)
                passed, failed = passed + right, failed + len(faults)
            number += count
    if one is not None:
        file = Path(tempfile.gettempdir()) / f"{one}.rdg"
        file.write_bytes(data)
        print(file)
    print(f"{passed} passed, {failed} failed")
    return 1 if failed else 0


if __name__ == "__main__":
    sys.exit(main())
