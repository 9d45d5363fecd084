#!/usr/bin/env python3
"""Runs `replay` on two record files by many sizes of batches and numbers of workers: each gives the same text of a file.

    cuts.py PROGRAM          small files, by some of the cuts
    cuts.py PROGRAM --all    20,000 datagrams each, by all of them, whole and cut at 50 places

The files are made anew, from a fixed seed: the changes of several writers, some lost, some repeated or late, in one piece or
in fragments, with their heartbeats and gaps; writers that are announced, withdrawn and announced again; participants that
leave; datagrams that are cut, changed, or empty. The second file has moments and ticks, and its participants have leases of
some milliseconds, which run out at ticks, at datagrams, and several at once. One text per file has to come, with one status
and one line on standard error, and it has to hold lines of each kind. The last line is 'N passed, M failed', counted by runs.
"""

import itertools
import os
import random
import re
import subprocess
import sys
from concurrent.futures import ThreadPoolExecutor

import files
from announced import ALL, BEST_EFFORT, RELIABLE, comes, heartbeat, leaves, little, message, number_octets, offers, peer
from announced import withdraws, writer

SEED = 20_261
FIXED = (peer("a") + writer(1)).hex()
WRITERS = (("a", 1, RELIABLE), ("c", 1, RELIABLE), ("c", 2, BEST_EFFORT), ("d", 1, RELIABLE))
"""Of which the first is matched from the start, and the third can't be by readers that ask again."""
MORE_WRITERS = (*WRITERS, ("c", 3, RELIABLE), ("d", 2, RELIABLE))
LEASES = {"a": 30, "c": 12, "d": 8}
"""In milliseconds."""
COLOURS = (b"BLUE", b"RED", b"GREEN", b"ORANGE")
LINES = {kind: f" {kind} " for kind in ("sample", "unread", "lost", "matched", "unmatched", "incompatible", "answer")}
LINES_WITH_MOMENTS = {**LINES, "unmatched by a lease": r"(?m)^[0-9]+:0 reader [0-7] unmatched "}
"""The kinds of lines that the text of a file has to hold, and how each is found."""
SECONDS = 120
SOME = (1_200, (1, 2, 3, 255, 4096), (1, 2, 7), 6, 1)
MOST = (20_000, (1, 2, 3, 255, 256, 1000, 4096), (1, 2, 3, 4, 7, 64), 50, 50)
"""Datagrams of a file, sizes of batches, numbers of workers, and the lengths by which each of the two files is run."""


def shape(chance):
    """A value of a shape, or now and then octets that are none."""
    colour = chance.choice(COLOURS) + b"\0"
    numbers = b"".join(little(chance.randrange(300)) for _ in range(3))
    value = bytes.fromhex("00010000") + little(len(colour)) + colour + bytes(-len(colour) % 4) + numbers
    return value[:-5] if chance.random() < 0.02 else value


class Writer:
    """A writer, and what it sent."""

    def __init__(self, letter, number, reliability):
        self.letter, self.number, self.reliability = letter, number, reliability
        self.last, self.count, self.sent = 0, 0, []

    def front(self, number, options):
        return bytes(2) + little(options, 2) + ALL + writer(self.number) + number_octets(number)

    def change(self, chance):
        """The next change, in one piece or in fragments of 16 octets."""
        self.last += 1
        value = shape(chance)
        if chance.random() < 0.9:
            return [message(peer(self.letter), 0x15, 0x05, self.front(self.last, 16) + value)]
        pieces = range(0, len(value), 16)
        cut = little(1, 2) + little(16, 2) + little(len(value))
        front = self.front(self.last, 28)
        each = [front + little(at // 16 + 1) + cut + value[at:at + 16] for at in pieces]
        chance.shuffle(each)
        return [message(peer(self.letter), 0x16, 0x01, body) for body in each]

    def heartbeat(self, chance):
        self.count += 1
        return heartbeat(self.letter, self.number, max(1, self.last - chance.randrange(8)), self.last, self.count)

    def gap(self):
        """A GAP of the next two numbers, which never come."""
        self.last += 2
        body = ALL + writer(self.number) + number_octets(self.last - 1) + number_octets(self.last + 1) + bytes(4)
        return message(peer(self.letter), 0x08, 0x01, body)

    def datagrams(self, chance):
        """What it sends next, which is kept: it may come again later."""
        kind = chance.random()
        if kind < 0.1:
            return [self.heartbeat(chance)]
        if kind < 0.13:
            return [self.gap()]
        if kind < 0.18 and self.sent:
            return [chance.choice(self.sent)]
        new = self.change(chance)
        self.sent = self.sent[-40:] + new
        return [] if chance.random() < 0.06 else new


def joined(datagrams):
    """One message with the submessages of messages of one participant."""
    return datagrams[0] + b"".join(datagram[20:] for datagram in datagrams[1:])


def spoiled(datagram, chance):
    """Cut, changed in one octet, or empty."""
    kind = chance.randrange(3)
    if kind == 0:
        return datagram[:chance.randrange(len(datagram))]
    at = chance.randrange(len(datagram))
    return datagram[:at] + bytes([datagram[at] ^ 1 << chance.randrange(8)]) + datagram[at + 1:] if kind == 1 else b""


class Announcements:
    """A participant that announces itself, with its lease if it has one, and its writers by records of rising numbers."""

    def __init__(self, letter, lease=None):
        self.letter, self.lease, self.number = letter, lease, 0

    def offers(self, each):
        self.number += 1
        return offers(each.letter, self.number, each.number, reliability=each.reliability)

    def withdraws(self, each):
        self.number += 1
        return withdraws(each.letter, self.number, each.number)

    def start(self, writers):
        """It and its writers come, by records of numbers from 1 on."""
        self.number = 0
        yield comes(self.letter, lease=self.lease)
        yield from (self.offers(each) for each in writers if each.letter == self.letter)


def datagrams(count, named=WRITERS, leases=None):
    """The first `count` datagrams, of this seed the same each time. A participant with a lease announces itself anew now and
    then, mostly with its writers."""
    chance = random.Random(SEED)
    writers = [Writer(*each) for each in named]
    records = {letter: Announcements(letter, leases and leases[letter]) for letter in "acd"}
    again = 0.08 if leases else 0
    for announcements in records.values():
        yield from announcements.start(writers)
    given = 0
    while given < count:
        each = chance.choice(writers)
        announcements = records[each.letter]
        kind = chance.random()
        if kind < 0.006:
            new = [announcements.withdraws(each)]
        elif kind < 0.026:
            new = [announcements.offers(each)]
        elif kind < 0.03:
            new = [leaves(each.letter), *announcements.start(writers)]
        elif kind < 0.03 + again:
            new = list(announcements.start(writers))[:None if chance.random() < 0.7 else 1]
        else:
            new = each.datagrams(chance)
            new = [joined(new)] if len(new) > 1 and chance.random() < 0.5 else new
            new = [spoiled(datagram, chance) if chance.random() < 0.02 else datagram for datagram in new]
        yield from new
        given += len(new)


def moments(count):
    """Datagrams with their moments, and ticks: a millisecond passes now and then, and many where nobody sends for a while.
    Some datagrams have an earlier moment than those before."""
    chance = random.Random(SEED)
    moment = 0
    for datagram in datagrams(count, MORE_WRITERS, LEASES):
        kind = chance.random()
        if kind < 0.01:
            moment += chance.randrange(10, 40)
        elif kind < 0.25:
            moment += 1
        for _ in range(chance.choice((0,) * 20 + (1, 1, 2))):
            yield moment, None
        yield (max(0, moment - 20) if chance.random() < 0.02 else moment), datagram


def run(program, data, batch, workers, summary):
    """What a run gives: its status and what it writes."""
    words = [program, "replay", "-", "--readers", "8", "--fixed", FIXED, "--batch", str(batch), "--workers", str(workers)]
    words += ["--summary"] if summary else []
    try:
        done = subprocess.run(words, input=data, capture_output=True, timeout=SECONDS, check=False)
    except subprocess.TimeoutExpired:
        return None
    return done.returncode, done.stdout, done.stderr


def fault_of(got, wanted):
    """In what a run differs from the first one, if in anything."""
    if got is None:
        return f"no end in {SECONDS} seconds"
    for name, one, other in zip(("status", "standard output", "standard error"), got, wanted):
        if one != other:
            return f"another {name} than of one datagram at a time"
    return None


def cut(whole, lengths):
    """A file, and the same file cut at places, in all of `lengths` lengths."""
    return [whole] + [whole[:len(whole) * at // lengths + at % 7] for at in range(1, lengths)]


def missing_in(result, lines):
    """The kinds of lines that the text of a run doesn't hold."""
    text = result[1].decode() if result else ""
    return [kind for kind, form in lines.items() if not re.search(form, text)]


def main():
    if len(sys.argv) < 2 or sys.argv[2:] not in ([], ["--all"]) or not os.path.isfile(sys.argv[1]):
        print(__doc__, file=sys.stderr)
        return 2
    program, (count, batches, workers, *lengths) = os.path.abspath(sys.argv[1]), MOST if sys.argv[2:] else SOME
    wholes = (files.of_datagrams(datagrams(count)), files.of_moments(moments(count)))
    given = [data for whole, each in zip(wholes, lengths) for data in cut(whole, each)]
    asked = [(data, summary) for data in given for summary in (False, True)]
    with ThreadPoolExecutor(os.cpu_count()) as pool:
        wanted = list(pool.map(lambda each: run(program, each[0], 1, 1, each[1]), asked))
        runs = list(itertools.product(zip(asked, wanted), batches, workers))
        got = list(pool.map(lambda each: run(program, each[0][0][0], each[1], each[2], each[0][0][1]), runs))
    failed = 0
    for ((data, summary), first), batch, worker in runs:
        fault = fault_of(got.pop(0), first)
        failed += fault is not None
        if fault:
            cuts = f"--batch {batch} --workers {worker}{' --summary' if summary else ''}"
            print(f"{data[:4].decode()}, {len(data)} octets, {cuts}: {fault}")
    for whole, lines in zip(wholes, (LINES, LINES_WITH_MOMENTS)):
        missing = missing_in(wanted[asked.index((whole, True))], lines)
        failed += bool(missing)
        if missing:
            print(f"{whole[:4].decode()}: the text has no line of these: {', '.join(missing)}")
    failed += sum(not each for each in wanted)
    print(f"{len(runs) + len(wholes) - failed} passed, {failed} failed")
    return 1 if failed else 0


if __name__ == "__main__":
    sys.exit(main())
