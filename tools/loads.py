"""Record files of loads for `bench.py`: each is the same at each time, and its counts are known from how it was made.

A load is a function of its scale. It yields the datagrams, and adds to `due` what all readers together have to count of
them: `matched` and `incompatible` writers, `samples`, `lost` numbers, and `answers`, the datagrams that they send. Each
datagram is one submessage, which gives an event.
"""

import random
import sys
from collections import Counter
from pathlib import Path
from typing import Callable, NamedTuple

sys.path.insert(0, str(Path(__file__).resolve().parent.parent / "conformance"))
sys.dont_write_bytecode = True

import announced  # noqa: E402
import files  # noqa: E402
import floods  # noqa: E402
import parts  # noqa: E402

READERS = 8
"""The readers of each load but `robot`: the most that the program has. All have the same topic."""
TOPICS = 64
"""The topics of `robot`, each with a reader."""
SEED = 20_261
COLOURS = (b"BLUE", b"CYAN", b"GREY", b"PINK")
LEASE = 10_000_000
"""In milliseconds: longer than any load is."""


class Writer:
    """A writer of shapes, of a participant of its own, and the number of its last change."""

    def __init__(self, at):
        self.letter, self.last, self.beats = f"{0x10 + at:x}", 0, 0

    def change(self, number):
        """The change of this number, to every reader; the colour, which is the key, is one of four."""
        colour = COLOURS[number % len(COLOURS)]
        return announced.shape(self.letter, 1, number).replace(COLOURS[0], colour)

    def next_change(self):
        self.last += 1
        return self.change(self.last)

    def heartbeat(self, first):
        """It has the numbers from `first` to its last one, and asks for an answer."""
        self.beats += 1
        return announced.heartbeat(self.letter, 1, first, self.last, self.beats)


FIRST = (announced.peer(Writer(0).letter) + announced.writer(1)).hex()
"""The first writer of a load is matched by `--fixed`, which names one writer; all others are announced."""


def scaled(count, scale):
    return max(1, round(count * scale))


def announcements(writers, due):
    """All writers but the first, with their participants."""
    due["matched"] += READERS * len(writers)
    for writer in writers[1:]:
        yield announced.comes(writer.letter, lease=LEASE)
        yield announced.offers(writer.letter, 1, 1)


def small(scale, due):
    """Changes of 28 octets, each in a datagram, of 16 writers in turn."""
    writers = [Writer(at) for at in range(16)]
    yield from announcements(writers, due)
    for _ in range(scaled(20_000, scale)):
        yield from (writer.next_change() for writer in writers)
        due["samples"] += READERS * len(writers)


def lossy(scale, due):
    """The same writers, in rounds: of 32 changes of a writer about one in ten is missed, one in twenty comes twice, and
    one in ten changes its place with the one before. A heartbeat asks for what is missing; about nine tenths of it come
    again, and by a second heartbeat the writer has none of these changes any more, so that the rest is lost."""
    writers, chance = [Writer(at) for at in range(16)], random.Random(SEED)
    yield from announcements(writers, due)
    for at in range(scaled(8_000, scale)):
        writer = writers[at % len(writers)]
        numbers = [*range(writer.last + 1, writer.last + 33)]
        writer.last += len(numbers)
        missed = {number for number in numbers if chance.random() < 0.1}
        lost = {number for number in sorted(missed) if chance.random() < 0.1}
        sent = [number for number in numbers if number not in missed for _ in range(1 + (chance.random() < 0.05))]
        for place in range(1, len(sent)):
            if chance.random() < 0.1:
                sent[place - 1], sent[place] = sent[place], sent[place - 1]
        yield from map(writer.change, sent)
        yield writer.heartbeat(numbers[0])
        yield from map(writer.change, sorted(missed - lost))
        yield writer.heartbeat(writer.last + 1)
        due["samples"] += READERS * (len(numbers) - len(lost))
        due["lost"] += READERS * len(lost)
        due["answers"] += READERS * 2


def fragments(scale, due):
    """Shapes with zeros after the value, 1,000,000 octets each, of one writer, in fragments of 1,344 octets."""
    size, value = 1_344, parts.change(1)[-28:]
    octets = value + bytes(1_000_000 - len(value))
    to_first, to_all = bytes.fromhex("0000010700000102"), bytes.fromhex("0000000000000102")
    due["matched"] += READERS
    for number in range(1, scaled(400, scale) + 1):
        for at in range(0, len(octets), size):
            datagram = parts.fragment(number, 1 + at // size, octets[at:at + size], size, len(octets))
            yield datagram.replace(to_first, to_all, 1)
        due["samples"] += READERS


def discovery(scale, due):
    """Participants, each with ten writers. One is matched, one is best effort and so refused by reliable readers, and
    eight have other topics. Then each participant announces itself 150 times more, each time with a heartbeat of its
    announcer of writers, which has to be answered."""
    prefix, numbers = announced.peer("c"), range(scaled(2_000, scale))
    come, ends = announced.comes("c", lease=LEASE), announced.SEDP_READER + announced.SEDP_WRITER
    offered = [announced.offers("c", 1, 1), announced.offers("c", 2, 2, reliability=announced.BEST_EFFORT)]
    offered += [announced.offers("c", at, at, b"Topic%d" % at) for at in range(3, 11)]
    beats = [announced.heartbeat("c", 1, 1, 10, count) for count in range(1, 151)]
    beats = [beat.replace(announced.ALL + announced.writer(1), ends) for beat in beats]
    for sent in ([come, *offered], *([come, beat] for beat in beats)):
        for at in numbers:
            yield from (datagram.replace(prefix, floods.numbered(prefix, at)) for datagram in sent)
    due.update(matched=READERS * len(numbers), incompatible=READERS * len(numbers), answers=len(numbers) * len(beats))


def skewed(scale, due):
    """The changes of `small`, of eight writers of which the first sends nine of ten, and the others one in turn."""
    writers = [Writer(at) for at in range(8)]
    yield from announcements(writers, due)
    for at in range(scaled(30_000, scale)):
        yield from (writers[0].next_change() for _ in range(9))
        yield writers[1 + at % 7].next_change()
        due["samples"] += READERS * 10


def robot(scale, due):
    """64 writers of a topic each, with a reader each: in each turn each of them sends a change of 28 octets, and in one
    of 50 turns a heartbeat too, which is answered."""
    writers = [Writer(at) for at in range(TOPICS)]
    for at, writer in enumerate(writers):
        yield announced.comes(writer.letter, lease=LEASE)
        yield announced.offers(writer.letter, 1, 1, b"Square%d" % at)
    for turn in range(1, scaled(5_000, scale) + 1):
        yield from (writer.next_change() for writer in writers)
        due["samples"] += TOPICS
        if turn % 50 == 0:
            yield from (writer.heartbeat(1) for writer in writers)
            due["answers"] += TOPICS
    due["matched"] += TOPICS


class Load(NamedTuple):
    datagrams: Callable
    words: tuple
    """What `replay`, `samples` and the engine get after the file."""
    has_moments: bool = False
    """Whether the file has moments: one datagram comes each millisecond."""
    is_for_engine: bool = False
    """Whether it has more readers than the program, so that the engine alone is measured."""


ALL_READERS = ("--readers", str(READERS))
FIXED = (*ALL_READERS, "--fixed", FIRST)
LOADS = {
    "small": Load(small, FIXED),
    "lossy": Load(lossy, FIXED),
    "fragments": Load(fragments, (*ALL_READERS, "--fixed", (announced.peer("a") + announced.writer(1)).hex())),
    "discovery": Load(discovery, ALL_READERS, has_moments=True),
    "skewed": Load(skewed, FIXED),
    "robot": Load(robot, ("--readers", str(TOPICS), "--topics", str(TOPICS)), is_for_engine=True),
}


def write(load, scale, path):
    """Writes the record file of a load, and returns how many datagrams it has and what is due."""
    due, count = Counter(), 0
    with open(path, "wb") as file:
        file.write(b"RDG2" if load.has_moments else b"RDG1")
        for datagram in load.datagrams(scale, due):
            one = files.of_moments([(count, datagram)]) if load.has_moments else files.of_datagrams([datagram])
            file.write(one[4:])
            count += 1
    return count, due
