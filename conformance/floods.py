#!/usr/bin/env python3
"""Floods the program, and looks at its text, its time and its memory.

    floods.py PROGRAM

Each flood says what text it has to give, and comes whole and at a quarter of its size. Four times as much may take five times
as long, and a second, so that no step grows with what came before. The seconds are those of the processor; the memory is the
greatest that was seen, and 0 of a run that was too short to be seen. The last line is 'N passed, M failed', counted by runs.
"""

import os
import re
import subprocess
import sys
import threading
import time
from itertools import chain
from pathlib import Path

import files
from announced import answer, comes, expired, heartbeat, little, matched, message, number_octets, offers, peer, sample, shape
from announced import writer

FIXED = ["--fixed", (peer("a") + writer(1)).hex()]
MIB = 1 << 20


def numbered(prefix, number):
    """A prefix of its own for each number."""
    return prefix[:8] + number.to_bytes(4, "big")


def held(last):
    """All changes up to this number come before the first one: there is room for all but the last, which is asked for."""
    given = [shape("a", 1, number) for number in (*range(2, last + 1), 1)] + [heartbeat("a", 1, 1, last, 1)]
    lines = [sample(last - 1, 0, "a", 1, number) for number in range(1, last)] + [answer(last, 0, "-", "a", 1, last, 1)]
    return ["replay", "-", *FIXED], files.of_datagrams(given), lines


def participants(count):
    """Many participants announce themselves, and stay; some more have a lease of 1, 2, 3, .. seconds and a writer, and
    each second one of them is forgotten."""
    some = min(count // 20, 4_000)
    stay = comes("c", lease=10_000_000)
    prefix, at = peer("c"), stay.index(peer("c"), 20)
    renamed = (numbered(prefix, number) for number in range(count))
    given = [(0, stay[:8] + each + stay[20:at] + each + stay[at + 12:]) for each in renamed]
    begun = []
    for number in range(some):
        each = numbered(peer("d"), number)
        for datagram in (comes("d", lease=1000 * (number + 1)), offers("d", 1, 1)):
            begun.append((0, datagram.replace(peer("d"), each)))
    given += begun + [(1000 * second + 1, None) for second in range(1, some + 1)]
    guid = lambda line, number: line.replace(peer("d").hex(), numbered(peer("d"), number).hex())
    lines = [guid(matched(count + 2 * number + 1, 0, "d", 1), number) for number in range(some)]
    lines += [guid(expired(count + 2 * some, 0, "d", 1), number) for number in range(some)]
    return ["replay", "-"], files.of_moments(given), lines


def heartbeats(count):
    """Heartbeats of rising counts, each of which is answered: number 1 is missing."""
    given = (heartbeat("a", 1, 1, 1, number) for number in range(1, count + 1))
    return ["replay", "-", *FIXED], files.of_datagrams(given), (answer(n, 0, "-", "a", 1, 1, n + 1) for n in range(count))


def fragment(number, start, octets, whole):
    body = bytes(2) + little(28, 2) + bytes(4) + writer(1) + number_octets(number) + little(start)
    return message(peer("a"), 0x16, 0x01, body + little(1, 2) + little(16, 2) + little(whole) + octets)


def fragments(count):
    """Of `count` numbers the first fragments come, then the second ones, and so on: 64 numbers are assembled at a time, so each
    time 64 are whole, in order."""
    value = shape("a", 1, 1)[-28:]
    passes, at, given, lines = 18, 0, [], []
    for turn in range(passes):
        first = turn % 2 == 0
        for number in range(1, count + 1):
            given.append(fragment(number, 1 if first else 2, value[:16] if first else value[16:], len(value)))
            if 64 * (turn - 1) < number <= 64 * turn:
                lines.append(sample(at, 0, "a", 1, number))
            at += 1
    return ["replay", "-", *FIXED], files.of_datagrams(given), lines


def submessages(count):
    """Datagrams of 16,000 submessages without an event, PAD and INFO_TS without a time, and then a change."""
    front = message(peer("a"), 0x01, 0x01, b"")[:20] + bytes.fromhex("01010000" "09030000") * 8_000
    given = (front + shape("a", 1, number)[20:] for number in range(1, count + 1))
    lines = (sample(number - 1, 0, "a", 1, number).replace(":1 ", ":16001 ") for number in range(1, count + 1))
    return ["replay", "-", *FIXED], files.of_datagrams(given), lines


def gap(start, base, octets=bytes(4)):
    return message(peer("a"), 0x08, 0x01, bytes(4) + writer(1) + number_octets(start) + number_octets(base) + octets)


def gaps(count, is_rising=True):
    """GAPs of 256 numbers each of which each second one will not come; the first of the others are asked for, and a last GAP
    ends them all, so that the next change is presented."""
    each = [gap(base, base, little(256) + bytes.fromhex("55555555") * 8) for base in range(1, count, 256)]
    given = (each if is_rising else each[::-1]) + [heartbeat("a", 1, 1, count, 1), gap(1, count + 1), shape("a", 1, count + 1)]
    asked = answer(len(each), 0, "-", "a", 1, 1, 1)
    one = (number_octets(1) + little(1) + bytes([0, 0, 0, 0x80])).hex()
    many = (number_octets(1) + little(255) + bytes.fromhex("aaaaaaaa") * 8).hex()
    at = len(given) - 1
    lines = [asked.replace("06011c00", "06013800").replace(one, many), sample(at, 0, "a", 1, count + 1)]
    return ["replay", "-", *FIXED], files.of_datagrams(given), lines


def falling_gaps(count):
    """The same GAPs, the greatest numbers first."""
    return gaps(count, False)


def long_file(count):
    """A record file of `count` MiB in a pipe: large changes of a writer that is not known, and one of a writer that is."""
    large = shape("c", 1, 1)
    length = 65_507 - len(large)
    large = large[:22] + little(len(large) - 24 + length, 2) + large[24:] + bytes(length)
    number = count * MIB // len(large)
    record = len(large).to_bytes(4, "big") + large
    last = files.of_datagrams([shape("a", 1, 1)])[4:]
    return ["replay", "-", *FIXED], chain([b"RDG1"], (record for _ in range(number)), [last]), [sample(number, 0, "a", 1, 1)]


FLOODS = (
    (held, (65_538,)),
    (participants, (25_000, 100_000)),
    (heartbeats, (250_000, 1_000_000)),
    (fragments, (1_000, 4_000)),
    (submessages, (250, 1_000)),
    (gaps, (1 << 18, 1 << 20)),
    (falling_gaps, (1 << 18, 1 << 20)),
    (long_file, (256, 1_024)),
)
"""Each flood with its sizes."""


def fed(pipe, data):
    """Writes a file to a pipe, until it is closed."""
    try:
        for octets in [data] if isinstance(data, bytes) else data:
            pipe.write(octets)
        pipe.close()
    except BrokenPipeError:
        pass


def watched(pid, peaks):
    """Reads the greatest memory of a process in KiB, again and again until it ends."""
    while True:
        found = re.search(r"VmHWM:\s*(\d+)", Path(f"/proc/{pid}/status").read_text(encoding="ascii"))
        if not found:
            return
        peaks.append(int(found[1]))
        time.sleep(0.002)


def run(program, words, data, lines):
    """What a run does otherwise than it has to, if anything; its seconds of processor time, and its greatest memory in MiB."""
    with subprocess.Popen([program, *words], stdin=subprocess.PIPE, stdout=subprocess.PIPE, stderr=subprocess.PIPE) as process:
        peaks = [0]
        calls = ((fed, (process.stdin, data)), (watched, (process.pid, peaks)))
        beside = [threading.Thread(target=call, args=given) for call, given in calls]
        for thread in beside:
            thread.start()
        due, fault = iter(lines), None
        for line in process.stdout:
            wanted = next(due, None)
            if fault is None and line.decode() != f"{wanted}\n":
                fault = f"got {line!r:.300}, wanted {wanted!r:.300}"
        missing = next(due, None)
        err = process.stderr.read()
        for thread in beside:
            thread.join()
        _, status, used = os.wait4(process.pid, 0)
        process.returncode = os.waitstatus_to_exitcode(status)
    if process.returncode or err:
        fault = f"status {process.returncode}, standard error {err[-200:]!r}"
    elif fault is None and missing is not None:
        fault = f"the text ends before {missing!r:.300}"
    return fault, used.ru_utime + used.ru_stime, max(peaks) / 1024


def main():
    if len(sys.argv) != 2 or not os.path.isfile(sys.argv[1]):
        print(__doc__, file=sys.stderr)
        return 2
    program, passed, failed = os.path.abspath(sys.argv[1]), 0, 0
    for flood, sizes in FLOODS:
        before = None
        for size in sizes:
            fault, seconds, memory = run(program, *flood(size))
            if not fault and before is not None and seconds > 5 * before + 1:
                fault = f"{seconds:.2f} s, and {before:.2f} s for a quarter of it"
            print(f"{flood.__name__} {size}: {fault or 'as it has to be'}; {seconds:.2f} s, {memory:.0f} MiB", flush=True)
            before, passed, failed = seconds, passed + (not fault), failed + bool(fault)
    print(f"{passed} passed, {failed} failed")
    return 1 if failed else 0


if __name__ == "__main__":
    sys.exit(main())
