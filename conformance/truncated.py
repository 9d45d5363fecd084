#!/usr/bin/env python3
"""Cuts each datagram of the rows at each octet, and compares the events of the cut ones with those of the whole one.

    truncated.py PROGRAM

A cut datagram has those events of the whole one whose submessages end where it is cut, or before. A submessage whose stated
length is 0 runs to the end of its message, so to the cut: there its event is that of the same octets with their length stated,
and a DATA of less than 20 octets has none (DDSI-RTPS 9.4.5.1.3). The last line is 'N passed, M failed', counted by datagrams.
"""

import os
import runpy
import subprocess
import sys
from collections import defaultdict
from itertools import islice

import files
from run import HERE, octets

HEADER = 20
LENGTH_MAY_BE_0 = (0x01, 0x09)
"""PAD and INFO_TS: in these a length of 0 is the length of the body."""
DATA, DATA_FRAG = 0x15, 0x16
LEAST = {DATA: 20, DATA_FRAG: 32}
"""How many octets a body has at least."""
LONG = 200
"""How many datagrams of a long row are cut."""


def datagrams():
    """The datagrams of the rows, each once."""
    found = {}
    for row in sorted(path.parent for path in HERE.glob("*/*/args")):
        for file in (row / name for name in ("input.hex", "file.hex") if (row / name).exists()):
            found.update((datagram, None) for _, datagram in files.records_in(octets(file)))
        if (row / "long.py").exists():
            long = runpy.run_path(str(row / "long.py"))
            each = (record[1] for record in long["moments"]()) if "moments" in long else long["records"]()
            found.update((datagram, None) for datagram in islice(each, LONG))
    return [datagram for datagram in found if datagram]


def submessages(datagram):
    """Where each submessage that is whole begins and ends, and whether it states a length of 0 and runs to the end."""
    at = HEADER
    while at + 4 <= len(datagram):
        order = "little" if datagram[at + 1] & 1 else "big"
        length = int.from_bytes(datagram[at + 2:at + 4], order)
        to_the_end = length == 0 and datagram[at] not in LENGTH_MAY_BE_0
        end = len(datagram) if to_the_end else at + 4 + length
        if end > len(datagram):
            return
        yield at, end, to_the_end
        at = end


def stated(datagram):
    """The datagram with the length of its last submessage stated, if it states 0 there and runs to the end."""
    for at, end, to_the_end in submessages(datagram):
        if to_the_end and end - at - 4 < 0x10000:
            order = "little" if datagram[at + 1] & 1 else "big"
            return datagram[:at + 2] + (end - at - 4).to_bytes(2, order) + datagram[at + 4:]
    return datagram


def events(program, given):
    """The events of each datagram, by its number: the number of the submessage, and the rest of the line."""
    words = [program, "dump", "-"]
    done = subprocess.run(words, input=files.of_datagrams(given), capture_output=True, timeout=120, check=False)
    if done.returncode or done.stderr:
        sys.exit(f"dump ended with status {done.returncode}: {done.stderr[-300:]!r}\n0 passed, 1 failed")
    found = defaultdict(list)
    for line in done.stdout.decode().splitlines():
        place, _, rest = line.partition(" ")
        number, submessage = place.split(":")
        found[int(number)].append((int(submessage), rest))
    return found


def fault_of(program, datagram):
    """The first cut of a datagram whose events are others than those that are due, if there is one."""
    cuts = [datagram[:length] for length in range(len(datagram))]
    given = [datagram, *cuts, *map(stated, cuts)]
    found = events(program, given)
    parts = list(submessages(datagram))
    for cut, octets_left in enumerate(cuts):
        due = [(number, rest) for number, rest in found[0] if parts[number - 1][1] <= cut]
        *_, last = [(0, 0, False), *submessages(octets_left)]
        if last[2]:
            number = len(list(submessages(octets_left)))
            is_short = cut - last[0] - 4 < LEAST.get(octets_left[last[0]], 0)
            due += [event for event in found[1 + len(cuts) + cut] if event[0] == number and not is_short]
        if found[1 + cut] != due:
            return f"cut at {cut}: got {found[1 + cut]}, wanted {due}"
    return None


def main():
    if len(sys.argv) != 2 or not os.path.isfile(sys.argv[1]):
        print(__doc__, file=sys.stderr)
        return 2
    given = datagrams()
    faults = [(datagram, fault_of(os.path.abspath(sys.argv[1]), datagram)) for datagram in given]
    for datagram, fault in faults:
        if fault:
            print(f"{datagram.hex():.200}: {fault:.600}")
    failed = sum(fault is not None for _, fault in faults)
    print(f"{sum(map(len, given))} cuts")
    print(f"{len(given) - failed} passed, {failed or int(not given)} failed")
    return 1 if failed or not given else 0


if __name__ == "__main__":
    sys.exit(main())
