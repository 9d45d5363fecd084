#!/usr/bin/env python3
"""Has the program read from and write to what fails, and looks at what it has written by then and how it ends.

    failing.py PROGRAM

Reads fail after each octet of some files, and the files are cut there: the text is that of the records before, and the fault
is named. Writes fail at each call, and take one octet a call: what was written is a front of the text. Besides: a full disk,
pipes that are closed, a folder, a file that may not be read, one that isn't there, one that is cut while it is read. The last
line is 'N passed, M failed', counted by runs.
"""

import itertools
import os
import shutil
import subprocess
import sys
import tempfile
from concurrent.futures import ThreadPoolExecutor
from pathlib import Path

import files
from preloaded import Run, built, status_of
from run import HERE, octets

ROWS = ("event_line/each_kind_of_event", "moments/lease_ends", "cache/keep_last")
OPTIONS = ["--topic", "Square", "--fixed", "0a" * 12 + "00000102", "--summary"]
COMMANDS = (["dump", "-"], ["explain", "-"], ["replay", "-", *OPTIONS], ["samples", "-", *OPTIONS])
CANNOT_READ, CANNOT_WRITE = b"rtps_listen: cannot read the file\n", b"rtps_listen: cannot write\n"
NO_FILE = b"rtps_listen: not an RDG1 file\n"
ALL = 1 << 30
SECONDS = 60
NOBODY = 65534


def ends_of(data):
    """How long a file is that ends before its first record, and after each of its records."""
    stamp = 8 if data[:4] == b"RDG2" else 0
    at = 4
    yield at
    for _, datagram in files.records_in(data):
        at += 4 + stamp + len(datagram or b"")
        yield at


def faults_of_reads(library, program, words, data):
    """Has each read after some octets fail, for each number of octets, and cuts the file there."""
    ends = list(ends_of(data))
    texts = [Run(library, [program, *words], data[:end]).text for end in ends]
    for count in range(len(data) + 1):
        number = sum(end <= count for end in ends) - 1
        text = texts[number] if number >= 0 else b""
        cut = NO_FILE if number < 0 else b"" if count in ends else b"rtps_listen: cut record %d\n" % number
        failing = Run(library, [program, *words], data, READS=f"{count}:7")
        yield f"reads fail after {count} octets", failing, (3, CANNOT_READ), text
        yield f"the file has {count} octets", Run(library, [program, *words], data[:count]), (3 if cut else 0, cut), text
    yield "one octet a read", Run(library, [program, *words], data, READS=f"{ALL}:1"), (0, b""), texts[-1]


def faults_of_writes(library, program, words, data):
    """Has each write from one on fail, for each, where a write takes one octet, and where it takes all."""
    text = Run(library, [program, *words], data).text
    for octets_a_call in (1, ALL):
        whole = Run(library, [program, *words], data, WRITES=f"0:{octets_a_call}")
        yield f"{octets_a_call} octets a write", whole, (0, b""), text
        for number in range(1, whole.writes + 1):
            run = Run(library, [program, *words], data, WRITES=f"{number}:{octets_a_call}")
            yield f"write {number} fails", run, (3, CANNOT_WRITE), text[:(number - 1) * octets_a_call]


def faults_with_the_library(program):
    """By each command and file."""
    with tempfile.TemporaryDirectory() as room, ThreadPoolExecutor(os.cpu_count()) as pool:
        library = built(Path(room))
        each = list(itertools.product((faults_of_reads, faults_of_writes), COMMANDS, ROWS))
        all_of = lambda to: list(to[0](library, program, to[1], octets(HERE / to[2] / "input.hex")))
        for (_, words, row), runs in zip(each, pool.map(all_of, each)):
            for name, run, ended, text in runs:
                is_right = run.ended() == ended and run.text == text
                yield f"{words[0]} of {row}: {name}", None if is_right else f"{run.ended()}, {run.text!r:.200}"


def long_file(count):
    """Heartbeats of rising counts, of a writer that every reader is matched with."""
    front = bytes.fromhex("52545053020500000a0a0a0a0a0a0a0a0a0a0a0a07011c000000010700000102")
    one, none = (1).to_bytes(4, "little"), bytes(4)
    body = (front + none + one + none + one + number.to_bytes(4, "little") for number in range(1, count + 1))
    return files.of_datagrams(body)


def ended(process):
    """The status of a process, what is left on its standard output, and its standard error."""
    out, err = process.communicate(timeout=SECONDS)
    return process.returncode, out, err


def started(words, **how):
    """A process whose standard output, if nothing else is said, and standard error are read here."""
    return subprocess.Popen(words, **{"stdout": subprocess.PIPE, "stderr": subprocess.PIPE, **how})


def ended_without_a_reader(process):
    """How a process ends when nobody reads its standard output any more."""
    process.stdout.close()
    process.stdout = None
    return ended(process)


def given_files(room):
    """A long file, a short one, and a short one that may not be read."""
    paths = [room / name for name in ("long.rdg", "short.rdg", "hidden.rdg")]
    for path, count in zip(paths, (60_000, 10, 10)):
        path.write_bytes(long_file(count))
    paths[2].chmod(0)
    return paths


def faults_of_places(program, room):
    """Of what can't be read or written from the start. What may not be read is read by somebody who isn't root."""
    file, short, hidden = given_files(room)
    own = shutil.copy(program, room / "program")
    room.chmod(0o755)
    someone = {"user": NOBODY, "group": NOBODY} if os.geteuid() == 0 else {}
    for command in (["dump"], ["explain"], ["replay", *OPTIONS[2:]], ["samples", *OPTIONS[2:]]):
        words = lambda path, by=program, command=command: [by, command[0], str(path), *command[1:]]
        for name, path in (("a folder", room), ("a file that isn't there", room / "missing.rdg")):
            yield f"{command[0]} of {name}", ended(started(words(path))) == (3, b"", CANNOT_READ)
        got = ended(started(words(hidden, own), **someone))
        yield f"{command[0]} of a file that may not be read", got == (3, b"", CANNOT_READ)
        with open("/dev/full", "wb") as full:
            got = ended(started(words(short), stdout=full))
        yield f"{command[0]} to a full disk", got == (3, None, CANNOT_WRITE)
        got = ended_without_a_reader(started(words(file)))
        yield f"{command[0]} to a closed pipe", got == (3, None, CANNOT_WRITE)


def faults_while_it_runs(program, room):
    """Of a pipe that is closed, and a file that is cut, when the first octets were written."""
    file, data = room / "long.rdg", long_file(60_000)
    file.write_bytes(data)
    text = subprocess.run([program, "dump", str(file)], capture_output=True, check=True).stdout
    process = started([program, "dump", str(file)])
    is_front = text.startswith(os.read(process.stdout.fileno(), 10))
    got = ended_without_a_reader(process)
    yield "dump to a pipe that is closed later", is_front and got == (3, None, CANNOT_WRITE)
    for length in (len(data) - 7, 0):
        file.write_bytes(data)
        process = started([program, "dump", str(file)])
        front = os.read(process.stdout.fileno(), 10)
        os.truncate(file, length)
        status, out, err = ended(process)
        written = front + out
        is_cut = (status, err) == (3, b"rtps_listen: cut record %d\n" % written.count(b"\n"))
        is_right = text.startswith(written) and written.endswith(b"\n") and (is_cut or (status, err) == (0, b""))
        yield f"dump of a file that is cut to {length} octets while it is read", is_right


def main():
    if len(sys.argv) != 2 or not os.path.isfile(sys.argv[1]):
        print(__doc__, file=sys.stderr)
        return 2
    program = os.path.abspath(sys.argv[1])
    faults = list(faults_with_the_library(program))
    with tempfile.TemporaryDirectory() as room:
        places = [*faults_of_places(program, Path(room)), *faults_while_it_runs(program, Path(room))]
        faults += [(name, None if is_right else "it ended otherwise") for name, is_right in places]
    failed = [f"{name}: {fault}" for name, fault in faults if fault]
    print("".join(f"{fault}\n" for fault in failed), end="")
    print(f"{len(faults) - len(failed)} passed, {len(failed)} failed")
    return 1 if failed else 0


if __name__ == "__main__":
    sys.exit(status_of(main))
