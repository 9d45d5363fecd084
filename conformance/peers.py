#!/usr/bin/env python3
"""Runs `listen --announce` beside writers of other vendors, on one machine and on two.

    peers.py PROGRAM [--install] [--only WORDS]

A small writer of each vendor is built from the distribution's packages, which --install installs first (apt-get, as root). The
machines are two network namespaces, which a cable joins (veth): `listen` is in one, the writer in the other or in the same one. They
and all that is sent are gone with this script. A writer has the settings that its vendor gives it, or those for loopback. The network
is good, or it is bad: it loses, repeats and reorders what the writer sends (peers/lossy.c), or loses a part or all of what is sent on
the cable (nft). The table RUNS has all runs; each says what has to come, and which network it has. A run that fails names itself;
--only carries out those whose name has these words. It isn't part of ./check, which needs none of those packages. The last line is
'N passed, M failed'; the status is 2 where nothing can be run.
"""

import argparse
import itertools
import os
import re
import shutil
import signal
import socket
import subprocess
import sys
import tempfile
import time
from collections import defaultdict
from contextlib import ExitStack
from pathlib import Path
from typing import NamedTuple

from machines import OURS, THEIRS, CannotRun, Machines, Running, Unlike, done, look, ports, wait_until

SOURCES = Path(__file__).resolve().parent / "peers"
DOMAIN, TOPIC, SAMPLES = 0, "Square", 200
LOCAL = "127.0.0.1"
COUNT, AT_ONCE = 20_000, 1.0
"""After how many datagrams `listen` ends, and within how many seconds readers are gone that say farewell."""
FIRST_SAMPLE = 10
"""Within how many seconds of its start `listen` has to present a sample of a writer that is there, on a good network."""
INSIDE = "--inside"
"""The word by which this script knows that it runs in its namespace."""
LINE = re.compile(r"\d+:\d+ reader (\d+) sample ([0-9a-f]{32}) (\d+) \S+ value 424c5545 (\d+) (\d+) 30")
"""A sample of a writer: a blue square."""


# ---- the vendors

class Vendor(NamedTuple):
    name: str
    packages: tuple
    variable: str
    """What in its environment tells its library of a file with settings; without one it has its vendor's."""
    form: str
    nearby: str
    """The address at which its writer, in its default configuration, finds and reaches `listen` on its own machine, if there is one."""

    def environment(self, settings):
        path = SOURCES / f"{self.name}_{settings}.xml"
        return {self.variable: self.form.format(path)} if path.exists() else {}


CYCLONE = Vendor("cyclone", ("cyclonedds-dev", "cyclonedds-tools"), "CYCLONEDDS_URI", "file://{}", OURS)
FASTDDS = Vendor("fastdds", ("g++", "libfastrtps-dev"), "FASTRTPS_DEFAULT_PROFILES_FILE", "{}", "")
OTHERS = ("gcc", "libc6-dev", "iproute2", "util-linux", "nftables")


def install():
    done("apt-get", "update")
    done("apt-get", "install", "--yes", "--no-install-recommends", *OTHERS, *CYCLONE.packages, *FASTDDS.packages)


def build(folder):
    """Builds the writers, and the library of bad networks."""
    done("gcc", "-O1", "-Wall", "-shared", "-fPIC", "-o", folder / "lossy.so", SOURCES / "lossy.c", "-ldl", "-lpthread")
    done("idlc", "-o", folder, SOURCES / "ShapeType.idl")
    done("gcc", "-O1", "-Wall", "-I", folder, "-o", folder / "cyclone", SOURCES / "cyclone.c", folder / "ShapeType.c", "-lddsc")
    done("g++", "-O1", "-Wall", "-o", folder / "fastdds", SOURCES / "fastdds.cpp", "-lfastrtps", "-lfastcdr")


# ---- a run

class Run(NamedTuple):
    """What happens, with how many readers of which kind, where the writer is and which network there is."""
    story: object
    where: str = "another machine"
    network: str = "good network"
    readers: int = 1
    reliable: bool = True

    def __str__(self):
        kind = "reliable" if self.reliable else "best effort"
        name = self.story.__name__.replace("_", " ")
        return f"{name}, {self.where}, {self.network}, {self.readers} {kind} reader{'s' * (self.readers > 1)}"


class Stage:
    """Where a run is carried out. It ends all that it has started."""

    def __init__(self, program, folder, machines, vendor, run):
        self.program, self.folder, self.machines, self.vendor, self.run = program, folder, machines, vendor, run
        self.address = {"loopback": LOCAL, "this machine": vendor.nearby, "another machine": OURS}[run.where]
        self.ended, self.listeners, self.numbers = ExitStack(), [], itertools.count()

    def __enter__(self):
        self.machines.lose(*[25, 25] if self.run.network == "a quarter is lost" else [])
        return self

    def __exit__(self, *_):
        self.ended.close()
        self.machines.lose()

    def listen(self, *words):
        """Starts `listen`; on loopback it announces itself to the ports of participants alone."""
        peers = ["--peers", LOCAL, "--no-multicast"] if self.run.where == "loopback" else []
        kind = [] if self.run.reliable else ["--best-effort"]
        words = ["--domain", DOMAIN, "--topic", TOPIC, "--readers", self.run.readers, *kind, "--count", COUNT, "--turns", 100_000, *words]
        command = [self.program, "listen", "--announce", "--address", self.address, *peers, *words]
        made = self.ended.enter_context(Running(self.folder, f"listen{next(self.numbers)}", command, {}))
        self.listeners.append(made)
        wait_until(lambda: made.process.poll() is not None or len(ports(made.process.pid)) == 2, lambda: "listen binds no ports")
        return made

    def write(self, steps, settings="", topic=TOPIC):
        """Starts the writer with these steps and settings, and waits until it has sockets."""
        is_far = self.run.where == "another machine"
        environment = self.vendor.environment(settings or self.run.where)
        environment |= {"LD_PRELOAD": str(self.folder / "lossy.so")} if self.run.network == "bad network" else {}
        command = [*self.machines.enter() * is_far, self.folder / self.vendor.name, DOMAIN, topic, *steps.split()]
        made = self.ended.enter_context(Running(self.folder, f"writer{next(self.numbers)}", command, environment))
        wait_until(lambda: made.process.poll() is not None or len(ports(made.process.pid)) > 2, lambda: "the writer binds no ports")
        return made

    def leave(self, *writers):
        """All `listen` end, since they get datagrams that are no messages; the readers say farewell, and the writers see it at once."""
        with socket.socket(socket.AF_INET, socket.SOCK_DGRAM) as own:
            for listener in self.listeners:
                look("listen's early end", (listener.process.poll(), listener.error()), (None, ""))
                port = max(ports(listener.process.pid))
                while listener.process.poll() is None:
                    for _ in range(20):
                        own.sendto(b"?", (self.address, port))
                    time.sleep(0.001)
                listener.ends()
        left = time.monotonic()
        for writer in writers:
            writer.says("0 matched")
            look("the readers leave at once", time.monotonic() - left < AT_ONCE, True)
            writer.ends()
        for listener in self.listeners:
            look("standard error of listen", listener.error(), "")


# ---- what readers present

def presented(listener):
    """By reader and writer, the numbers of the samples that it presents, in order."""
    numbers = defaultdict(lambda: defaultdict(list))
    for line in listener.lines():
        if line.split(" ")[3:4] != ["sample"]:
            continue
        found = LINE.fullmatch(line)
        if not found:
            raise Unlike(f"a sample that was never written: {line}")
        number, x, y = map(int, found.groups()[2:])
        look(f"the values of sample {number}", (x, y), (number, 2 * number))
        numbers[int(found[1])][found[2]].append(number)
    return numbers


def look_at(listener, readers, *written):
    """Each reliable reader has presented just these samples of the writers, once and in order, writer by writer."""
    numbers = presented(listener)
    look("the readers", sorted(numbers), list(range(readers)))
    for rank, by_writer in numbers.items():
        look(f"the samples of reader {rank}", [*by_writer.values()], [*map(list, written)])
    if any(line.split(" ")[3:4] == ["lost"] for line in listener.lines()):
        raise Unlike("a reliable reader lost samples")


def look_at_rising(listener, readers):
    """Best-effort readers have presented samples of one writer in order, and none twice; returns how many."""
    numbers = presented(listener)
    look("the readers", sorted(numbers), list(range(readers)))
    counts = []
    for by_writer in numbers.values():
        got, = by_writer.values()
        if not all(one < other for one, other in itertools.pairwise([0, *got, SAMPLES + 1])):
            raise Unlike(f"the samples don't rise: {got}")
        counts.append(len(got))
    return counts


def losses(stage, writer):
    """Something was lost where the network is bad, and nothing was said by the writer where it is good."""
    if stage.run.network == "a quarter is lost":
        lost = stage.machines.lost()
        look("datagrams are lost in both directions", len(lost) == 2 and all(lost), True)
        return f" ({lost[0]} lost that came, {lost[1]} that went)"
    if stage.run.network == "good network":
        look("standard error of the writer", writer.error(), "")
        return ""
    counts = re.fullmatch(r"lossy: (\d+) sent, (\d+) lost, (\d+) twice, (\d+) late\n", writer.error())
    if not counts or "0" in counts.groups():
        raise Unlike(f"standard error of the writer: {writer.error()!r}")
    return f" ({writer.error().strip().removeprefix('lossy: ')})"


# ---- what happens

def all_samples(stage):
    """Whoever is there first, all samples come, the wait for acknowledgments ends well, and the readers leave at once. Best-effort
    readers miss what comes before they have matched, so the writer waits for that."""
    readers, reliable = stage.run.readers, stage.run.reliable
    steps = f"matched {readers} {'' if reliable else 'line'} write {SAMPLES} acks 60 matched 0"
    listener = stage.listen() if stage.run.where == "loopback" else None
    writer = stage.write(steps)
    listener = listener or stage.listen()
    if not reliable:
        listener.says(r".* matched \w+", readers)
        writer.goes_on()
    listener.says(LINE)
    first = time.monotonic() - max(listener.began, writer.began)
    writer.says("acknowledged")
    if reliable:
        listener.says(LINE, SAMPLES * readers)
    else:
        time.sleep(0.5)
    lossy = losses(stage, writer) if stage.run.network == "a quarter is lost" else ""
    stage.machines.lose()
    stage.leave(writer)
    if reliable:
        look_at(listener, readers, range(1, SAMPLES + 1))
    counts = [SAMPLES] * readers if reliable else look_at_rising(listener, readers)
    if stage.run.network == "good network":
        look(f"a first sample within {FIRST_SAMPLE} seconds", first < FIRST_SAMPLE, True)
    return f"{'/'.join(map(str, counts))} of {SAMPLES}, the first after {first:.1f} s{lossy or losses(stage, writer)}"


def the_match_stays(stage):
    """While nothing is written for longer than the leases that the vendors give, the match stays."""
    listener = stage.listen()
    writer = stage.write("matched 1 write 10 acks 20 line write 20 acks 20 matched 0")
    writer.says("acknowledged")
    time.sleep(25)
    writer.goes_on()
    writer.says("acknowledged", 2)
    listener.says(LINE, 30)
    look("the end of a match", [line for line in listener.lines() if " unmatched " in line], [])
    stage.leave(writer)
    look_at(listener, 1, range(1, 31))
    return "10 and 20 of 30, 25 s between them"


def our_lease_ends(stage):
    """What we send is lost until the writer forgets us. When it finds us again, all samples come."""
    listener = stage.listen("--lease", "2")
    writer = stage.write("matched 1 write 10 acks 20 matched 0 matched 1/2 write 20 acks 20 matched 0")
    writer.says("acknowledged")
    stage.machines.lose(going=100)
    writer.says("0 matched")
    stage.machines.lose()
    return rematched(stage, listener, writer)


def its_lease_ends(stage, going=0):
    """What the writer sends is lost until we forget it; it doesn't forget us. When we find it again, all samples come."""
    listener = stage.listen("--lease", "60")
    writer = stage.write("matched 1 write 10 acks 20 line matched 1/2 write 20 acks 20 matched 0", "lease")
    writer.says("acknowledged")
    stage.machines.lose(coming=100, going=going)
    listener.says(r".* unmatched \w+")
    stage.machines.lose()
    writer.goes_on()
    return rematched(stage, listener, writer)


def its_lease_ends_both_ways(stage):
    """The same, where what we send is lost, too."""
    return its_lease_ends(stage, 100)


def rematched(stage, listener, writer):
    """All samples came, before the match ended and after the next one began."""
    since = time.monotonic()
    writer.says("1 matched", 2)
    took = time.monotonic() - since
    writer.says("acknowledged", 2)
    listener.says(LINE, 30)
    stage.leave(writer)
    look_at(listener, 1, range(1, 31))
    return f"10 and 20 of 30, the next match after {took:.1f} s"


def a_writer_is_killed(stage):
    """A writer is killed, and another one started: all samples of both come, and the first match ends with the lease."""
    listener = stage.listen()
    killed = stage.write("matched 1 write 10 acks 20 line", "lease")
    killed.says("acknowledged")
    killed.process.send_signal(signal.SIGKILL)
    killed.ends(-signal.SIGKILL)
    writer = stage.write("matched 1 write 20 acks 20 matched 0")
    writer.says("acknowledged")
    listener.says(r".* unmatched \w+")
    stage.leave(writer)
    look_at(listener, 1, range(1, 11), range(1, 21))
    return "10 and 20 of 30"


def listen_is_killed(stage):
    """`listen` is killed, and started again: all samples come that are written once the writer has forgotten the first one, whose lease
    ends soon."""
    killed = stage.listen("--lease", "2")
    writer = stage.write("matched 1 write 10 acks 20 line matched 1/2 write 20 acks 20 matched 0")
    writer.says("acknowledged")
    killed.says(LINE, 10)
    killed.process.send_signal(signal.SIGKILL)
    killed.ends(-signal.SIGKILL)
    stage.listeners.remove(killed)
    listener = stage.listen()
    look("the ports of the first one", ports(listener.process.pid), {7410, 7411})
    writer.goes_on()
    writer.says("acknowledged", 2)
    listener.says(LINE, 20)
    stage.leave(writer)
    look_at(killed, 1, range(1, 11))
    look_at(listener, 1, range(11, 31))
    return "10 and 20 of 30"


def without_multicast(stage):
    """`listen` speaks to the writer's address alone, where the writer has the ports of a participant."""
    listener = stage.listen("--peers", THEIRS, "--no-multicast")
    writer = stage.write("matched 1 write 20 acks 20 matched 0", "index")
    writer.says("acknowledged")
    listener.says(LINE, 20)
    stage.leave(writer)
    look_at(listener, 1, range(1, 21))
    return "20 of 20"


def two_receivers(stage):
    """Two `listen` at one address have the ports of the first participants of the domain, and both get all."""
    listeners = [stage.listen() for _ in range(2)]
    writer = stage.write("matched 2 write 20 acks 20 matched 0")
    writer.says("acknowledged")
    look("the ports of both", [ports(listener.process.pid) for listener in listeners], [{7410, 7411}, {7412, 7413}])
    for listener in listeners:
        listener.says(LINE, 20)
    stage.leave(writer)
    for listener in listeners:
        look_at(listener, 1, range(1, 21))
    return "20/20 of 20"


def beside_the_first(stage):
    """The writer has taken the ports of the domain's first participant, on this machine: `listen` takes the next ones."""
    writer = stage.write("matched 1 write 20 acks 20 matched 0", "index")
    look("the writer takes the first ports", {7410, 7411} <= ports(writer.process.pid), True)
    listener = stage.listen()
    writer.says("acknowledged")
    look("the next ports", ports(listener.process.pid), {7412, 7413})
    listener.says(LINE, 20)
    stage.leave(writer)
    look_at(listener, 1, range(1, 21))
    return "20 of 20"


def another_topic(stage):
    """A writer of another topic finds us, and is no match: nothing comes."""
    listener = stage.listen("--lease", "10")
    writer = stage.write("line matched 0 write 20 line matched 0", topic="Circle")
    listener.says(r".* answer .*", 2)
    time.sleep(2)
    writer.goes_on()
    writer.says("0 matched")
    writer.goes_on()
    writer.says("0 matched", 2)
    stage.leave(writer)
    look("what comes", [line for line in listener.lines() if " answer " not in line], [])
    return "no match"


def acknowledgments_wait(stage):
    """While what we send is lost, a wait for acknowledgments ends badly; and then well."""
    listener = stage.listen()
    writer = stage.write("matched 1 line write 20 acks 2 acks 20 matched 0")
    writer.says("1 matched")
    stage.machines.lose(going=100)
    writer.goes_on()
    writer.says("not acknowledged")
    stage.machines.lose()
    writer.says("acknowledged")
    listener.says(LINE, 20)
    stage.leave(writer)
    look_at(listener, 1, range(1, 21))
    return "20 of 20, acknowledged once our datagrams come through"


KINDS = ((1, True), (3, True), (1, False), (3, False))
RUNS = (
    *(Run(all_samples, "loopback", network, *kind) for network in ("good network", "bad network") for kind in KINDS),
    *(Run(all_samples, "another machine", "good network", *kind) for kind in KINDS),
    Run(all_samples, "another machine", "a quarter is lost", 3),
    Run(all_samples, "this machine"),
    Run(beside_the_first, "this machine"),
    Run(without_multicast),
    Run(two_receivers),
    Run(the_match_stays),
    Run(our_lease_ends),
    Run(its_lease_ends),
    Run(its_lease_ends_both_ways),
    Run(a_writer_is_killed),
    Run(listen_is_killed),
    Run(another_topic),
    Run(acknowledgments_wait),
)


# ---- all of it

def carry_out(program, only):
    """Builds what is needed, and carries out the runs in the namespace in which this is."""
    passed, failed = 0, 0
    with tempfile.TemporaryDirectory() as name, ExitStack() as ended:
        build(Path(name))
        machines = Machines()
        ended.callback(machines.end)
        for vendor, run in itertools.product((CYCLONE, FASTDDS), RUNS):
            title = f"{vendor.name}: {run}"
            if only not in title or run.where == "this machine" and not vendor.nearby:
                continue
            try:
                with Stage(program, Path(name), machines, vendor, run) as stage:
                    print(f"{title}: {run.story(stage)}", flush=True)
                passed += 1
            except Unlike as fault:
                print(f"{title}: FAILED: {fault}", flush=True)
                failed += 1
    print(f"{passed} passed, {failed or int(not passed)} failed")
    return int(failed != 0 or not passed)


def in_a_namespace(words):
    """Starts this script anew in a network namespace of its own."""
    unshare = ["unshare", "--net", *(["--map-root-user"] if os.geteuid() else [])]
    if not shutil.which("unshare"):
        raise CannotRun("there is no unshare (util-linux), so no network namespace can be had")
    tried = subprocess.run([*unshare, "true"], capture_output=True, text=True, check=False)
    if tried.returncode:
        raise CannotRun(f"no network namespace can be had: {tried.stderr.strip()}")
    return subprocess.run([*unshare, sys.executable, __file__, *words, INSIDE], check=False).returncode


def main(words):
    parser = argparse.ArgumentParser(prog="peers.py", description=__doc__, formatter_class=argparse.RawDescriptionHelpFormatter)
    parser.add_argument("program", metavar="PROGRAM", help="the program rtps_listen")
    parser.add_argument("--install", action="store_true", help="install the packages that the writers are built from first")
    parser.add_argument("--only", metavar="WORDS", default="", help="carry out the runs whose name has these words")
    parser.add_argument(INSIDE, action="store_true", help=argparse.SUPPRESS)
    line = parser.parse_args(words)
    try:
        program = Path(line.program).resolve()
        if not os.access(program, os.X_OK):
            raise CannotRun(f"{line.program} is no program")
        if line.inside:
            return carry_out(program, line.only)
        if line.install:
            install()
        return in_a_namespace([str(program), "--only", line.only])
    except CannotRun as fault:
        print(f"peers: {fault}", file=sys.stderr)
        return 2


if __name__ == "__main__":
    sys.exit(main(sys.argv[1:]))
