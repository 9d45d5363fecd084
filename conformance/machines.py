"""Two machines, which a cable joins, and programs that run on them in the background. The machines are network namespaces: one is
that of the script itself, which has to be one of its own. Both, and all that is sent, are gone with it."""

import os
import re
import subprocess
import time
from pathlib import Path

OURS, THEIRS = "10.9.0.1", "10.9.0.2"
"""The addresses of both ends of the cable."""
SECONDS = 90
"""How long anything may take that is waited for."""


class Unlike(Exception):
    """What is not as it has to be."""


class CannotRun(Exception):
    """Why nothing can be run."""


def look(name, got, wanted):
    if got != wanted:
        raise Unlike(f"{name}: {got!r} and not {wanted!r}")


def wait_until(holds, fault):
    """Waits until something holds; where it doesn't within the time of a step, this is unlike what has to be."""
    end = time.monotonic() + SECONDS
    while not holds():
        if time.monotonic() > end:
            raise Unlike(fault())
        time.sleep(0.005)


def done(*words, text=""):
    """Runs a command that has to end well, and returns what it prints."""
    try:
        ended = subprocess.run([*map(str, words)], input=text, capture_output=True, text=True, check=False)
    except OSError as fault:
        raise CannotRun(f"{words[0]}: {fault.strerror}") from fault
    if ended.returncode:
        raise CannotRun(f"{' '.join(map(str, words))}: {ended.stderr[-1000:] or ended.stdout[-1000:]}")
    return ended.stdout


class Machines:
    """This namespace and another one, which a cable joins."""

    def __init__(self):
        self.other = subprocess.Popen(["unshare", "--net", "sleep", "infinity"])
        own = os.readlink("/proc/self/ns/net")
        wait_until(lambda: os.readlink(f"/proc/{self.other.pid}/ns/net") != own, lambda: "there is no second namespace")
        done("ip", "link", "add", "here", "type", "veth", "peer", "name", "there", "netns", str(self.other.pid))
        for enter, cable, address in ((), "here", OURS), (self.enter(), "there", THEIRS):
            done(*enter, "ip", "address", "add", f"{address}/24", "dev", cable)
            for link in ("lo", cable):
                done(*enter, "ip", "link", "set", link, "up")

    def enter(self):
        """The words that start a command on the other machine."""
        return ("nsenter", f"--net=/proc/{self.other.pid}/ns/net", "--")

    def lose(self, coming=0, going=0):
        """From now on so many of a hundred UDP datagrams are lost that come to us, and that go to the other machine."""
        for enter, lost in ((), coming), (self.enter(), going):
            chosen = "" if lost == 100 else f"numgen random mod 100 < {lost}"
            rule = f"meta l4proto udp {chosen} counter drop" * bool(lost)
            done(*enter, "nft", "-f", "-", text="flush ruleset\n" + f"table inet cable {{ chain input {{ "
                 f"type filter hook input priority 0; {rule}; }}; }}" * bool(lost))

    def lost(self):
        """How many datagrams were lost since, on either side."""
        rules = done("nft", "list", "ruleset"), done(*self.enter(), "nft", "list", "ruleset")
        return [int(count) for rule in rules for count in re.findall(r"counter packets (\d+)", rule)]

    def end(self):
        self.other.kill()
        self.other.wait()


def ports(process):
    """The ports of UDP that a process has bound."""
    sockets = set()
    for file in os.listdir(f"/proc/{process}/fd"):
        try:
            sockets.add(os.readlink(f"/proc/{process}/fd/{file}"))
        except FileNotFoundError:
            continue
    rows = [line.split() for line in Path(f"/proc/{process}/net/udp").read_text("ascii").splitlines()[1:]]
    return {int(row[1].rpartition(":")[2], 16) for row in rows if f"socket:[{row[9]}]" in sockets}


class Running:
    """A program in the background, whose output goes to files. It is killed at the end where it still runs."""

    def __init__(self, folder, name, words, environment):
        self.name, self.out, self.err = name, folder / f"{name}.out", folder / f"{name}.err"
        with open(self.out, "wb") as out, open(self.err, "wb") as err:
            self.process = subprocess.Popen([str(word) for word in words], stdin=subprocess.PIPE, stdout=out, stderr=err,
                                            env={"PATH": os.environ["PATH"], **environment})
        self.began = time.monotonic()

    def __enter__(self):
        return self

    def __exit__(self, *_):
        self.process.stdin.close()
        if self.process.poll() is None:
            self.process.kill()
            self.process.wait()

    def lines(self):
        """The lines that it has written."""
        return self.out.read_text(encoding="utf-8").splitlines()

    def error(self):
        return self.err.read_text(encoding="utf-8")[-500:]

    def says(self, wanted, times=1):
        """Waits until so many of its lines match a pattern."""
        found = lambda: sum(bool(re.fullmatch(wanted, line)) for line in self.lines()) >= times
        fault = lambda: f"{self.name} doesn't say {wanted!r} {times} times but {self.lines()[-3:]} and {self.error()!r}"
        wait_until(lambda: found() or self.process.poll() is not None, fault)
        if not found():
            raise Unlike(fault())

    def goes_on(self):
        """A writer that waits for a line goes on."""
        self.process.stdin.write(b"\n")
        self.process.stdin.flush()

    def ends(self, status=0):
        wait_until(lambda: self.process.poll() is not None, lambda: f"{self.name} doesn't end")
        if self.process.returncode != status:
            raise Unlike(f"{self.name} ends with {self.process.returncode}, and not {status}: {self.error()!r}")
