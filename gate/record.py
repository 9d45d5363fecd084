"""The record of what was refused and met, which goes with the code: gate/record.txt.

A line has a crate, `edits`, `contracts` or `proof`, how many there are, and a sum of all that it hangs on. That all edits of a crate
are refused, and that each of its contracts can be met, are facts about texts: where the sum is that of the crate as it is now, its
line stands for trying them again. No line stands for a proof, which is made on each machine: of proofs the record only says what
sources they were of.
"""

import subprocess
import threading
from collections import Counter

from gate.crates import joined_sum, sources_sum

FILE = "gate/record.txt"
HEAD = "# What ./check --prove found: of each crate, how many edits were refused, contracts can be met and functions are proved.\n"
ONE_IN = 16
"""Of so many crates one is tried whatever the record says."""


def git(top, *words):
    """What git says of a repository, or nothing where it can't."""
    try:
        return subprocess.run(["git", *words], cwd=top, capture_output=True, text=True, check=True).stdout
    except (OSError, subprocess.CalledProcessError):
        return ""


def lines_of(text):
    """The lines of a record: by crate and kind, how many, and the sum. A line of another form is none."""
    rows = (line.split() for line in text.splitlines())
    return {tuple(row[:2]): (int(row[2]), row[3]) for row in rows if len(row) == 4 and row[2].isdigit()}


class Record:
    """The record as a commit of the repository has it, and what a run finds."""

    def __init__(self, top, revision):
        """Reads the record of a commit, never that of the working tree; of no commit it reads nothing."""
        self.top = top
        self.given = lines_of(git(top, "show", f"{revision}:{FILE}")) if revision else {}
        self.head = git(top, "rev-parse", "HEAD")
        self.found = {}
        self.taken = Counter()
        """By kind, how many hold by the record alone."""
        self.lock = threading.Lock()

    def stands(self, crate, kind, total):
        """How many of a crate the record says this of, with all that it hangs on as it is now; 0 where it says nothing, and for
        one crate in sixteen, another choice for each commit."""
        count, said = self.given.get((crate.name, kind), (0, ""))
        is_sampled = int(joined_sum(self.head, crate.name)[:8], 16) % ONE_IN == 0
        return 0 if is_sampled or said != total else count

    def note(self, crate, kind, count, total, taken=0):
        """Notes what was found of a crate; so many of it hold by the record alone."""
        with self.lock:
            self.found[crate.name, kind] = count, total
            self.taken[kind] += taken

    def write(self, crates):
        """Puts what was found into the record of the working tree, in the place of what it says of the same."""
        path = self.top / FILE
        lines = {**lines_of(path.read_text(encoding="utf-8") if path.is_file() else ""), **self.found}
        order = {crate.name: at for at, crate in enumerate(crates)}
        rows = sorted((order[name], kind, name, *line) for (name, kind), line in lines.items() if name in order)
        path.write_text(HEAD + "".join(f"{name} {kind} {count} {total}\n" for _, kind, name, count, total in rows), encoding="utf-8")


def proved_before(top, crates, toolchain):
    """What the record of the working tree says of proofs of the sources that are there: a claim, and nothing that was tried."""
    path = top / FILE
    lines = lines_of(path.read_text(encoding="utf-8") if path.is_file() else "")
    others = [crate.name for crate in crates if lines.get((crate.name, "proof"), (0, ""))[1] != sources_sum(crate, toolchain)]
    fit = f"{len(crates) - len(others)} of {len(crates)} crates are as it proved them with {toolchain} ({FILE})"
    return fit + (f", and not {', '.join(others)}" if 0 < len(others) < len(crates) else "")
