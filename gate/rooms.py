"""Copies of a crate and of what is below it, in which one rt works while others work elsewhere.

An rt holds the folders of its crate and of all crates below it, so two of them share no copy. The crates below need
only their built library there.
"""

import fcntl
import shutil
import threading
from collections import defaultdict
from contextlib import contextmanager

from gate.crates import PARTS, TESTS, Crate, shown_sum
from gate.kept import link_tree

BESIDE = ("data", "stdin", "stdout", "args", "status")


@contextmanager
def only_run(top, say):
    """Waits until no other run works in a repository, which it says, and gives the folder for its rooms: in the folder
    of git, which no other command reads for sources."""
    folder = top / ".git" if (top / ".git").is_dir() else top / "target"
    folder.mkdir(exist_ok=True)
    with open(folder / "check.lock", "w", encoding="utf-8") as lock:
        try:
            fcntl.flock(lock, fcntl.LOCK_EX | fcntl.LOCK_NB)
        except OSError:
            say("waiting until another run in this repository has ended")
            fcntl.flock(lock, fcntl.LOCK_EX)
        try:
            yield folder / "check-rooms"
        finally:
            shutil.rmtree(folder / "check-rooms", ignore_errors=True)


class Rooms:
    def __init__(self, folder):
        self.folder = folder
        self.count = 0
        self.shows = {}
        """By crate, a sum of what its library shows."""
        self.locks = defaultdict(threading.Lock)
        shutil.rmtree(folder, ignore_errors=True)

    @contextmanager
    def room(self, crate, texts=None, has_tests=False, has_work=True):
        """A copy of a crate, with its tests or without, some of its files with texts of their own; with the work that it has so
        far and the libraries below it, or without any."""
        with self.locks[""]:
            self.count += 1
            at = self.folder / str(self.count)
        try:
            for each in (*crate.below, crate):
                is_last = each is crate
                copied(each, at / "crates" / each.name, PARTS + BESIDE * is_last, is_last and has_tests)
                for part in ("rlib", "incremental") if is_last else ("rlib",):
                    with self.locks[each.name]:
                        if has_work and (each.out / part).is_dir():
                            link_tree(each.out / part, at / "crates" / each.name / "out" / part)
            (at / "crates.txt").write_text("".join(f"{each.line}\n" for each in (*crate.below, crate)), encoding="utf-8")
            below = tuple(Crate(each.name, at / "crates" / each.name, each.line, ()) for each in crate.below)
            inside = Crate(crate.name, at / "crates" / crate.name, crate.line, below)
            for path, text in (texts or {}).items():
                (inside.folder / path).write_text(text, encoding="utf-8")
            yield inside
        finally:
            shutil.rmtree(at, ignore_errors=True)

    def shown(self, crate):
        """A sum of what a crate's library shows, made while no task puts another library in its place."""
        with self.locks[crate.name]:
            if crate.name not in self.shows:
                self.shows[crate.name] = shown_sum(crate)
            return self.shows[crate.name]

    def adopt(self, crate, inside):
        """Gives a crate the work that was done in a room."""
        with self.locks[crate.name]:
            self.shows.pop(crate.name, None)
            crate.out.mkdir(exist_ok=True)
            for part in ("rlib", "incremental"):
                if (inside.out / part).is_dir():
                    shutil.rmtree(crate.out / part, ignore_errors=True)
                    (inside.out / part).rename(crate.out / part)
            for path in (inside.out / crate.name, inside.out / f"{crate.name}.stamp"):
                if path.is_file():
                    path.replace(crate.out / path.name)


def copied(crate, to, parts, has_tests):
    """Copies these files and folders of a crate, with its tests or without."""
    left_out = lambda at, names: TESTS if at == str(crate.folder / "src") and not has_tests else ()
    to.mkdir(parents=True)
    for part in parts:
        if (crate.folder / part).is_dir():
            shutil.copytree(crate.folder / part, to / part, ignore=left_out)
        elif (crate.folder / part).is_file():
            shutil.copyfile(crate.folder / part, to / part)
