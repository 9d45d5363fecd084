"""What runs on this machine leave to later ones: the out folder of each crate, and a record of what passed.

The record has, by name of a task that passed, a sum of all that it hangs on, and of each kept folder a sum of its files
and of the toolchain that made it. A folder that is cut, changed or of another toolchain is not taken, so the crate is
proved from nothing. What of a kept folder still holds is judged by the checker, by content.
"""

import fcntl
import json
import os
import shutil
import tempfile
from concurrent.futures import ProcessPoolExecutor
from contextlib import contextmanager
from pathlib import Path

from gate.crates import joined_sum, tree_sum

RECORD = "record.json"
IN_PLACE = ("rattle-last-used", "offered.json", "linked-compared", "facades-compared")
"""Files of its work that the toolchain writes in place."""


def default_folder():
    """Where work is kept; where nothing can be written there, a folder that no later run knows."""
    cache = os.environ.get("XDG_CACHE_HOME") or os.path.join(os.path.expanduser("~"), ".cache")
    folder = Path(os.environ.get("CHECK_KEPT") or os.path.join(cache, "thrushpodium"))
    try:
        folder.mkdir(parents=True, exist_ok=True)
        with tempfile.TemporaryFile(dir=folder):
            return folder
    except OSError:
        return Path(tempfile.mkdtemp())


def link_tree(source, target):
    """Copies an out folder, or one in it, by links where they can be made."""
    shutil.copytree(source, target, copy_function=linked, dirs_exist_ok=True)


def linked(source, target):
    """Links a file of the toolchain's that it writes anew; what it writes in place, as a program right in an out folder,
    is copied, so that no later run changes a folder that is kept."""
    try:
        if Path(source).parent.name == "out" or Path(source).name in IN_PLACE:
            raise OSError
        os.link(source, target)
    except OSError:
        shutil.copy2(source, target)


def of_each(call, crates):
    """What a call gives for each crate, by processes, since threads of the interpreter don't sum small files at once."""
    if len(crates) < 2:
        return [call(crate) for crate in crates]
    with ProcessPoolExecutor() as pool:
        return list(pool.map(call, crates))


class Kept:
    def __init__(self, folder, toolchain):
        self.folder = folder
        self.toolchain = toolchain

    @contextmanager
    def locked(self):
        """No two runs change the kept folders at once."""
        self.folder.mkdir(parents=True, exist_ok=True)
        with open(self.folder / "lock", "w", encoding="utf-8") as lock:
            fcntl.flock(lock, fcntl.LOCK_EX)
            yield

    def seal(self, folder):
        """A sum of a kept folder, and of the toolchain that made it."""
        return joined_sum(self.toolchain, tree_sum(folder / "out"))

    def take(self, crate):
        """Gives a crate the work that is kept, where it has none of its own, and returns whether it did."""
        folder = self.folder / crate.name
        if (crate.out / "incremental").is_dir() or not self.passed(f"{crate.name}: kept", self.seal(folder)):
            return False
        shutil.rmtree(crate.out, ignore_errors=True)
        link_tree(folder / "out", crate.out)
        return True

    def take_all(self, crates):
        """Gives each crate the work that is kept, and returns the names of those that took it."""
        with self.locked():
            took = of_each(self.take, crates)
        return [crate.name for crate, is_taken in zip(crates, took) if is_taken]

    def keep(self, crate):
        """Keeps a crate's work in the place of what is kept of it."""
        self.keep_all([crate])

    def keep_all(self, crates):
        """Keeps the work of each crate that has any, and returns the names of those of which it is kept now."""
        with self.locked():
            seals = of_each(self.placed, crates)
            for crate, seal in zip(crates, seals):
                if seal:
                    self.note_locked(f"{crate.name}: kept", seal, 1)
        return [crate.name for crate, seal in zip(crates, seals) if seal]

    def placed(self, crate):
        """Puts a crate's work in the place of what is kept of it, and returns its seal. Where that can't be done, as on a
        full disk or while the work changes, nothing is kept of the crate, so it is proved from nothing next time."""
        made, kept = self.folder / f"{crate.name}.new", self.folder / crate.name
        if not (crate.out / "incremental").is_dir():
            return None
        shutil.rmtree(made, ignore_errors=True)
        shutil.rmtree(kept, ignore_errors=True)
        try:
            link_tree(crate.out, made / "out")
            os.rename(made, kept)
            return self.seal(kept)
        except OSError:
            shutil.rmtree(made, ignore_errors=True)
            return None

    def record(self):
        """By name of a task, the sum of all that it hung on when it passed, and how much it passed with."""
        try:
            found = json.loads((self.folder / RECORD).read_text(encoding="utf-8"))
            return {name: (total, int(count)) for name, (total, count) in found.items()}
        except (OSError, ValueError, TypeError, AttributeError):
            return {}

    def passed(self, name, total):
        """How much a task passed with, where it did with all that it hangs on as it is; else 0."""
        found, count = self.record().get(name, ("", 0))
        return count if found == total else 0

    def note(self, name, total, count):
        """Records that a task passed."""
        with self.locked():
            self.note_locked(name, total, count)

    def note_locked(self, name, total, count):
        made = self.folder / f"{RECORD}.new"
        made.write_text(json.dumps({**self.record(), name: (total, count)}, indent=1), encoding="utf-8")
        os.rename(made, self.folder / RECORD)
