"""The crates that crates.txt names, and sums of what they hold."""

import hashlib
import os
import re
import subprocess
from dataclasses import dataclass
from pathlib import Path

TOP = Path(__file__).resolve().parent.parent
PARTS = ("src", "specs", "proofs")
TESTS = ("tests", "tests.rt")
"""What of src has the tests of a crate. No check or build is given it, so no proof hangs on it."""
HIDDEN = ("format", "toolchain", "lang/antt/made.json")
"""What of a built library holds bodies, or sums of them: the crates above it prove nothing by these."""


@dataclass(frozen=True)
class Crate:
    name: str
    folder: Path
    line: str
    """Its line of crates.txt."""
    below: tuple
    """The crates of the repository that it stands on, lowest first."""

    @property
    def out(self):
        """Where rt keeps its work."""
        return self.folder / "out"

    @property
    def uses(self):
        """The names of the libraries that it uses."""
        return self.line.partition(":")[2].split()

    @property
    def is_program(self):
        return (self.folder / "src" / "main.rt").is_file()

    def files(self, *parts):
        """Its files in these folders, in order."""
        found = (path for part in parts or PARTS for path in (self.folder / part).rglob("*"))
        return sorted(path for path in found if path.is_file())

    def code(self):
        """Its files but for its tests."""
        tests = [self.folder / "src" / name for name in TESTS]
        return [path for path in self.files() if not {path, *path.parents} & set(tests)]

    def has_tests(self):
        return any("#[test]" in path.read_text(encoding="utf-8") for path in self.files("src"))

    def lines(self):
        """How many lines it has, as a measure of the work of proving it."""
        return sum(path.read_bytes().count(b"\n") for path in self.files())


def crates_in(top):
    """The crates of a repository, lowest first."""
    lines = {}
    for line in (top / "crates.txt").read_text(encoding="utf-8").splitlines():
        line = line.partition("#")[0].strip()
        if line:
            lines[line.partition(":")[0].split()[0]] = line
    made = {}

    def make(name):
        if name not in made:
            uses = [use for use in lines[name].partition(":")[2].split() if use in lines]
            each = [crate for use in uses for crate in (*make(use).below, make(use))]
            made[name] = Crate(name, top / "crates" / name, lines[name], tuple(dict.fromkeys(each)))
        return made[name]

    return sorted(map(make, lines), key=lambda crate: len(crate.below))


def strays(top, crates):
    """The .rt and .antt files of a repository that no check reads."""
    read = {path for crate in crates for part in PARTS for path in crate.files(part) if (path.suffix == ".rt") == (part == "src")}
    found = []
    for at, folders, files in os.walk(top):
        folders[:] = [name for name in folders if name not in ("out", ".git")]
        found += [Path(at, name) for name in files if name.endswith((".rt", ".antt"))]
    return sorted(path.relative_to(top) for path in set(found) - read)


def handles_in(top):
    """The words of the file HANDLES."""
    return set(re.findall(r"Threads|Wait|Net|Processes", (top / "HANDLES").read_text(encoding="utf-8")))


def sum_of(files, top):
    """One sum of the names and the contents of files below a folder."""
    total = hashlib.sha256()
    for path in files:
        each = hashlib.sha256(path.read_bytes()).hexdigest()
        total.update(f"{path.relative_to(top)}\0{each}\n".encode())
    return total.hexdigest()


def tree_sum(folder):
    return sum_of(sorted(path for path in folder.rglob("*") if path.is_file()), folder)


def joined_sum(*parts):
    """One sum of texts."""
    return hashlib.sha256("\n".join(parts).encode()).hexdigest()


def sources_sum(crate, toolchain):
    """A sum of all that a crate is built from: its code, that of the crates below it, the toolchain."""
    return joined_sum(toolchain, *(f"{each.line}\n{sum_of(each.code(), each.folder)}" for each in (*crate.below, crate)))


def shown_sum(crate):
    """A sum of all that a crate's built library shows to the crates above it: types, contracts and lemmas, and no body."""
    library = crate.out / "rlib" / f"{crate.name}.rlib"
    hidden = [library / name for name in HIDDEN]
    found = sorted(path for path in library.rglob("*") if path.is_file() and not {path, *path.parents} & set(hidden))
    if not found:
        raise FileNotFoundError(library)
    return sum_of(found, library)


def toolchain_line():
    """What the toolchain says of itself."""
    return subprocess.run(["rt", "version"], stdout=subprocess.PIPE, text=True, check=True).stdout.strip()
