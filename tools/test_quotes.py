"""What the documents quote is in a source, for calls in one that is compiled and run, and what they name is there."""

import os
import re
import unittest
from functools import cache
from pathlib import Path

TOP = Path(__file__).resolve().parent.parent
RUN = ("examples/src/**/*.rt", "thrushpodium/src/tests.rt", "*/stdout")
"""Code that is run, and what programs print, below the folder of the crates."""
ALL = (*RUN, "*/src/*.rt", "*/specs/*.antt", "*/must-fail/*.edit")
QUOTING = {
    "README.md": RUN,
    "docs/LIBRARY.md": RUN,
    "crates/thrushpodium/src/lib.rt": RUN,
    "crates/thrushpodium/src/subscription.rt": RUN,
    **dict.fromkeys(("docs/OWN_TYPE.md", "docs/READING.md", "docs/TOUR.md", "CONTRIBUTING.md"), ALL),
}
"""The pages that quote, and what they quote from. Of a source the examples in its comments are looked at."""
NAMING = ("TOUR", "ARCHITECTURE", "READING", "DEFINITIONS", "PROVED", "GLOSSARY", "LIBRARY", "OWN_TYPE", "FORMATS",
          "SPEED")
"""The pages that name files."""
COMMANDS = ("./", "(cd ", "cd ", "rt ")
COMMENT = r"(?m)^\s*(?://|--|#!?\[).*$|/\*.*?\*/"
"""Comments and attributes."""
FILE = r"`([\w./-]+\.(?:rt|antt|py|md|txt))`"


@cache
def text_of(name):
    return (TOP / name).read_text(encoding="utf-8")


def bare(code):
    """Code without comments and without its layout."""
    return "".join(re.sub(COMMENT, "", code).split())


@cache
def sources(patterns):
    """What the files of these patterns hold, bare."""
    return [bare(text_of(path)) for each in patterns for path in (TOP / "crates").glob(each)]


@cache
def files():
    """The files of the repository, each with a slash before its name."""
    found = set()
    for at, folders, names in os.walk(TOP):
        folders[:] = [folder for folder in folders if folder not in ("out", ".git")]
        found |= {f"/{Path(at, name).relative_to(TOP)}" for name in names}
    return found


def blocks(name):
    """What a page quotes: its blocks of Rust or of no language, and those that are indented, but for commands; those of
    the README are commands and what they print."""
    text = text_of(name)
    if name.endswith(".rt"):
        text = "\n".join(re.findall(r"(?m)^ *//[/!] ?(.*)$", text))
    fenced = re.findall(r"(?ms)^```(?:rust)?\n(.*?)^```$", text)
    rest = "" if name == "README.md" else re.sub(r"(?ms)^```.*?^```$", "", text)
    indented = re.findall(r"(?m)(?:^    .*\n\n?)+", rest)
    return [block for block in fenced + indented if not block.strip().startswith(COMMANDS)]


def is_quoted(block, source):
    """Whether a source has the statements of a block in this order. A body that is a comment alone may be any there,
    and so may the end of a line after two dots."""
    at = 0
    for piece in map(bare, re.split(r";\n|(?<=\{)\s*\}|\.\.\n", re.sub(COMMENT, "", block))):
        at = source.find(piece, at) + len(piece)
        if at < len(piece):
            return False
    return True


def has(name, paths):
    """Whether one of these files declares a name, the last word of a path of Rust."""
    word = re.escape(name.rpartition(":")[2])
    declares = {
        ".rt": rf"\b(?:fn|struct|enum|trait|type|const|mod) {word}\b",
        ".antt": rf"(?m)^(?:  (?=pub ))?(?:\w+ )*{word}\b",
    }
    return any(re.search(declares[Path(path).suffix], text_of(path[1:])) for path in paths)


class Quotes(unittest.TestCase):
    def test_what_a_page_quotes_is_in_a_source(self):
        for page, patterns in QUOTING.items():
            for block in blocks(page):
                self.assertTrue(any(is_quoted(block, source) for source in sources(patterns)), f"{page}:\n{block}")

    def test_each_file_that_a_page_names_is_there(self):
        for page in NAMING:
            for name in re.findall(FILE, text_of(f"docs/{page}.md")):
                self.assertTrue(any(path.endswith(f"/{name}") for path in files()), f"{page}: {name}")

    def test_each_file_that_the_map_names_of_a_crate_is_there(self):
        for crate, row in re.findall(r"(?m)^\| `(\w+)` \|(.*)", text_of("docs/ARCHITECTURE.md")):
            for name in re.findall(FILE, row):
                paths = {f"/crates/{crate}/{name}", f"/crates/{crate}/src/{name}"}
                self.assertTrue(paths & files(), f"{crate}: {name}")

    def test_what_the_tour_names_is_there_in_the_file_that_it_names(self):
        tour = text_of("docs/TOUR.md")
        after = re.findall(rf"`([\w:]+)`(?: \(|,\s|\s\(|\sin\s){FILE}", tour)
        before = [(name, path) for path, name in re.findall(rf"{FILE}: `([\w:]+)`", tour)]
        for name, path in after + before:
            self.assertTrue(has(name, [each for each in files() if each.endswith(f"/{path}")]), f"{name}: {path}")
        for name in re.findall(r"`(\w+(?:_|::)[\w:]+)`", tour):
            self.assertTrue(any(name.rpartition(":")[2] in source for source in sources(ALL)), name)

    def test_each_definition_of_the_list_is_in_its_module(self):
        for section in text_of("docs/DEFINITIONS.md").split("\n## ")[1:]:
            here = re.findall(r"`crates/(\w+)", section.partition("\n")[0])
            for names, where in re.findall(r"(?m)^\| (`[^|]*) \| (`[^|]*) \|", section):
                words = re.findall(r"`(\w+)`", where)
                crates = [word for word in words if (TOP / "crates" / word).is_dir()]
                paths = {f"/crates/{each}/specs/{word}.antt" for each in crates or here for word in words} & files()
                for name in re.findall(r"`(\w+)`", names):
                    self.assertTrue(has(name, paths), f"{name}: {where}")
