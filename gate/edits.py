"""Must-fail edits: wrong bodies that the checker has to refuse, each by a goal of the function that its file names.

Edits with different functions are tried in one check, which looks at these functions alone. A change of a body leaves
each contract, so no other function's goals change by it; an edit of anything else is tried alone, and so is one that
is not refused among others.
"""

import re
from dataclasses import dataclass

MOST_AT_ONCE = 8
OF_OTHERS = re.compile(r"which (is|are) not proved|rests on|waits for")
"""What the checker says of a function whose proof hangs on that of another."""
NAMES = re.compile(r"has no field|is not in scope|has no `|was not admitted|was rejected|is no name")
"""What it says of an answer that cites what is not there."""
LEMMA = re.compile(r"(?:\./)?proofs/\w+\.antt:\d+:\d+: error: (.*)")
"""What it says of a lemma, whose file is in no function's folder."""
BEGINS = re.compile(r"(\./)?\S+:\d+:\d+: |(fn|rt:) |\w+=|[a-z ]+: \d")
"""How a line of the checker's begins that says something new."""
CANNOT_BE_READ = re.compile(r"is not in scope|has no field|is no name|operand is missing|expected the end|cannot continue")


@dataclass(frozen=True)
class Edit:
    name: str
    by: str
    """The function that refuses it, as the checker calls it, after the crate's name."""
    pairs: tuple
    """File, old text and new text of each change."""


class BadEdit(Exception):
    """An edit that can't be applied."""


def read_edit(path):
    """Reads an edit: a line `# by: FUNCTION`, lines `file:`, and pairs of lines `old:` and `new:`."""
    said, pairs = {}, []
    for word, text in re.findall(r"^(# by|file|old|new):(?: (.*))?$", path.read_text(encoding="utf-8"), re.MULTILINE):
        said[word] = text if word in ("old", "new") else text.strip()
        if word == "file" and not re.fullmatch(r"(src|specs|proofs)(/\w+)+\.(rt|antt)", said[word]):
            raise BadEdit(f"it changes no file of src, specs or proofs: {said[word]}")
        if word == "new":
            if not said.get("file") or not said.get("old"):
                raise BadEdit("a new text has no file or no old text before it")
            pairs.append((said["file"], said.pop("old"), text))
    if not pairs or not said.get("# by"):
        raise BadEdit("it has no old and new text" if not pairs else "it names no function that refuses it")
    return Edit(path.stem, said["# by"], tuple(pairs))


def applied(edits, folder):
    """The texts of the files that edits change, with all of their changes made."""
    texts = {}
    for file, old, new in (pair for edit in edits for pair in edit.pairs):
        if file not in texts:
            if not (folder / file).is_file():
                raise BadEdit(f"there is no file {file}")
            texts[file] = (folder / file).read_text(encoding="utf-8")
        found = texts[file].count(old)
        if found != 1:
            raise BadEdit(f"an old text is in {file} {found} times, and not once")
        texts[file] = texts[file].replace(old, new)
    return texts


def is_of_body(edit, folder):
    """Whether all changes are in bodies of functions of the name that the edit tells, as rt fmt lays them out: after
    the line that opens such a body, and before the one that closes it."""
    fn = r"^( *)(?:pub(?:\(\w+\))? )?(?:const )?fn (\w+)"
    for file, old, _ in edit.pairs:
        before = (folder / file).read_text(encoding="utf-8").partition(old)[0]
        head = ([None] + list(re.finditer(fn, before, re.MULTILINE)))[-1]
        if not head or head[2] != edit.by.rpartition("::")[2]:
            return False
        rest = before[head.end() :]
        opens = re.search(rf"\A[^\n]* \{{$|^{head[1]}(\{{|\).* \{{)$", rest, re.MULTILINE)
        if not opens or re.search(rf"^{head[1]}\}}", rest[opens.end() :], re.MULTILINE):
            return False
    return True


def fits(edit, group, folder):
    """Whether there is room for an edit in a group, none of it has its function, and all can be made at once."""
    try:
        return len(group) < MOST_AT_ONCE and edit.by not in {it.by for it in group} and bool(applied([*group, edit], folder))
    except BadEdit:
        return False


def groups_of(edits, folder):
    """Edits in groups, each for one check: edits of bodies with different functions. Any other edit is alone."""
    groups, alone = [], []
    for edit in edits:
        body = is_of_body(edit, folder)
        found = next((group for group in groups if fits(edit, group, folder)), None) if body else None
        if found:
            found.append(edit)
        else:
            (groups if body else alone).append([edit])
    return groups + alone


def joined(lines):
    """What the checker says, with the lines that go on with another in one."""
    found = []
    for line in lines:
        if found and not BEGINS.match(line):
            found[-1] += f" {line.strip()}"
        else:
            found.append(line)
    return found


def unreadable(edit, lines):
    """The first line that says that an edited text can't be read, where no contract was tried, if there is one."""
    changed = {file for file, _, _ in edit.pairs}
    for line in lines:
        found = re.match(r"(?:\./)?(\S+?):\d+:\d+: error(\[\S+\])?: (?:(`[^`]*`): )?(.*)", line)
        if found and (found[1] in changed or found[1].startswith(("src/", "specs/"))):
            if found[2] or not found[3] or CANNOT_BE_READ.search(re.sub(r"`[^`]*`", "", found[4])):
                return line
    return None


def judge(edit, crate, lines):
    """Why a check doesn't refuse an edit; None where it does: it says of the function that the edit names that a goal
    of its own is not proved, and not merely that an answer cites what the edit took away."""
    lines = joined(lines)
    fault = unreadable(edit, lines)
    if fault:
        return f"BAD EDIT: the edited text can't be read, so no contract was tried: {fault[:200]}"
    path = re.escape(f"{crate}::{edit.by}")
    said = next((found[1] for line in lines if (found := re.fullmatch(rf"fn {path}: (no proof.*|not proved.*)", line))), None)
    if said is None:
        return f"NOT REFUSED: the checker doesn't say that {edit.by} is not proved"
    own = re.compile(rf"(?:\./)?proofs/{re.escape(edit.by.replace('::', '/'))}/\w+\.antt:\d+:\d+: error: (.*)")
    faults = [found[1] for line in lines if (found := own.match(line))]
    goals = [fault for fault in faults if not NAMES.search(fault)]
    if OF_OTHERS.search(said):
        # Its own are a goal that the checker looked for in vain, and an answer that doesn't fit its goal: both see the
        # contracts of what it calls, and no body.
        is_own = "did not prove" in said or said.startswith("not proved") and any(re.match("`[^`]+`: ", it) for it in goals)
        return None if is_own else f"BAD EDIT: {edit.by} only waits for another function: {said[:200]}"
    if "did not prove" in said or goals:
        return None
    # A law can be one lemma. Where only definitions were changed, it is refused if that lemma isn't proved any more.
    of_lemmas = [found[1] for line in lines if (found := LEMMA.match(line))]
    if all(file.startswith("specs/") for file, _, _ in edit.pairs) and any("was not admitted" in it for it in faults):
        if any(not NAMES.search(it) for it in of_lemmas):
            return None
    return f"BAD EDIT: the checker shows no goal of {edit.by} that isn't proved: {(faults or [said])[0][:200]}"
