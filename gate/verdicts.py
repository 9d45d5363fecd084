"""What the checker's lines say of a crate that it calls proved: what no verdict may rest on, and which contracts no call can meet."""

import re

NOT_HERE = {"foreign", "hides", "partial", "may-abort", "may-serve", "bugs"}
"""Words of a check's last line that no crate of this repository may have."""


def last_words(text):
    """The words of a check's last line that a crate is proved, by name; none where it isn't."""
    last = ([""] + re.findall(r"^logic=proved .*", text, re.MULTILINE))[-1]
    return dict(word.partition("=")[::2] for word in last.split())


def beyond(text, handles):
    """What a check's output says that no verdict may rest on, though the crate is proved."""
    said = last_words(text)
    takes = set(said.get("main", "").split("+")) - {""} | ({"Wait"} if "may-wait" in said else set())
    warned = re.search(r"^rt: warning: .*", text, re.MULTILINE)
    if warned or not said:
        return warned[0] if warned else "the check ended without a verdict"
    faults = [f"its last line has {word}" for word in NOT_HERE & said.keys()]
    return ", ".join(faults + [f"it takes {word}, beyond HANDLES" for word in takes - handles])


def unmet(text):
    """What a check that looked for them says of contracts that no call can meet, where there are any."""
    found = re.search(r"^empty contracts: (\d+) found; tried (\d+) of (\d+) functions$", text, re.MULTILINE)
    if found and found[1] == "0" and found[2] == found[3]:
        return ""
    return found[0] if found else "the check didn't say whether each contract can be met"


def functions(text):
    """How many functions a check proved."""
    return int(last_words(text).get("functions", 1))
