"""The last entry of each instance, of the capture of the row beside this one."""

from pathlib import Path

import files
from run import octets

WRITER = "01107ee6b1d79b5edc06b17d00000302"


def moments():
    return files.records_in(octets(Path(__file__).parent.parent / "cyclone_replay" / "file.hex"))


def lines():
    yield f"entry 0 {WRITER} 8 6b0ae2d7.cfe0fd0f NotRead New NoWriters value 424c5545 6 12 30"
    yield f"entry 0 {WRITER} 10 6b0ae2d7.d5174ad3 NotRead New Disposed disposed d36de865fac295155f18df7157b217e6"
    yield f"entry 0 {WRITER} 11 6b0ae2d7.da3e3158 NotRead New NoWriters value 475245454e 8 16 30"
