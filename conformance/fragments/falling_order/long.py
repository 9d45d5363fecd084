"""A sample of a MiB in fragments of 64 octets, the last one first."""

from parts import fragment, sample

COUNT = 16_384
VALUE = bytes.fromhex("0001000005000000424c5545000000000a000000140000001e000000")


def records():
    yield from (fragment(1, start, bytes(64), 64, COUNT * 64) for start in range(COUNT, 1, -1))
    yield fragment(1, 1, VALUE.ljust(64, b"\0"), 64, COUNT * 64)


def lines():
    yield sample(COUNT - 1, 1)
