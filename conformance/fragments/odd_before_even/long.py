"""A sample of a MiB in fragments of 64 octets: those of odd numbers, and then the others."""

from parts import fragment, sample

COUNT = 16_384
VALUE = bytes.fromhex("0001000005000000424c5545000000000a000000140000001e000000")


def records():
    yield fragment(1, 1, VALUE.ljust(64, b"\0"), 64, COUNT * 64)
    yield from (fragment(1, start, bytes(64), 64, COUNT * 64) for start in range(3, COUNT, 2))
    yield from (fragment(1, start, bytes(64), 64, COUNT * 64) for start in range(2, COUNT + 1, 2))


def lines():
    yield sample(COUNT - 1, 1)
