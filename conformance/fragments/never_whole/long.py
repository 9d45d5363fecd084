"""Samples of 64 MiB of which just the last KiB comes, each of them given up then: 20,000 of them, in little memory."""

from parts import fragment, gap


def records():
    for number in range(1, 20_001):
        yield fragment(number, 1025, bytes(1024), 65_535, 67_108_864)
        yield gap(number, number + 1)


def lines():
    return ()
