"""The summary after a lease has run out: one match of two that were announced is left, beside the one with the fixed writer of
the same participant, which no lease ends. Both samples came before. Fixed matches count among the matches of a status."""

from announced import comes, expired, guid, matched, offers, sample, shape


def moments():
    yield 0, comes("a", lease=10)
    yield 0, comes("c")
    yield 0, offers("a", 1, 1)
    yield 0, offers("c", 1, 1)
    yield 1, shape("a", 1, 1)
    yield 1, shape("c", 1, 1)
    yield 11, None


def lines():
    for datagram, letter in ((2, "a"), (3, "c")):
        for rank in (0, 1):
            yield matched(datagram, rank, letter, 1)
    for datagram, letter in ((4, "a"), (5, "c")):
        for rank in (0, 1):
            yield sample(datagram, rank, letter, 1, 1)
    for rank in (0, 1):
        yield expired(6, rank, "a", 1)
    for rank in (0, 1):
        yield f"match {rank} {guid('a', 2)}"
        yield f"match {rank} {guid('c', 1)}"
    for rank in (0, 1):
        yield f"status {rank} 3 2 0 - 0 2"
