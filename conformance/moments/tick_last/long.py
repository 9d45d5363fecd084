"""A tick is the last record. A lease of 10 that began at 1 has run out at 12; the line has the number of the datagram that would
be next."""

from announced import comes, expired, matched, offers, sample, shape


def moments():
    yield 1, comes("a", lease=10)
    yield 2, offers("a", 1, 1)
    yield 11, shape("a", 1, 1)
    yield 12, None


def lines():
    yield matched(1, 0, "a", 1)
    yield sample(2, 0, "a", 1, 1)
    yield expired(3, 0, "a", 1)
