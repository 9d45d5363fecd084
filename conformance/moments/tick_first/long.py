"""A tick is the first record. Its moment counts: the announcement after it has an earlier one, but was heard at 5, since the
greatest moment so far is what counts. So a lease of 10 has not run out at 15, and has at 16. A tick is no datagram: the
announcement is datagram 0."""

from announced import comes, expired, matched, offers, sample, shape


def moments():
    yield 5, None
    yield 3, comes("a", lease=10)
    yield 3, offers("a", 1, 1)
    yield 15, shape("a", 1, 1)
    yield 16, shape("a", 1, 2)


def lines():
    yield matched(1, 0, "a", 1)
    yield sample(2, 0, "a", 1, 1)
    yield expired(3, 0, "a", 1)
