"""A reader of another topic hears of no writer of Square, and of one that changes to its topic."""

from announced import comes, matched, offers, sample, shape, unmatched


def records():
    yield comes("a")
    yield offers("a", 1, 1)
    yield shape("a", 1, 1)
    yield offers("a", 2, 1, topic=b"Circle")
    yield shape("a", 1, 2)
    yield offers("a", 3, 1)
    yield shape("a", 1, 3)


def lines():
    yield matched(3, 0, "a", 1)
    yield sample(4, 0, "a", 1, 2)
    yield unmatched(5, 0, "a", 1)
