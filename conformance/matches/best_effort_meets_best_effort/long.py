"""A reader that asks for nothing again is matched with a writer that sends nothing again, and with one that does."""

from announced import BEST_EFFORT, comes, matched, offers, sample, shape


def records():
    yield comes("a")
    yield offers("a", 1, 1, reliability=BEST_EFFORT)
    yield offers("a", 2, 2)
    yield shape("a", 1, 1)
    yield shape("a", 2, 1)


def lines():
    yield matched(1, 0, "a", 1)
    yield matched(2, 0, "a", 2)
    yield sample(3, 0, "a", 1, 1)
    yield sample(4, 0, "a", 2, 1)
