"""A writer that is withdrawn and announced again begins anew: its numbers come again, and all are presented."""

from announced import comes, guid, matched, offers, sample, shape, unmatched, withdraws


def records():
    yield comes("a")
    yield offers("a", 1, 1)
    yield shape("a", 1, 1)
    yield shape("a", 1, 2)
    yield withdraws("a", 2, 1)
    yield offers("a", 3, 1)
    yield shape("a", 1, 1)
    yield shape("a", 1, 1)


def lines():
    yield matched(1, 0, "a", 1)
    yield sample(2, 0, "a", 1, 1)
    yield sample(3, 0, "a", 1, 2)
    yield unmatched(4, 0, "a", 1)
    yield matched(5, 0, "a", 1)
    yield sample(6, 0, "a", 1, 1)
    yield f"match 0 {guid('a', 1)}"
    yield "status 0 2 1 0 - 0 3"
