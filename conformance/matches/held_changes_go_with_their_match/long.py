"""Change 3 waits for change 2 when the writer is withdrawn: it is not presented, it isn't lost, and change 2 comes too late."""

from announced import comes, matched, offers, sample, shape, unmatched, withdraws


def records():
    yield comes("a")
    yield offers("a", 1, 1)
    yield shape("a", 1, 1)
    yield shape("a", 1, 3)
    yield withdraws("a", 2, 1)
    yield shape("a", 1, 2)


def lines():
    yield matched(1, 0, "a", 1)
    yield sample(2, 0, "a", 1, 1)
    yield unmatched(4, 0, "a", 1)
    yield "status 0 1 0 0 - 0 1"
