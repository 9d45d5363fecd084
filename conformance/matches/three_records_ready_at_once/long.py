"""Records 2 and 3 wait for record 1: at its place the first reader hears of all three, and then the second one does."""

from announced import comes, matched, offers, unmatched, withdraws


def records():
    yield comes("a")
    yield offers("a", 2, 2)
    yield withdraws("a", 3, 1)
    yield offers("a", 1, 1)


def lines():
    for rank in (0, 1):
        yield matched(3, rank, "a", 1)
        yield matched(3, rank, "a", 2)
        yield unmatched(3, rank, "a", 1)
