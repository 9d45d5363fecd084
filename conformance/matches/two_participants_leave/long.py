"""Two participants with writers of like entities leave in turn: each takes its own matches along, by rank and then by writer."""

from announced import comes, leaves, matched, offers, unmatched


def records():
    yield comes("a")
    yield comes("c")
    for letter in ("c", "a"):
        yield offers(letter, 1, 2)
        yield offers(letter, 2, 1)
    yield leaves("c")
    yield leaves("a")


def lines():
    for datagram, letter, number in ((2, "c", 2), (3, "c", 1), (4, "a", 2), (5, "a", 1)):
        for rank in (0, 1):
            yield matched(datagram, rank, letter, number)
    for datagram, letter in ((6, "c"), (7, "a")):
        for rank in (0, 1):
            for number in (1, 2):
                yield unmatched(datagram, rank, letter, number)
