"""The leases of two participants have run out at one tick: their matches end by rank, and then by writer, the one participant's
with the other's. A third one has the lease of 100 s, and stays."""

from announced import comes, expired, matched, offers


OFFERED = (("c", 2), ("c", 1), ("d", 1), ("a", 2), ("a", 1))


def moments():
    yield 0, comes("c", lease=9)
    yield 0, comes("d")
    yield 0, comes("a", lease=10)
    numbers = {"c": 0, "d": 0, "a": 0}
    for letter, of_writer in OFFERED:
        numbers[letter] += 1
        yield 0, offers(letter, numbers[letter], of_writer)
    yield 11, None


def lines():
    for datagram, (letter, of_writer) in enumerate(OFFERED, 3):
        for rank in (0, 1):
            yield matched(datagram, rank, letter, of_writer)
    for rank in (0, 1):
        for letter in ("a", "c"):
            for of_writer in (1, 2):
                yield expired(8, rank, letter, of_writer)
