"""Two ticks in a row, of which each ends a lease, before the same datagram: the first tick's line comes first, though its writer
is the greater one."""

from announced import comes, expired, matched, offers, shape


def moments():
    yield 0, comes("a", lease=20)
    yield 0, comes("c", lease=10)
    yield 0, offers("a", 1, 1)
    yield 0, offers("c", 1, 1)
    yield 11, None
    yield 21, None
    yield 21, shape("a", 1, 1)


def lines():
    yield matched(2, 0, "a", 1)
    yield matched(3, 0, "c", 1)
    yield expired(4, 0, "c", 1)
    yield expired(4, 0, "a", 1)
