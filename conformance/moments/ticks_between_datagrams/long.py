"""Ticks between datagrams that one batch has room for. The lease of 10 runs out at the second tick, and not at the first one.
After it the writer's change is not for the reader. Once the participant and its writer come again, their numbers begin anew: the
writer's first change is presented, at a moment at which the new lease has not run out."""

from announced import comes, expired, matched, offers, sample, shape


def moments():
    yield 0, comes("a", lease=10)
    yield 0, offers("a", 1, 1)
    yield 5, shape("a", 1, 1)
    yield 8, None
    yield 9, shape("a", 1, 2)
    yield 11, None
    yield 12, shape("a", 1, 3)
    yield 12, comes("a", lease=10)
    yield 12, offers("a", 1, 1)
    yield 22, None
    yield 22, shape("a", 1, 1)


def lines():
    yield matched(1, 0, "a", 1)
    yield sample(2, 0, "a", 1, 1)
    yield sample(3, 0, "a", 1, 2)
    yield expired(4, 0, "a", 1)
    yield matched(6, 0, "a", 1)
    yield sample(7, 0, "a", 1, 1)
