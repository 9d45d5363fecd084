"""A participant that announces itself again was heard again: a lease of 10 has not run out at 18, and has at 19. What it says of
its lease then counts."""

from announced import comes, expired, matched, offers, sample, shape


def moments():
    yield 0, comes("a", lease=100)
    yield 0, offers("a", 1, 1)
    yield 8, comes("a", lease=10)
    yield 18, shape("a", 1, 1)
    yield 19, shape("a", 1, 2)


def lines():
    yield matched(1, 0, "a", 1)
    yield sample(3, 0, "a", 1, 1)
    yield expired(4, 0, "a", 1)
