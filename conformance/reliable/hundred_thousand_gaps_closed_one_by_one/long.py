"""A hundred thousand gaps of one number each, and then the changes between them, one by one."""

from parts import change, gap, sample


def records():
    for at in range(1, 100_001):
        yield gap(2 * at, 2 * at + 1)
    for at in range(100_000):
        yield change(2 * at + 1)


def lines():
    for at in range(100_000):
        yield sample(100_000 + at, 2 * at + 1)
