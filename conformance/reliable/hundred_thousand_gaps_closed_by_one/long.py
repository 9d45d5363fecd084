"""A hundred thousand gaps of one number each, and one that closes what is between them."""

from parts import change, gap, sample


def records():
    for at in range(1, 100_001):
        yield gap(2 * at + 1, 2 * at + 2)
    yield gap(1, 200_002)
    yield change(200_002)


def lines():
    yield sample(100_001, 200_002)
