"""A dump numbers datagrams and not records: a tick has no line and no number."""

from announced import shape


def moments():
    yield 7, None
    yield 7, shape("a", 1, 1)
    yield 8, None
    yield 9, None
    yield 3, shape("a", 2, 5)
    yield 9, None


def lines():
    value = "0001000005000000424c5545000000000a000000140000001e000000"
    for datagram, writer, number in ((0, "00000102", 1), (1, "00000202", 5)):
        yield f"{datagram}:1 {'0a' * 12} - {writer} 00000000 data {number} 00 value {value} -"
