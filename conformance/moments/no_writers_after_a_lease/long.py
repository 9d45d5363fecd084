"""An instance whose writer's lease ends has no writers left. The writer of the other participant, whose lease is 100 s, has one
more instance, which stays alive: its key is RED."""

from announced import ALL, comes, data, guid, offers, peer, shape, writer


def moments():
    yield 0, comes("a", lease=10)
    yield 0, comes("c")
    yield 0, offers("a", 1, 1)
    yield 0, offers("c", 1, 1)
    yield 1, shape("a", 1, 1)
    red = bytes.fromhex("0001000004000000524544000a000000140000001e000000")
    yield 2, data(peer("c"), ALL, writer(1), 1, red)
    yield 11, None


def lines():
    for rank in (0, 1):
        yield f"entry {rank} {guid('a', 1)} 1 - NotRead New NoWriters value 424c5545 10 20 30"
        yield f"entry {rank} {guid('c', 1)} 1 - NotRead New Alive value 524544 10 20 30"
