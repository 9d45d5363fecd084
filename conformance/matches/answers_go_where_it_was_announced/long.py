"""An answer goes to the writer's own locators; else to the default ones of its participant; else to nobody that is known. What
a participant says later moves no match that there is."""

from announced import answer, comes, heartbeat, matched, offers


def records():
    yield comes("a", default=7413)
    yield comes("c", default=None)
    yield offers("a", 1, 1, port=7420)
    yield offers("a", 2, 2)
    yield offers("c", 1, 1)
    yield comes("a", default=7500)
    yield heartbeat("a", 1, 1, 1, 1)
    yield heartbeat("a", 2, 1, 1, 1)
    yield heartbeat("c", 1, 1, 1, 1)


def lines():
    yield matched(2, 0, "a", 1)
    yield matched(3, 0, "a", 2)
    yield matched(4, 0, "c", 1)
    yield answer(6, 0, "127.0.0.1:7420", "a", 1, 1, 1)
    yield answer(7, 0, "127.0.0.1:7413", "a", 2, 1, 1)
    yield answer(8, 0, "-", "c", 1, 1, 1)
