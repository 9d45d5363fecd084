"""One change more than there is room for, and a heartbeat, which asks for it again."""

from parts import HEADER, change, sample


def records():
    for number in range(2, 65_539):
        yield change(number)
    yield change(1)
    # HEARTBEAT 1 to 65538, count 1
    yield HEADER + bytes.fromhex("07011c0000000107000001020000000001000000000000000200010001000000")


def lines():
    for number in range(1, 65_538):
        yield sample(65_537, number)
    # ACKNACK of 65538 alone
    header = "52545053020500000b0b0b0b0b0b0b0b0b0b0b0b0e010c000a0a0a0a0a0a0a0a0a0a0a0a"
    yield f"65538:1 answer - {header}06011c0000000107000001020000000002000100010000000000008001000000"
