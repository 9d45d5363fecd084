"""Datagrams and lines of which long rows are made: those of the writer 00000102 of one participant, to its first reader."""

HEADER = bytes.fromhex("52545053020500000a0a0a0a0a0a0a0a0a0a0a0a")


def gap(start, base):
    """A GAP of the numbers from `start` up to below `base`."""
    numbers = bytes(4) + start.to_bytes(4, "little") + bytes(4) + base.to_bytes(4, "little") + bytes(4)
    return HEADER + bytes.fromhex("08011c000000010700000102") + numbers


def change(number):
    """The shape BLUE at 10, 20 of size 30 as the change of this number."""
    front = bytes.fromhex("1505300000001000000001070000010200000000")
    value = bytes.fromhex("0001000005000000424c5545000000000a000000140000001e000000")
    return HEADER + front + number.to_bytes(4, "little") + value


def fragment(number, start, octets, size, whole):
    """The fragment `start` of the change of this number, of which each has `size` octets, and all have `whole`."""
    at = bytes(4) + number.to_bytes(4, "little") + start.to_bytes(4, "little")
    cut = (1).to_bytes(2, "little") + size.to_bytes(2, "little") + whole.to_bytes(4, "little")
    body = bytes.fromhex("00001c000000010700000102") + at + cut + octets
    return HEADER + bytes.fromhex("1601") + len(body).to_bytes(2, "little") + body


def sample(datagram, number):
    """The line of that change, presented at a datagram."""
    return f"{datagram}:1 reader 0 sample 0a0a0a0a0a0a0a0a0a0a0a0a00000102 {number} - value 424c5545 10 20 30"
