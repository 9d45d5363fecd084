"""Datagrams of participants that announce themselves and their writers, and the lines that readers of ours give.

A participant is known by its letter: `peer("a")` is its prefix. Its writers have the entities 00000102, 00000202, .. by their
numbers. Our readers, of the topic Square, have the prefix 0b0b.., and the entities 00000107, 00000207, .. by their ranks.
"""

OURS = bytes([0x0B]) * 12
LOOPBACK = bytes([127, 0, 0, 1])
SPDP_WRITER, SPDP_READER = bytes.fromhex("000100c2"), bytes.fromhex("000100c7")
SEDP_WRITER, SEDP_READER = bytes.fromhex("000003c2"), bytes.fromhex("000003c7")
ALL = bytes(4)
BEST_EFFORT, RELIABLE = 1, 2


def peer(letter):
    return bytes([int(letter, 16)]) * 12


def writer(number):
    return bytes([0, 0, number, 2])


def little(value, octets=4):
    return value.to_bytes(octets, "little")


def number_octets(number):
    return little(number >> 32) + little(number & 0xFFFFFFFF)


def message(prefix, kind, flags, body):
    """A message of one submessage."""
    return b"RTPS" + bytes.fromhex("02050000") + prefix + bytes([kind, flags]) + little(len(body), 2) + body


def parameter(identity, value):
    padded = value + bytes(-len(value) % 4)
    return little(identity, 2) + little(len(padded), 2) + padded


def parameters(*list_of):
    return b"".join(parameter(identity, value) for identity, value in list_of) + bytes.fromhex("01000000")


def text(octets):
    return little(len(octets) + 1) + octets + b"\0"


def locator(port):
    return little(1) + little(port) + bytes(12) + LOOPBACK


def data(prefix, reader, from_writer, number, payload, inline=b""):
    """A DATA with a value, or with inline QoS and nothing else."""
    flags = 0x03 if inline else 0x05
    body = bytes.fromhex("00001000") + reader + from_writer + number_octets(number) + inline + payload
    return message(prefix, 0x15, flags, body)


def record(*list_of):
    """A parameter list as a payload."""
    return bytes.fromhex("00030000") + parameters(*list_of)


def ended(guid):
    """The inline QoS of an end: the key hash, and the status disposed and unregistered."""
    return parameters((0x0070, guid), (0x0071, bytes([0, 0, 0, 3])))


def duration(millis):
    """A duration of whole milliseconds: its seconds, and the rest in units of 2^-32 seconds."""
    return little(millis // 1000) + little((millis % 1000 << 32) // 1000)


def comes(letter, metatraffic=7412, default=7413, lease=None):
    """A participant announces itself, with a port of each kind, or none; with a lease in milliseconds, or that of 100 s that a
    participant has which names none."""
    named = [(0x0050, peer(letter) + bytes.fromhex("000001c1")), (0x0058, little(0x3F))]
    named += [] if lease is None else [(0x0002, duration(lease))]
    named += [(0x0032, locator(metatraffic))] if metatraffic else []
    named += [(0x0031, locator(default))] if default else []
    return data(peer(letter), SPDP_READER, SPDP_WRITER, 1, record(*named))


def leaves(letter):
    return data(peer(letter), SPDP_READER, SPDP_WRITER, 2, b"", ended(peer(letter) + bytes.fromhex("000001c1")))


def offers(letter, number, of_writer, topic=b"Square", reliability=RELIABLE, port=None):
    """The record of this number: a writer of shapes, reached at a port of its own if it gives one."""
    named = [(0x005A, peer(letter) + writer(of_writer)), (0x0005, text(topic)), (0x0007, text(b"ShapeType")),
             (0x001A, little(reliability) + bytes(8))]
    named += [(0x002F, locator(port))] if port else []
    return data(peer(letter), SEDP_READER, SEDP_WRITER, number, record(*named))


def withdraws(letter, number, of_writer):
    """The record of this number: a writer is gone."""
    return data(peer(letter), SEDP_READER, SEDP_WRITER, number, b"", ended(peer(letter) + writer(of_writer)))


def shape(letter, of_writer, number):
    """The shape BLUE at 10, 20 of size 30, to every reader."""
    value = bytes.fromhex("0001000005000000424c5545000000000a000000140000001e000000")
    return data(peer(letter), ALL, writer(of_writer), number, value)


def heartbeat(letter, of_writer, first, last, count):
    body = ALL + writer(of_writer) + number_octets(first) + number_octets(last) + little(count)
    return message(peer(letter), 0x07, 0x01, body)


# ---- lines

def guid(letter, of_writer):
    return (peer(letter) + writer(of_writer)).hex()


def matched(datagram, rank, letter, of_writer):
    return f"{datagram}:1 reader {rank} matched {guid(letter, of_writer)}"


def unmatched(datagram, rank, letter, of_writer):
    return f"{datagram}:1 reader {rank} unmatched {guid(letter, of_writer)}"


def expired(datagram, rank, letter, of_writer):
    """A match ends because the lease of its participant has run out, before a datagram of this number is read."""
    return f"{datagram}:0 reader {rank} unmatched {guid(letter, of_writer)}"


def sample(datagram, rank, letter, of_writer, number):
    return f"{datagram}:1 reader {rank} sample {guid(letter, of_writer)} {number} - value 424c5545 10 20 30"


def answer(datagram, rank, to, letter, of_writer, missing, count):
    """The ACKNACK that asks a writer for this one number, of the reader of a rank."""
    to_peer = bytes.fromhex("0e010c00") + peer(letter)
    asked = number_octets(missing) + little(1) + bytes([0, 0, 0, 0x80]) + little(count)
    acknack = bytes.fromhex("06011c00") + bytes([0, 0, rank + 1, 7]) + writer(of_writer) + asked
    octets = b"RTPS" + bytes.fromhex("02050000") + OURS + to_peer + acknack
    return f"{datagram}:1 answer {to} {octets.hex()}"
