#!/usr/bin/env python3
"""Takes the RTPS datagrams out of a network capture, and writes them as a record file for dump and replay.

    tools/pcap_to_records.py [--moments] [--to ADDRESS]... [--port PORT]... CAPTURE RECORDS

CAPTURE is a pcap or pcapng file as tcpdump and Wireshark write them, RECORDS the file to write; '-' is standard input and
standard output. Written are the UDP datagrams that begin with RTPS, in the order of the capture; with --to only those to
one of these IPv4 addresses, with --port only those to one of these ports. A datagram that came in IP fragments is put
together, and takes the place of the fragment that completes it.

With --moments the records have moments (RDG2): the whole milliseconds since the first packet of the capture, and 0 for a
packet of an earlier time. A packet without a time has the moment of the packet before.

Frames may be Ethernet (with VLAN tags), BSD loopback, Linux cooked (both versions) or raw IPv4. What was left out, and
why, is counted on standard error. The status is 0; 2 for a bad line; 3 where the capture can't be read to its end: what
comes before the fault is written.
"""

import argparse
import ipaddress
import struct
import sys
from collections import Counter
from typing import NamedTuple, Optional, Tuple

RECORDS_MAGIC, RECORDS_WITH_MOMENTS_MAGIC = b"RDG1", b"RDG2"
LONGEST = 65_507
GREATEST_MOMENT = (1 << 64) - 1

# Link types, by the registry of tcpdump.
LOOPBACK, ETHERNET, RAW, RAW_BSD, LOOPBACK_OPENBSD, COOKED, IPV4, COOKED_2 = 0, 1, 101, 12, 108, 113, 228, 276
ETHERTYPE_IPV4 = 0x0800
VLAN_TAGS = (0x8100, 0x88A8, 0x9100)
UDP = 17

PCAP = {
    b"\xa1\xb2\xc3\xd4": (">", 10**6), b"\xd4\xc3\xb2\xa1": ("<", 10**6),  # times in microseconds
    b"\xa1\xb2\x3c\x4d": (">", 10**9), b"\x4d\x3c\xb2\xa1": ("<", 10**9),  # times in nanoseconds
}
SECTION, INTERFACE, PACKET, SIMPLE_PACKET = 0x0A0D0D0A, 1, 6, 3
BYTE_ORDERS = {b"\x1a\x2b\x3c\x4d": ">", b"\x4d\x3c\x2b\x1a": "<"}
LARGEST_BLOCK = 1 << 28
TIME_RESOLUTION, TIME_OFFSET = 9, 14
"""Options of an interface."""


class Fault(Exception):
    """A capture that can't be read on."""


class LeftOut(Exception):
    """A frame that gives no datagram, and why."""


class Awaited(Exception):
    """A fragment of a packet that isn't whole yet."""


def octets_of(stream, count, where):
    """The next octets of a stream, all of them."""
    read = stream.read(count)
    if len(read) < count:
        raise Fault(f"cut {where}")
    return read


# ---- the frames of a capture

class Frame(NamedTuple):
    link: int
    octets: bytes
    """Those that were captured."""
    length: int
    """How many octets there were."""
    time: Optional[Tuple[int, int]]
    """A number of units and how many of them a second has, where the capture has a time."""


class Interface(NamedTuple):
    """An interface of a pcapng file: its link type, how many octets of a frame are captured (0 for all), how many units of
    time a second has, and the seconds that are added to each time."""
    link: int
    limit: int
    units: int
    offset: int

    def frame(self, octets, length, time=None):
        """A frame, with its time in units where there is one."""
        return Frame(self.link, octets, length, None if time is None else (time + self.offset * self.units, self.units))


def frames_in(stream):
    """The frames of a pcap or pcapng file."""
    magic = stream.read(4)
    if magic in PCAP:
        return pcap_frames(stream, *PCAP[magic])
    if magic == SECTION.to_bytes(4, "big"):
        return pcapng_frames(stream)
    raise Fault("neither pcap nor pcapng")


def pcap_frames(stream, order, units):
    link = struct.unpack(order + "I", octets_of(stream, 20, "in the header")[16:])[0] & 0xFFFF
    number = 0
    while header := stream.read(16):
        where = f"in frame {number}"
        if len(header) < 16:
            raise Fault(f"cut {where}")
        seconds, fraction, captured, length = struct.unpack(order + "IIII", header)
        if captured > LARGEST_BLOCK:
            raise Fault(f"{captured} octets {where}")
        yield Frame(link, octets_of(stream, captured, where), length, (seconds * units + fraction, units))
        number += 1


def pcapng_frames(stream):
    """The frames of a pcapng file, of which the type of the first block was read."""
    kind, order, interfaces, block = SECTION.to_bytes(4, "big"), None, [], 0
    while kind:
        where = f"in block {block}"
        if len(kind) < 4:
            raise Fault(f"cut {where}")
        head = octets_of(stream, 4, where)
        begun = b""
        if kind == SECTION.to_bytes(4, "big"):
            begun = octets_of(stream, 4, where)
            order, interfaces = BYTE_ORDERS.get(begun), []
            if order is None:
                raise Fault(f"no byte order {where}")
        length = struct.unpack(order + "I", head)[0]
        if length % 4 or not 12 + len(begun) <= length <= LARGEST_BLOCK:
            raise Fault(f"a length of {length} {where}")
        rest = octets_of(stream, length - 8 - len(begun), where)
        if rest[-4:] != head:
            raise Fault(f"two lengths {where}")
        yield from block_frames(struct.unpack(order + "I", kind)[0], order, rest[:-4], interfaces, where)
        kind = stream.read(4)
        block += 1


def block_frames(kind, order, body, interfaces, where):
    """The frames of a pcapng block, none or one; an interface is added to the others."""
    if kind == INTERFACE:
        if len(body) < 8:
            raise Fault(f"no link type {where}")
        interfaces.append(interface_in(order, body))
    elif kind == PACKET:
        if len(body) < 20:
            raise Fault(f"no packet {where}")
        number, high, low, captured, length = struct.unpack(order + "IIIII", body[:20])
        if number >= len(interfaces) or captured > len(body) - 20:
            raise Fault(f"a packet that can't be {where}")
        yield interfaces[number].frame(body[20:20 + captured], length, high << 32 | low)
    elif kind == SIMPLE_PACKET:
        if len(body) < 4 or not interfaces:
            raise Fault(f"a packet that can't be {where}")
        length = struct.unpack(order + "I", body[:4])[0]
        captured = min(length, interfaces[0].limit or length)
        if captured > len(body) - 4:
            raise Fault(f"a packet that can't be {where}")
        yield interfaces[0].frame(body[4:4 + captured], length)


def interface_in(order, body):
    """The interface that a block describes. Its times are in microseconds where it has no option for them."""
    link, _, limit = struct.unpack(order + "HHI", body[:8])
    options = options_in(order, body[8:])
    resolution = (options.get(TIME_RESOLUTION) or b"\x06")[0]
    units = 2 ** (resolution & 0x7F) if resolution & 0x80 else 10**resolution
    offset = options.get(TIME_OFFSET, b"")
    return Interface(link, limit, units, struct.unpack(order + "q", offset)[0] if len(offset) == 8 else 0)


def options_in(order, octets):
    """The options of a block, up to one that is cut."""
    options, at = {}, 0
    while at + 4 <= len(octets):
        code, length = struct.unpack(order + "HH", octets[at:at + 4])
        if code == 0 or length > len(octets) - at - 4:
            break
        options[code] = octets[at + 4:at + 4 + length]
        at += 4 + length + -length % 4
    return options


class Moments:
    """The moments of a capture's packets: the whole milliseconds since the first one that has a time."""

    def __init__(self):
        self.first, self.last = None, 0

    def next(self, time):
        """The moment of the next packet. One without a time has the moment of the packet before."""
        if time:
            count, units = time
            first, first_units = self.first = self.first or time
            passed = (count * first_units - first * units) * 1000 // (units * first_units)
            self.last = min(max(passed, 0), GREATEST_MOMENT)
        return self.last


# ---- from a frame to its IPv4 packet

def packet_in(link, frame):
    """The IPv4 packet of a frame."""
    if link == ETHERNET:
        return ethernet_packet(frame)
    if link in (LOOPBACK, LOOPBACK_OPENBSD):
        family = frame[:4]
        if family not in (b"\x02\0\0\0", b"\0\0\0\x02"):
            raise LeftOut("not IPv4")
        return frame[4:]
    if link in (COOKED, COOKED_2):
        at, header = (14, 16) if link == COOKED else (0, 20)
        return typed_packet(frame, at, header)
    if link in (RAW, RAW_BSD, IPV4):
        return frame
    raise LeftOut(f"link type {link}")


def typed_packet(frame, at, header):
    """What follows a header that says at a place what it is."""
    if len(frame) < header or int.from_bytes(frame[at:at + 2], "big") != ETHERTYPE_IPV4:
        raise LeftOut("not IPv4")
    return frame[header:]


def ethernet_packet(frame):
    at = 12
    while int.from_bytes(frame[at:at + 2], "big") in VLAN_TAGS:
        at += 4
    return typed_packet(frame, at, at + 2)


# ---- from IPv4 packets to what UDP datagrams carry

class Packets:
    """Puts the fragments of IPv4 packets together."""

    def __init__(self):
        # by sender, receiver and identification: the parts by their offsets, and the end where it is known
        self.begun = {}

    def take(self, packet):
        """Where a packet goes and what it carries, once it is whole."""
        if len(packet) < 20 or packet[0] >> 4 != 4:
            raise LeftOut("not IPv4")
        header = (packet[0] & 15) * 4
        length, name, place = struct.unpack(">HHH", packet[2:8])
        if not 20 <= header <= length <= len(packet):
            raise LeftOut("a bad IPv4 header")
        if packet[9] != UDP:
            raise LeftOut("not UDP")
        octets, to = packet[header:length], packet[16:20]
        more, offset = bool(place & 0x2000), (place & 0x1FFF) * 8
        if more or offset:
            octets = self.whole((packet[12:20], name), offset, octets, more)
        return to, octets

    def whole(self, key, offset, octets, more):
        """What a packet carries, once all its fragments are there. A fragment that is there with other octets is one of an
        earlier packet of the same identification, which is given up."""
        parts, end = self.begun.pop(key, ({}, None))
        if parts.get(offset, octets) != octets:
            parts, end = {}, None
        parts[offset] = octets
        if not more:
            end = offset + len(octets)
        joined = b""
        while part := parts.get(len(joined)):
            joined += part
        if len(joined) != end:
            self.begun[key] = parts, end
            raise Awaited
        return joined


def datagram_in(octets):
    """The port that a UDP datagram goes to, and what it carries."""
    if len(octets) < 8:
        raise LeftOut("a bad UDP header")
    _, port, length = struct.unpack(">HHH", octets[:6])
    if not 8 <= length <= len(octets):
        raise LeftOut("a bad UDP header")
    return port, octets[8:length]


# ---- all of it

class Choice:
    """Which datagrams are wanted: those to one of these addresses and to one of these ports; none means any."""

    def __init__(self, addresses=(), ports=()):
        self.addresses = {ipaddress.IPv4Address(address).packed for address in addresses}
        self.ports = set(ports)

    def judge(self, to, port, datagram):
        if self.addresses and to not in self.addresses:
            raise LeftOut("to another address")
        if self.ports and port not in self.ports:
            raise LeftOut("to another port")
        if not datagram.startswith(b"RTPS"):
            raise LeftOut("not RTPS")
        if len(datagram) > LONGEST:
            raise LeftOut("longer than a datagram can be")


def datagrams_in(frames, choice, left_out):
    """The datagrams of frames that are wanted, with their moments; what else there is is counted by its cause."""
    packets, moments = Packets(), Moments()
    for frame in frames:
        moment = moments.next(frame.time)
        try:
            if len(frame.octets) < frame.length:
                raise LeftOut("cut by the capture")
            to, octets = packets.take(packet_in(frame.link, frame.octets))
            port, datagram = datagram_in(octets)
            choice.judge(to, port, datagram)
            yield moment, datagram
        except LeftOut as cause:
            left_out[str(cause)] += 1
        except Awaited:
            continue


def convert(stream, out, choice, log, with_moments=False):
    """Writes a record for each datagram of a capture that is wanted, and returns the status."""
    written, left_out, fault = 0, Counter(), None
    out.write(RECORDS_WITH_MOMENTS_MAGIC if with_moments else RECORDS_MAGIC)
    try:
        for moment, datagram in datagrams_in(frames_in(stream), choice, left_out):
            stamp = moment.to_bytes(8, "big") if with_moments else b""
            out.write(len(datagram).to_bytes(4, "big") + stamp + datagram)
            written += 1
    except Fault as cause:
        fault = cause
    print(f"pcap_to_records: {written} datagrams written", file=log)
    for cause, count in sorted(left_out.items()):
        print(f"pcap_to_records: {count} left out: {cause}", file=log)
    if fault:
        print(f"pcap_to_records: the capture ends with a fault: {fault}", file=log)
    return 3 if fault else 0


def address(text):
    """An IPv4 address of the command line."""
    return str(ipaddress.IPv4Address(text))


def main(words):
    about, _, more = __doc__.partition("\n\n    tools/pcap_to_records.py ")
    parser = argparse.ArgumentParser(
        prog="pcap_to_records.py", description=about, epilog=more.partition("\n\n")[2],
        formatter_class=argparse.RawDescriptionHelpFormatter,
    )
    parser.add_argument("--moments", action="store_true", help="write the moment of each datagram too")
    parser.add_argument("--to", type=address, action="append", default=[], metavar="ADDRESS",
                        help="only datagrams to this IPv4 address; may be given several times")
    parser.add_argument("--port", type=int, action="append", default=[], metavar="PORT",
                        help="only datagrams to this port; may be given several times")
    parser.add_argument("capture", metavar="CAPTURE", help="a pcap or pcapng file, '-' for standard input")
    parser.add_argument("records", metavar="RECORDS", help="the record file to write, '-' for standard output")
    line = parser.parse_args(words)
    try:
        with opened(line.capture, "rb", sys.stdin) as stream, opened(line.records, "wb", sys.stdout) as out:
            return convert(stream, out, Choice(line.to, line.port), sys.stderr, line.moments)
    except OSError as fault:
        print(f"pcap_to_records: {fault.filename or line.capture}: {fault.strerror or fault}", file=sys.stderr)
        return 3


def opened(name, mode, standard):
    """The file of a name; '-' is standard input or output, which stays open."""
    return open(standard.fileno() if name == "-" else name, mode, closefd=name != "-")


if __name__ == "__main__":
    sys.exit(main(sys.argv[1:]))
