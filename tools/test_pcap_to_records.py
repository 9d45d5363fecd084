"""Tests of pcap_to_records, over captures that they write octet by octet."""

import io
import struct
import sys
import tempfile
import unittest
from pathlib import Path

sys.path.insert(0, str(Path(__file__).resolve().parent))
sys.dont_write_bytecode = True

import pcap_to_records  # noqa: E402
from pcap_to_records import Choice, convert  # noqa: E402

HELLO = b"RTPS\x02\x03\x01\x0f" + bytes(12)
OTHER = b"RTPS\x02\x01\x01\x03" + bytes(range(12)) + b"\x09\x01\x08\x00" + bytes(8)
HERE, THERE = bytes([239, 255, 0, 1]), bytes([10, 0, 0, 2])


def udp(datagram, port=7400):
    return struct.pack(">HHHH", 50_000, port, 8 + len(datagram), 0) + datagram


def ipv4(carried, to=HERE, name=1, place=0, protocol=17, options=b""):
    header = 20 + len(options)
    return struct.pack(">BBHHHBBH4s4s", 0x40 | header // 4, 0, header + len(carried), name, place, 64, protocol, 0,
                       bytes([10, 0, 0, 1]), to) + options + carried


def ethernet(packet, tags=b""):
    return bytes(12) + tags + b"\x08\x00" + packet


def fragments(datagram, size, **how):
    """IPv4 fragments of a datagram, of so many octets each, a multiple of 8."""
    octets = udp(datagram)
    for at in range(0, len(octets), size):
        more = 0x2000 if at + size < len(octets) else 0
        yield ipv4(octets[at:at + size], place=more | at // 8, **how)


def pcap(frames, link=1, order="<", magic=0xA1B2C3D4, times=()):
    """A pcap file, whose frames have these times, in seconds and a fraction, or else all the same one."""
    head = struct.pack(order + "IHHiIII", magic, 2, 4, 0, 0, 65_535, link)
    each = zip(frames, times or [(7, 8)] * len(frames))
    return head + b"".join(struct.pack(order + "IIII", *time, len(f), len(f)) + f for f, time in each)


def block(kind, body, order="<"):
    padded = body + bytes(-len(body) % 4)
    length = struct.pack(order + "I", 12 + len(padded))
    return struct.pack(order + "I", kind) + length + padded + length


def section(order="<"):
    return block(0x0A0D0D0A, struct.pack(order + "IHHq", 0x1A2B3C4D, 1, 0, -1), order)


def interface(link=1, order="<", limit=0, options=b""):
    return block(1, struct.pack(order + "HHI", link, 0, limit) + options, order)


def option(code, value, order="<"):
    return struct.pack(order + "HH", code, len(value)) + value + bytes(-len(value) % 4)


def packet(frame, number=0, order="<", time=0):
    head = struct.pack(order + "IIIII", number, time >> 32, time & 0xFFFFFFFF, len(frame), len(frame))
    return block(6, head + frame, order)


def simple_packet(frame, order="<"):
    return block(3, struct.pack(order + "I", len(frame)) + frame, order)


def records(*datagrams):
    return b"RDG1" + b"".join(len(d).to_bytes(4, "big") + d for d in datagrams)


def run(capture, with_moments=False, **choice):
    """What is written of a capture, the status and the lines of the log."""
    out, log = io.BytesIO(), io.StringIO()
    status = convert(io.BytesIO(capture), out, Choice(**choice), log, with_moments)
    return out.getvalue(), status, log.getvalue()


class Reads(unittest.TestCase):
    def reads(self, capture, *datagrams, **choice):
        written, status, log = run(capture, **choice)
        self.assertEqual((written, status), (records(*datagrams), 0), log)
        return log

    def test_a_pcap_file_in_either_byte_order_and_resolution(self):
        frames = [ethernet(ipv4(udp(HELLO))), ethernet(ipv4(udp(OTHER)))]
        for order in "<>":
            for magic in (0xA1B2C3D4, 0xA1B23C4D):
                self.reads(pcap(frames, order=order, magic=magic), HELLO, OTHER)

    def test_a_pcapng_file_of_two_sections(self):
        frame = ethernet(ipv4(udp(HELLO)))
        cooked = struct.pack(">HHH8sH", 0, 1, 6, bytes(8), 0x0800) + ipv4(udp(OTHER))
        self.reads(section() + interface(113) + interface() + block(5, bytes(12)) + packet(frame, 1) + packet(cooked, 0)
                   + section(">") + interface(1, ">") + simple_packet(frame, ">"), HELLO, OTHER, HELLO)

    def test_each_kind_of_frame(self):
        plain = ipv4(udp(HELLO))
        for link, frame in (
            (0, b"\x02\0\0\0" + plain), (108, b"\0\0\0\x02" + plain), (101, plain), (228, plain),
            (113, bytes(14) + b"\x08\x00" + plain), (276, b"\x08\x00" + bytes(18) + plain),
            (1, ethernet(plain, b"\x81\x00\x00\x07")), (1, ethernet(plain, b"\x88\xa8\x00\x07\x81\x00\x00\x08")),
            (1, ethernet(ipv4(udp(HELLO), options=bytes(8)) + b"padding")),
        ):
            self.reads(pcap([frame], link), HELLO)

    def test_an_empty_capture(self):
        self.assertEqual(self.reads(pcap([])), "pcap_to_records: 0 datagrams written\n")
        self.reads(section())

    def test_what_is_left_out_is_counted(self):
        frames = [ethernet(f) for f in (ipv4(udp(HELLO), to=THERE), ipv4(udp(HELLO, 7401)), ipv4(udp(b"RTP")),
                                        ipv4(udp(HELLO), protocol=6), ipv4(udp(HELLO))[:-1], ipv4(b"1234567"))]
        frames += [bytes(12) + b"\x86\xdd" + bytes(40), ethernet(b"\x60" + bytes(40)), b"short"]
        log = self.reads(pcap(frames), addresses=["239.255.0.1"], ports=[7400])
        self.assertEqual(log.splitlines()[1:], [
            "pcap_to_records: 1 left out: a bad IPv4 header", "pcap_to_records: 1 left out: a bad UDP header",
            "pcap_to_records: 3 left out: not IPv4", "pcap_to_records: 1 left out: not RTPS",
            "pcap_to_records: 1 left out: not UDP", "pcap_to_records: 1 left out: to another address",
            "pcap_to_records: 1 left out: to another port"])

    def test_addresses_and_ports_are_chosen(self):
        frames = [ethernet(ipv4(udp(HELLO, 7410), to=THERE)), ethernet(ipv4(udp(OTHER, 7400)))]
        self.reads(pcap(frames), HELLO, OTHER)
        self.reads(pcap(frames), HELLO, addresses=["10.0.0.2"])
        self.reads(pcap(frames), OTHER, ports=[7400, 7401])
        self.reads(pcap(frames), HELLO, OTHER, addresses=["10.0.0.2", "239.255.0.1"], ports=[7400, 7410])

    def test_a_frame_that_the_capture_cut_is_left_out(self):
        frame = ethernet(ipv4(udp(HELLO)))
        cut = struct.pack("<IIII", 7, 8, len(frame) - 4, len(frame)) + frame[:-4]
        log = self.reads(pcap([]) + cut + pcap([frame])[24:], HELLO)
        self.assertIn("1 left out: cut by the capture", log)

    def test_fragments_in_any_order(self):
        long = b"RTPS" + bytes(range(100))
        parts = [ethernet(f) for f in fragments(long, 48)]
        self.assertEqual(len(parts), 3)
        for order in ((0, 1, 2), (2, 1, 0), (1, 2, 0), (1, 1, 0, 2)):
            self.reads(pcap([parts[at] for at in order] + [ethernet(ipv4(udp(HELLO)))]), long, HELLO)

    def test_fragments_of_two_packets_are_kept_apart(self):
        first, second = b"RTPS" + bytes(90), b"RTPS" + bytes(range(90))
        a, b = list(fragments(first, 64, name=1)), list(fragments(second, 64, name=2))
        self.reads(pcap([a[0], b[0], b[1], a[1]], 101), second, first)
        again = list(fragments(second, 64, name=1))
        self.reads(pcap([a[0], again[0], again[1]], 101), second)

    def test_a_packet_that_never_is_whole(self):
        parts = list(fragments(b"RTPS" + bytes(100), 48))
        self.reads(pcap([parts[0], parts[2]], 101))


class Moments(unittest.TestCase):
    FRAME = ethernet(ipv4(udp(HELLO)))

    def reads(self, capture, *moments, datagram=HELLO):
        """A capture gives the same datagram at each of these moments."""
        written, status, log = run(capture, with_moments=True)
        stamps = b"".join(len(datagram).to_bytes(4, "big") + m.to_bytes(8, "big") + datagram for m in moments)
        self.assertEqual((written, status), (b"RDG2" + stamps, 0), log)

    def test_a_pcap_file_in_either_byte_order_and_resolution(self):
        micro = [(10, 999_999), (11, 998), (11, 999), (10, 0), (12, 999_998), (2**32 - 1, 0)]
        nano = [(10, 999_999_999), (11, 999_998), (11, 999_999), (10, 0), (12, 999_999_998), (2**32 - 1, 0)]
        for order in "<>":
            for magic, times in ((0xA1B2C3D4, micro), (0xA1B23C4D, nano)):
                capture = pcap([self.FRAME] * 6, order=order, magic=magic, times=times)
                self.reads(capture, 0, 0, 1, 0, 1_999, 4_294_967_284_000)

    def test_a_pcapng_file_by_the_resolution_of_each_interface(self):
        for order in "<>":
            # microseconds, where no option says otherwise; nanoseconds; 1024 units a second; seconds, of which 7 are added
            options = (b"", option(9, b"\x09", order), option(2, b"eth", order) + option(9, b"\x8a", order) + bytes(4),
                       option(9, b"\x00", order) + option(14, struct.pack(order + "q", 7), order))
            times = ((0, 20_000_999), (1, 20_001_999_999), (2, 20_483), (3, 13), (3, 14), (0, 20_000_000), (0, 20_001_999))
            capture = section(order) + b"".join(interface(1, order, options=each) for each in options)
            capture += b"".join(packet(self.FRAME, at, order, time) for at, time in times)
            self.reads(capture, 0, 1, 1, 0, 999, 0, 1)

    def test_a_packet_without_a_time_has_the_moment_of_the_one_before(self):
        timed = [packet(self.FRAME, time=time) for time in (5_000, 12_000, 3_000)]
        simple = simple_packet(self.FRAME)
        capture = section() + interface() + simple + b"".join(each + simple for each in timed)
        self.reads(capture, 0, 0, 0, 7, 7, 0, 0)

    def test_moments_count_from_the_first_packet_of_any_kind(self):
        frames = [b"short", ethernet(ipv4(udp(b"RTP"))), self.FRAME]
        self.reads(pcap(frames, times=[(1, 0), (2, 0), (3, 500_000)]), 2_500)

    def test_the_fragment_that_completes_a_datagram_gives_its_moment(self):
        long = b"RTPS" + bytes(range(100))
        parts = [ethernet(f) for f in fragments(long, 48)]
        capture = pcap([parts[2], parts[0], self.FRAME, parts[1]], times=[(1, 0), (2, 0), (9, 0), (3, 0)])
        written, _, _ = run(capture, with_moments=True)
        stamped = ((8_000, HELLO), (2_000, long))
        self.assertEqual(written, b"RDG2" + b"".join(struct.pack(">IQ", len(d), m) + d for m, d in stamped))

    def test_the_greatest_moment(self):
        seconds = section() + interface(options=option(9, b"\x00"))
        greatest = (2**64 - 1) // 1_000
        times = (0, greatest, greatest + 1, 2**64 - 1)
        capture = seconds + b"".join(packet(self.FRAME, time=time) for time in times)
        self.reads(capture, 0, greatest * 1_000, 2**64 - 1, 2**64 - 1)

    def test_options_that_are_cut(self):
        for cut in (b"\x09\0\x05\0\x09\0\0\0", b"\x09\0\0\0", b"\0\0\0\0" + option(9, b"\x09")):
            self.reads(section() + interface(options=cut) + packet(self.FRAME) + packet(self.FRAME, time=3_000), 0, 3)


class Faults(unittest.TestCase):
    def test_a_pcap_file_cut_at_each_octet(self):
        frames = [ethernet(ipv4(udp(HELLO))), ethernet(ipv4(udp(OTHER)))]
        self.cut(pcap(frames), {24: 0, 24 + 16 + len(frames[0]): 1})

    def test_a_pcapng_file_cut_at_each_octet(self):
        parts = [section(), interface(), packet(ethernet(ipv4(udp(HELLO)))), simple_packet(ethernet(ipv4(udp(OTHER))))]
        ends = [sum(map(len, parts[:n + 1])) for n in range(3)]
        self.cut(b"".join(parts), {ends[0]: 0, ends[1]: 0, ends[2]: 1})

    def cut(self, capture, good):
        """A cut capture is a clear fault, but between two frames; what is whole before it is written."""
        for end in range(len(capture)):
            written, status, log = run(capture[:end])
            self.assertEqual(status, 0 if end in good else 3, end)
            self.assertIn(written, (records(), records(HELLO)))
            self.assertEqual(end not in good, "the capture ends with a fault: " in log, end)
            if end in good:
                self.assertEqual(written, records(*[HELLO] * good[end]))

    def test_what_is_no_capture(self):
        for capture in (b"", b"RDG1", b"\x0a\x0d\x0d\x0a" + bytes(40), pcap([])[:4] + b"\xff" * 19,
                        pcap([]) + b"\xff" * 16, section() + struct.pack("<II", 6, 13) + bytes(40),
                        section() + packet(b"frame"), section() + simple_packet(b"frame"),
                        section() + interface() + block(6, bytes(16)), section() + block(1, bytes(4)),
                        section()[:-4] + bytes(4)):
            written, status, log = run(capture)
            self.assertEqual((written, status), (records(), 3), capture)
            self.assertIn("the capture ends with a fault: ", log)

    def test_the_program(self):
        with tempfile.TemporaryDirectory() as folder:
            given, made = Path(folder, "in.pcap"), Path(folder, "out.rdg")
            given.write_bytes(pcap([ethernet(ipv4(udp(HELLO)))]))
            self.assertEqual(pcap_to_records.main([str(given), str(made), "--port", "7400"]), 0)
            self.assertEqual(made.read_bytes(), records(HELLO))
            self.assertEqual(pcap_to_records.main([str(given), str(made), "--moments"]), 0)
            self.assertEqual(made.read_bytes(), b"RDG2" + struct.pack(">IQ", len(HELLO), 0) + HELLO)
            self.assertEqual(pcap_to_records.main([str(Path(folder, "none")), str(made)]), 3)


if __name__ == "__main__":
    unittest.main()
