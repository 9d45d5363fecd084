#!/usr/bin/env python3
"""Runs `listen` on the sockets of this machine, as a peer on loopback.

    live.py PROGRAM

Each run starts the program in a domain, mostly in domain 0, whose first participant has the ports 7410 and 7411, and looks at
what it writes, what it sends back and how it ends. A run that fails names itself. The last line is 'N passed, M failed'.
"""

import signal
import socket
import subprocess
import sys
import time

HOST = "127.0.0.1"
DISCOVERY, USER, PEER, PEER_USER = 7410, 7411, 7412, 7413
"""Where the program receives, and where a peer does that announces itself: discovery, and user data."""
SECONDS = 30
"""How long a run may take."""

A, B = "0a" * 12, "0b" * 12
"""The prefixes of a peer and of the program."""
HEADER = "5254505302050000" + A
WRITER = A + "00000102"
ANNOUNCED = (
    "15057c0000001000000100c7000100c2000000000100000000030000" + "50001000" + A + "000001c1"
    "3200180001000000f41c0000" + "00" * 12 + "7f000001" + "3100180001000000f51c0000" + "00" * 12 + "7f000001"
    "020008006400000000000000" + "5800040014000000" + "01000000"
)
"""The peer announces itself, with port 7412 for its discovery and 7413 for user data (DDSI-RTPS 8.5.3)."""
PUBLISHED = (
    "1505640000001000000003c7000003c2000000000100000000030000" + "5a001000" + WRITER
    + "05000c00" + "07000000" + "5371756172650000" + "07001000" + "0a000000" + "536861706554797065000000"
    + "1a000c00" + "020000000000000000000000" + "01000000"
)
"""The peer announces its writer, which is reliable (DDSI-RTPS 8.5.4)."""
LEASE = "02000800" + "6400000000000000", "02000800" + "00000000cccccc4c"
"""The lease that it has, of 100 s, and one of 300 ms: 4ccccccc in units of 2^-32 seconds."""
BEATS = "07011c00" + "000003c7000003c2" + "0000000001000000" + "0000000001000000" + "01000000"
"""Its announcer of writers says that it has number 1."""
ASKED = (
    "5254505302050000" + B + "0e010c00" + A + "06011c00" + "000003c7000003c2"
    "0000000001000000" + "0100000000000080" + "01000000"
)
"""The number is asked for."""
SHAPE = "00010000" + "05000000424c5545000000000a000000140000001e000000"
"""A blue square at 10, 20 of size 30."""


def sample(number):
    """A datagram with a sample of this number for every reader."""
    front = HEADER + "15053000" + "00001000" + "00000000" + "00000102" + "00000000"
    return bytes.fromhex(front) + number.to_bytes(4, "little") + bytes.fromhex(SHAPE)


def sample_line(datagram, number):
    return f"{datagram}:1 reader 0 sample {WRITER} {number} - value 424c5545 10 20 30\n"


def heartbeat(last, count=1):
    """A datagram in which the writer says that it has the numbers from 1 to this one."""
    front = HEADER + "07011c00" + "00000107" + "00000102" + "0000000001000000" + "00000000"
    return bytes.fromhex(front) + last.to_bytes(4, "little") + count.to_bytes(4, "little")


def asks_for(numbers, count=1):
    """The ACKNACK in which the reader asks for these numbers, in hex: a bit for each number from the least to the greatest, the
    first of a word at its highest place (DDSI-RTPS 9.4.2.6)."""
    base, bits = min(numbers), max(numbers) - min(numbers) + 1
    words = [sum(1 << (31 - at) for at in range(32) if base + first + at in numbers) for first in range(0, bits, 32)]
    front = "5254505302050000" + B + "0e010c00" + A + "0601" + (24 + 4 * len(words)).to_bytes(2, "little").hex()
    fields = (base, bits, *words, count)
    return front + "00000107" + "00000102" + "00000000" + b"".join(field.to_bytes(4, "little") for field in fields).hex()


class Unlike(Exception):
    """What is not as it has to be."""


def look(name, got, wanted):
    if got != wanted:
        raise Unlike(f"{name}: {got!r} and not {wanted!r}")


class Running:
    """The program, while it listens. Where it is ended early it is killed."""

    def __init__(self, program, *words, domain=0):
        command = [program, "listen", "--domain", str(domain), *words]
        self.process = subprocess.Popen(command, stdin=subprocess.DEVNULL, stdout=subprocess.PIPE, stderr=subprocess.PIPE)

    def __enter__(self):
        return self

    def __exit__(self, *_):
        self.process.kill()
        self.process.communicate()

    def ends(self, stdout, status=0, stderr=""):
        """Waits until it ends, and looks at how."""
        try:
            out, err = self.process.communicate(timeout=SECONDS)
        except subprocess.TimeoutExpired as late:
            raise Unlike(f"it doesn't end within {SECONDS} seconds") from late
        look("standard output", out.decode(), stdout)
        look("standard error", err.decode(), stderr)
        look("status", self.process.returncode, status)


def in_table(address):
    """An address as /proc/net/udp has it."""
    return socket.inet_aton(address)[::-1].hex().upper()


def peer(port=0):
    """A socket of the peer."""
    made = socket.socket(socket.AF_INET, socket.SOCK_DGRAM)
    made.bind((HOST, port))
    made.settimeout(0.05)
    return made


def received(own):
    """The next datagram that comes to a socket, or None where none comes soon."""
    try:
        return own.recv(65_536)
    except TimeoutError:
        return None


def addresses(port):
    """The addresses at which sockets of this machine have a port, as the system writes them."""
    with open("/proc/net/udp", encoding="ascii") as table:
        bound = [line.split()[1].split(":") for line in list(table)[1:]]
    return [address for address, at in bound if int(at, 16) == port]


def wait_until_bound(address=HOST, above=0):
    """Waits until the program has both of its ports, so far above those of domain 0, at one address alone; the one for user data
    is the second."""
    for _ in range(SECONDS * 50):
        if addresses(USER + above):
            bound = addresses(DISCOVERY + above) + addresses(USER + above)
            look("the addresses of its sockets", bound, [in_table(address)] * 2)
            return
        time.sleep(0.02)
    raise Unlike("the program binds no port")


def answers_a_peer(program):
    """A heartbeat of the announcer of a participant that announced itself is answered, to the locator that it named."""
    with peer(PEER) as own, Running(program, "--count", "1") as running:
        wait_until_bound()
        octets, answer = bytes.fromhex(HEADER + ANNOUNCED + BEATS), None
        for _ in range(100):
            own.sendto(octets, (HOST, DISCOVERY))
            answer = received(own)
            if answer:
                break
        look("the answer", (answer or b"").hex(), ASKED)
        running.ends(f"0:2 answer 127.0.0.1:7412 {ASKED}\n")


def receives_at_another_address(program):
    """A datagram arrives at the address that is asked for, and the answer goes to the peer's locator, from the port of discovery."""
    for address, reached in (("127.0.0.2", "127.0.0.2"), ("0.0.0.0", HOST)):
        with peer(PEER) as own, Running(program, "--count", "1", "--address", address) as running:
            wait_until_bound(address)
            own.settimeout(SECONDS)
            own.sendto(bytes.fromhex(HEADER + ANNOUNCED + BEATS), (reached, DISCOVERY))
            answer, sender = own.recvfrom(65_536)
            look("the answer", answer.hex(), ASKED)
            look("where it comes from", sender, (reached, DISCOVERY))
            running.ends(f"0:2 answer 127.0.0.1:7412 {ASKED}\n")


def announce(own):
    """The peer announces itself and its writer, in a datagram each."""
    for announced in (ANNOUNCED, PUBLISHED):
        own.sendto(bytes.fromhex(HEADER + announced), (HOST, DISCOVERY))


def repairs_a_lost_sample(program):
    """A sample that is lost is asked for at the locator that its participant named, comes again, and is presented in its turn."""
    with peer(PEER_USER) as own, Running(program, "--count", "6") as running:
        wait_until_bound()
        announce(own)
        for octets in (sample(1), sample(3), heartbeat(3)):
            own.sendto(octets, (HOST, USER))
        answers = [received(own) for _ in range(40)]
        asked = asks_for([2])
        look("what is asked for", [answer.hex() for answer in answers if answer], [asked])
        own.sendto(sample(2), (HOST, USER))
        lines = f"1:1 reader 0 matched {WRITER}\n" + sample_line(2, 1) + f"4:1 answer {HOST}:{PEER_USER} {asked}\n"
        running.ends(lines + sample_line(5, 2) + sample_line(5, 3))


def asks_for_more_at_the_next_heartbeat(program):
    """Two answers of different lengths: for one number, and then for that one and 37 others, which take a second word."""
    with peer(PEER_USER) as own, Running(program, "--count", "6") as running:
        wait_until_bound()
        announce(own)
        own.settimeout(SECONDS)
        lines = f"1:1 reader 0 matched {WRITER}\n" + sample_line(2, 1)
        for octets in (sample(1), sample(3)):
            own.sendto(octets, (HOST, USER))
        for datagram, count, missing in ((4, 1, [2]), (5, 2, [2, *range(4, 41)])):
            own.sendto(heartbeat(max(3, *missing), count), (HOST, USER))
            asked = asks_for(missing, count)
            look("what is asked for", received(own).hex(), asked)
            lines += f"{datagram}:1 answer {HOST}:{PEER_USER} {asked}\n"
        running.ends(lines)


def hears_another_domain(program):
    """Domain 3 has ports that are 250 higher for each domain (DDSI-RTPS 9.6.2.3)."""
    with peer() as own, Running(program, "--count", "1", "--fixed", WRITER, domain=3) as running:
        wait_until_bound(above=750)
        own.sendto(sample(1), (HOST, USER + 750))
        running.ends(sample_line(0, 1))


def receives_a_large_datagram(program):
    """A datagram of 40,000 octets is received whole: its sample comes after a PAD."""
    with peer() as own, Running(program, "--count", "1", "--fixed", WRITER) as running:
        wait_until_bound()
        front, last = sample(1)[:20], sample(1)[20:]
        pad = 40_000 - len(front) - len(last) - 4
        own.sendto(front + b"\x01\x01" + pad.to_bytes(2, "little") + bytes(pad) + last, (HOST, USER))
        running.ends(sample_line(0, 1).replace("0:1", "0:2"))


def receives_a_burst(program):
    """200 datagrams that come at once, while the program is stopped, are all received, in order."""
    with peer() as own, Running(program, "--count", "200", "--fixed", WRITER) as running:
        wait_until_bound()
        running.process.send_signal(signal.SIGSTOP)
        for number in range(1, 201):
            own.sendto(sample(number), (HOST, USER))
        running.process.send_signal(signal.SIGCONT)
        running.ends("".join(sample_line(number - 1, number) for number in range(1, 201)))


def hears_announcements_first(program):
    """Of what stands at both ports, what announces a writer is taken before the writer's data."""
    with peer() as own, Running(program, "--count", "3") as running:
        wait_until_bound()
        running.process.send_signal(signal.SIGSTOP)
        own.sendto(sample(1), (HOST, USER))
        announce(own)
        running.process.send_signal(signal.SIGCONT)
        running.ends(f"1:1 reader 0 matched {WRITER}\n" + sample_line(2, 1))


def prints_what_comes_in_order(program):
    """Each sample is printed once, in order, by batches and workers of any number, and the summary comes last."""
    for words in ([], ["--batch", "1"], ["--batch", "7", "--workers", "2"], ["--workers", "7"]):
        with peer() as own, Running(program, "--count", "60", "--fixed", WRITER, "--summary", *words) as running:
            wait_until_bound()
            for number in range(1, 61):
                own.sendto(sample(number), (HOST, USER))
            lines = "".join(sample_line(number - 1, number) for number in range(1, 61))
            running.ends(f"{lines}match 0 {WRITER}\nstatus 0 1 1 0 - 0 60\n")


def prints_at_once(program):
    """A line can be read before the program ends, which takes no datagram after the last that it was asked for."""
    with peer() as own, Running(program, "--count", "2", "--fixed", WRITER) as running:
        wait_until_bound()
        own.sendto(sample(1), (HOST, USER))
        look("the first line", running.process.stdout.readline().decode(), sample_line(0, 1))
        for number in (2, 3):
            own.sendto(sample(number), (HOST, USER))
        running.ends(sample_line(1, 2))


def forgets_who_is_silent(program):
    """A peer with a lease of 300 ms announces itself and its writer, and is silent: within twenty turns the match has ended,
    and its line can be read before the program ends."""
    with peer() as own, Running(program, "--count", "2", "--turns", "20", "--summary") as running:
        wait_until_bound()
        own.sendto(bytes.fromhex(HEADER + ANNOUNCED.replace(*LEASE) + PUBLISHED), (HOST, DISCOVERY))
        for line in (f"0:2 reader 0 matched {WRITER}\n", f"1:0 reader 0 unmatched {WRITER}\n"):
            look("the next line", running.process.stdout.readline().decode(), line)
        look("its status so far", running.process.poll(), None)
        running.ends("status 0 1 0 0 - 0 0\n")


OTHER = "0c" * 12
"""The prefix of the program where it announces itself."""
HEARS_READERS = "5800040014000000", "580004003f000000"
"""The endpoints that the peer has, and those of one that hears announcements of readers."""
INFINITE, ZERO = "ffffff7fffffffff", "00" * 8


def parameters(*pairs):
    """A parameter list in hex, by ids and values."""
    return "".join(f"{name}{len(value) // 2:02x}00{value}" for name, value in pairs) + "01000000"


def change(to, flags, reader, writer, number, payload):
    """A datagram of the program with a DATA, to the participant with this prefix or to everyone (DDSI-RTPS 9.4.5.4)."""
    body = "00001000" + reader + writer + "00000000" + number.to_bytes(4, "little").hex() + payload
    front = "5254505302050000" + OTHER + ("0e010c00" + to if to else "")
    return front + "15" + flags + (len(body) // 2).to_bytes(2, "little").hex() + body


def hello(own, lease, to="", port=DISCOVERY):
    """The datagram by which its participant announces itself (DDSI-RTPS 8.5.3): version 2.5, no vendor, its guid, the locators of
    its ports, its lease in seconds, and its endpoints: announcers and detectors of participants and readers, detector of writers."""
    locators = ["01000000" + at.to_bytes(4, "little").hex() + "00" * 12 + "7f000001" for at in (port, port + 1)]
    record = parameters(("1500", "02050000"), ("1600", "00000000"), ("5000", OTHER + "000001c1"), ("3200", locators[0]),
                        ("3100", locators[1]), ("0200", lease.to_bytes(8, "little").hex()), ("5800", "3b000000"))
    return change(to, "05", "000100c7", "000100c2", 1, "00030000" + record).replace(OTHER, own)


def farewell(to=""):
    """The datagram by which its participant leaves: the hash of its key and the status, disposed and unregistered, and its guid."""
    guid = OTHER + "000001c1"
    gone = parameters(("7000", guid), ("7100", "00000003")) + "00030000" + parameters(("5000", guid))
    return change(to, "0b", "000100c7", "000100c2", 2, gone)


READER = change(A, "05", "000004c7", "000004c2", 1, "00030000" + parameters(
    ("5a00", OTHER + "00000107"), ("5000", OTHER + "000001c1"), ("0500", "07000000" + b"Square".hex() + "0000"),
    ("0700", "0a000000" + b"ShapeType".hex() + "000000"), ("1d00", "00" * 4), ("2100", ZERO), ("2300", INFINITE), ("2700", ZERO),
    ("1f00", "00" * 4), ("1b00", "00" * 4 + INFINITE), ("1a00", "02000000" + ZERO), ("2500", "00" * 4)))
"""The peer is told of the reader, its first change (DDSI-RTPS 8.5.4): guids, topic and type, and then what it asks for: volatile,
of no presentation, deadline and latency budget, shared, automatic liveliness without end, reliable, by order of reception."""
READER_BEATS = "5254505302050000" + OTHER + "0e010c00" + A + "07011c00" + "000004c7000004c2" + "0000000001000000" * 2 + "01000000"
"""The announcer of readers says that it has number 1, and asks for an answer."""


def announcing(program, *words):
    """The program announces itself to the first participants of this machine, and to no group."""
    return Running(program, "--announce", "--peers", HOST, "--no-multicast", *words)


def announces_itself(program):
    """It announces itself to whoever may be there. A peer that is found is told farewell, then greeted and told of the reader; its
    sample is presented; and at the end everyone is told farewell, the peer once more by itself."""
    with peer(PEER) as own, announcing(program, "--count", "3", "--lease", "7", "--own", OTHER) as running:
        own.settimeout(SECONDS)
        octets, sender = own.recvfrom(65_536)
        look("what everyone is told", (octets.hex(), sender), (hello(OTHER, 7), (HOST, DISCOVERY)))
        own.sendto(bytes.fromhex(HEADER + ANNOUNCED.replace(*HEARS_READERS)), (HOST, DISCOVERY))
        look("what the peer is told", told(own, 4), [farewell(A), hello(OTHER, 7, A), READER, READER_BEATS])
        own.sendto(bytes.fromhex(HEADER + PUBLISHED), (HOST, DISCOVERY))
        own.sendto(sample(1), (HOST, USER))
        running.ends(f"1:1 reader 0 matched {WRITER}\n" + sample_line(2, 1))
        look("the last words", told(own, 2), [farewell(), farewell(A)])


def told(own, count):
    """The next datagrams that come to the peer, in hex, but for what everyone is told each second and what the reader's announcer
    asks for again."""
    got = []
    while len(got) < count:
        octets = own.recv(65_536).hex()
        if octets != hello(OTHER, 7) and (octets == READER_BEATS or not octets.startswith(READER_BEATS[:-8])):
            got.append(octets)
    return got


def takes_the_first_free_ports(program):
    """Two programs at one address are the domain's first participants; each announces its own ports, by a prefix of its own, which
    begins with 0b twice and the address. They hear one another, and have nothing to answer."""
    with peer(7414) as own, announcing(program, "--count", "100") as first:
        wait_until_bound()
        with announcing(program, "--count", "100") as second:
            own.settimeout(SECONDS)
            heard = {}
            while len(heard) < 2:
                octets, (_, port) = own.recvfrom(65_536)
                heard[port] = octets.hex()
            look("the ports from which it is announced", sorted(heard), [DISCOVERY, PEER])
            prefixes = {port: octets[16:40] for port, octets in heard.items()}
            look("what is announced", heard, {port: hello(prefix, 10, "", port) for port, prefix in prefixes.items()})
            look("the prefixes", sorted(prefix[:12] for prefix in set(prefixes.values())), ["0b0b7f000001"] * 2)
            for running, port in ((first, DISCOVERY), (second, PEER)):
                for _ in range(200):
                    own.sendto(b"?", (HOST, port))
                running.ends("")


def ends_after_its_turns(program):
    """Where nothing comes it ends all the same, after turns of a tenth of a second."""
    begun = time.monotonic()
    with Running(program, "--count", "1", "--turns", "5", "--summary") as running:
        running.ends("status 0 0 0 0 - 0 0\n")
    look("half a second at the least", time.monotonic() - begun >= 0.5, True)


def says_that_a_port_is_taken(program):
    with peer(USER), Running(program, "--count", "1", "--turns", "2") as running:
        running.ends("", 4, "rtps_listen: socket fault\n")


def refuses_an_address_of_another_machine(program):
    """An address for documentation, which no machine has (RFC 5737), and a multicast group."""
    for address in ("192.0.2.1", "239.255.0.1"):
        with Running(program, "--count", "1", "--address", address) as running:
            running.ends("", 4, "rtps_listen: socket fault\n")


def refuses_bad_options_first(program):
    with peer(USER), Running(program, "--count", "1", "--own", "0b") as running:
        running.ends("", 2, "rtps_listen: bad prefix\n")
    with peer(USER), Running(program, "--count", "1", "--fixed", "0b") as running:
        running.ends("", 2, "rtps_listen: bad writer\n")
    with peer(USER), Running(program, "--count", "1", "--address", "127.0.0") as running:
        running.ends("", 2, "rtps_listen: bad address\n")
    for words, fault in (
        (("--announce", "--address", "0.0.0.0"), "bad address"),
        (("--announce", "--peers", "127.0.0.1,"), "bad peers"),
        (("--lease", "5"), "--peers, --no-multicast and --lease need --announce"),
    ):
        with Running(program, "--count", "1", *words) as running:
            running.ends("", 2, f"rtps_listen: {fault}\n")


RUNS = (
    answers_a_peer,
    receives_at_another_address,
    repairs_a_lost_sample,
    asks_for_more_at_the_next_heartbeat,
    hears_another_domain,
    receives_a_large_datagram,
    receives_a_burst,
    hears_announcements_first,
    prints_what_comes_in_order,
    prints_at_once,
    forgets_who_is_silent,
    announces_itself,
    takes_the_first_free_ports,
    ends_after_its_turns,
    says_that_a_port_is_taken,
    refuses_an_address_of_another_machine,
    refuses_bad_options_first,
)


def main():
    if len(sys.argv) != 2:
        print(__doc__, file=sys.stderr)
        return 2
    passed = 0
    for run in RUNS:
        try:
            run(sys.argv[1])
            passed += 1
        except (Unlike, OSError) as fault:
            print(f"{run.__name__}: {fault}")
    print(f"{passed} passed, {len(RUNS) - passed} failed")
    return int(passed != len(RUNS))


if __name__ == "__main__":
    sys.exit(main())
