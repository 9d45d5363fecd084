"""Record files."""


def of_datagrams(datagrams):
    """The file of these datagrams."""
    return b"RDG1" + b"".join(len(datagram).to_bytes(4, "big") + datagram for datagram in datagrams)


def of_moments(records):
    """The file of these moments, each with its datagram, or with None where it is a tick."""
    return b"RDG2" + b"".join(_with_moment(*record) for record in records)


def _with_moment(moment, datagram):
    stamp = moment.to_bytes(8, "big")
    return b"\xff" * 4 + stamp if datagram is None else len(datagram).to_bytes(4, "big") + stamp + datagram


def records_in(data):
    """The records of a file: the moment and the octets of each, None for a tick. A record that is cut is none."""
    at, stamp = 4, {b"RDG1": 0, b"RDG2": 8}.get(data[:4])
    while stamp is not None and at + 4 + stamp <= len(data):
        moment, length = int.from_bytes(data[at + 4:at + 4 + stamp], "big"), int.from_bytes(data[at:at + 4], "big")
        at += 4 + stamp
        if stamp and length == 0xFFFFFFFF:
            yield moment, None
        elif at + length > len(data):
            return
        else:
            yield moment, data[at:at + length]
            at += length
