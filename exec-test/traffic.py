"""Packets and captures that are made here: traffic by lot, of any number of packets; captures of it in all four formats; and damaged ones. What
is drawn by lot is the same every time.

The traffic is Ethernet with IPv4, IPv6, ARP and VLAN tags, TCP, UDP and ICMP; addresses, ports and numbers are mostly such as the filters of
examples/filters look for, and one packet in three is changed or cut somewhere. Of some packets less was captured than they had.
"""

import random
import struct

from reference import FILE_HEADER, MAGICS, RECORD_HEADER

START = 1735689600  # seconds since 1970
STATIONS = [bytes.fromhex(mac) for mac in ("02005e100001", "02005e1000f0", "02005e100007", "ffffffffffff", "021122334455")]
NETWORKS = ((192, 0, 2), (198, 51, 100), (203, 0, 113), (10, 0, 207))
PORTS = (443, 80, 53, 123, 8080, 22, 25, 179, 5000, 5001, 5999, 6000)
NUMBERS = (0, 1, 0x7FFF0000, 0x80000000, 0xFFFF0000, 0xFFFFFFFF)
NTP_TIMES = (0xE93C7F0080000000, 0xE93C7F0080000001, 0xE93C7F0000000000, 0)
PREFIXES = tuple(bytes.fromhex(p) for p in ("20010db800050001", "20010db800050000", "20010db800060000", "fe80000000000000"))
TCP, UDP, ICMP = 6, 17, 1
TYPE_IPV4, TYPE_IPV6, TYPE_ARP = 0x0800, 0x86DD, 0x0806
TAGS = (0x8100, 0x88A8, 0x9100)
EXTENSIONS = (0, 43, 44, 60)
LONGEST_FRAME = 1514


def checksum(data):
    """RFC 1071."""
    total = sum(struct.unpack(">%dH" % (len(data) // 2), data[:len(data) // 2 * 2]))
    while total >> 16:
        total = (total & 0xFFFF) + (total >> 16)
    return ~total & 0xFFFF


class Traffic:
    """Draws packets. `hosts` are IPv4 addresses of four bytes that some filters look for, `stored` packets that are drawn from as well."""

    def __init__(self, seed, hosts=(), stored=()):
        self.rng, self.hosts, self.stored = random.Random(seed), list(hosts), list(stored)

    def address(self):
        rng = self.rng
        if self.hosts and rng.random() < 0.3:
            return rng.choice(self.hosts)
        return bytes([*rng.choice(NETWORKS), rng.randrange(256)]) if rng.random() < 0.7 else rng.randbytes(4)

    def address_6(self):
        return self.rng.choice(PREFIXES) + self.rng.randbytes(8)

    def port(self):
        return self.rng.choice(PORTS) if self.rng.random() < 0.7 else self.rng.randrange(65536)

    def payload(self):
        """Short ones mostly, and some that fill a frame."""
        rng = self.rng
        return rng.randbytes(rng.choice((0, 1, 7, 20, 60)) if rng.random() < 0.8 else rng.randrange(1400))

    def question(self):
        """A DNS question: two in three end in the label that dns.c looks for."""
        labels = [self.rng.choice((b"www", b"a", b"example", b"mail")) for _ in range(self.rng.randrange(1, 4))]
        labels.append(self.rng.choice((b"example", b"example", b"org")))
        name = b"".join(bytes([len(label)]) + label for label in labels) + b"\0"
        return struct.pack(">HHHHHH", 7, self.rng.choice((0x0100, 0x8180)), 1, 0, 0, 0) + name + struct.pack(">HH", 1, 1)

    def tcp(self):
        number = self.rng.choice(NUMBERS) if self.rng.random() < 0.5 else self.rng.getrandbits(32)
        flags = self.rng.choice((2, 16, 18, 24, 17, 4, self.rng.randrange(256)))
        return struct.pack(">HHIIBBHHH", self.port(), self.port(), number, 0, 0x50, flags, 8192, 0, 0) + self.payload()

    def udp(self):
        by, to = self.port(), self.port()
        data = self.question() if 53 in (by, to) else self.payload()
        if 123 in (by, to):
            data = self.rng.randbytes(40) + struct.pack(">Q", self.rng.choice(NTP_TIMES))
        return struct.pack(">HHHH", by, to, 8 + len(data), 0) + data

    def icmp(self):
        return struct.pack(">BBHI", self.rng.choice((0, 3, 8, 11)), 0, 0, 7) + self.payload()

    def carried(self):
        protocol = self.rng.choice((TCP, TCP, UDP, UDP, ICMP))
        return protocol, {TCP: self.tcp, UDP: self.udp, ICMP: self.icmp}[protocol]()

    def ipv4(self):
        rng, (protocol, data) = self.rng, self.carried()
        options = bytes(4 * rng.randrange(11)) if rng.random() < 0.15 else b""
        fragment = rng.choice((0, 0, 0, 0, 0, 0, 0x4000, 0x2000, 0x2010, 0x00B9))
        head = struct.pack(">BBHHHBBH", 0x45 + len(options) // 4, 0, 20 + len(options) + len(data), rng.getrandbits(16), fragment,
                           rng.choice((64, 1, 5, 255, 0, rng.randrange(256))), protocol, 0) + self.address() + self.address() + options
        value = checksum(head) ^ (0 if rng.random() < 0.9 else 1)
        return TYPE_IPV4, head[:10] + struct.pack(">H", value) + head[12:] + data

    def ipv6(self):
        protocol, data = self.carried()
        for _ in range(self.rng.choice((0, 0, 0, 1, 2, 7, 8))):
            extra = self.rng.choice((0, 0, 1))
            data = bytes([protocol, extra]) + bytes(6 + 8 * extra) + data
            protocol = self.rng.choice(EXTENSIONS)
        return TYPE_IPV6, struct.pack(">IHBB", 6 << 28, len(data) & 0xFFFF, protocol, 64) + self.address_6() + self.address_6() + data

    def arp(self):
        sender, target = self.address(), self.rng.choice((bytes([192, 0, 2, 1]), self.address()))
        return TYPE_ARP, struct.pack(">HHBBH", 1, TYPE_IPV4, 6, 4, self.rng.choice((1, 2))) + STATIONS[1] + sender + bytes(6) + target

    def noise(self):
        return self.rng.choice((TYPE_IPV4, TYPE_IPV6, 0x88CC, 38)), self.rng.randbytes(self.rng.randrange(120))

    def frame(self):
        if self.stored and self.rng.random() < 0.15:
            return self.rng.choice(self.stored)
        kind, data = self.rng.choice((self.ipv4,) * 12 + (self.ipv6,) * 5 + (self.arp, self.noise))()
        for _ in range(self.rng.choice((0,) * 8 + (1, 2))):
            data, kind = struct.pack(">HH", self.rng.choice((100, 100, 200, self.rng.getrandbits(16))), kind) + data, self.rng.choice(TAGS)
        return (self.rng.choice(STATIONS) + self.rng.choice(STATIONS) + struct.pack(">H", kind) + data)[:LONGEST_FRAME]

    def changed(self, frame):
        """Bits, a byte or the length of a header; mostly near the start, where filters look."""
        out = bytearray(frame)
        for _ in range(self.rng.choice((1, 1, 2, 4)) if out else 0):
            at = self.rng.randrange(min(len(out), self.rng.choice((16, 64, 1514))))
            out[at] = self.rng.choice((out[at] ^ 1 << self.rng.randrange(8), self.rng.randrange(256), 0, 255))
        if len(out) > 14 and self.rng.random() < 0.2:
            out[14] = 0x40 | self.rng.randrange(16)
        return bytes(out)

    def packet(self):
        frame, by_lot = self.frame(), self.rng.random()
        if by_lot < 0.2:
            frame = self.changed(frame)
        elif by_lot < 0.35:
            frame = frame[:self.rng.randrange(len(frame) + 1)]
        return frame

    def records(self, count):
        """(captured bytes, original length) of so many packets; of one in twenty not all was captured."""
        for _ in range(count):
            packet = self.packet()
            yield (packet[:self.rng.randrange(len(packet) + 1)] if self.rng.random() < 0.05 else packet), len(packet)


# ---- captures --------------------------------------------------------------------------------------------------------------------------


def file_header(order="<", nanoseconds=False):
    return struct.pack(order + "IHHiIII", MAGICS[nanoseconds], 2, 4, 0, 0, 65535, 1)


def capture(records, order="<", nanoseconds=False):
    """(captured bytes, original length) of packets as a capture; no two have the same time."""
    out = [file_header(order, nanoseconds)]
    for number, (packet, original) in enumerate(records):
        seconds, micros = divmod(number, 1000000)
        out += [struct.pack(order + "IIII", START + seconds, micros * (1000 if nanoseconds else 1), len(packet), original), packet]
    return b"".join(out)


def whole(packets):
    """Packets of which everything was captured, as capture() takes them."""
    return [(packet, len(packet)) for packet in packets]


def turned(data):
    """A little-endian capture, big-endian. It has to be whole."""
    out = [struct.pack(">IHHiIII", *struct.unpack_from("<IHHiIII", data))]
    at = FILE_HEADER
    while at < len(data):
        numbers = struct.unpack_from("<IIII", data, at)
        at += RECORD_HEADER + numbers[2]
        out += [struct.pack(">IIII", *numbers), data[at - numbers[2]:at]]
    return b"".join(out)


# ---- damage ----------------------------------------------------------------------------------------------------------------------------


def record_places(data, order):
    at, out = FILE_HEADER, []
    while at < len(data):
        out.append(at)
        at += RECORD_HEADER + struct.unpack_from(order + "I", data, at + 8)[0]
    return out


class Damage:
    """Ways to damage a capture, each drawn by lot."""

    ABSURD = (0, 1, 13, 65534, 65535, 65536, 65537, 262144, 2**24, 2**31 - 1, 2**31, 2**32 - 16, 2**32 - 1)

    def __init__(self, seed):
        self.rng = random.Random(seed)
        self.ways = (self.flipped, self.flipped, self.cut, self.cut, self.absurd, self.absurd, self.nearly, self.in_header, self.without,
                     self.with_more, self.of_other_order, self.swapped_halves, self.noise, self.nothing)

    def flipped(self, data, order):
        out = bytearray(data)
        for _ in range(self.rng.choice((1, 2, 8, 64))):
            out[self.rng.randrange(len(out))] ^= 1 << self.rng.randrange(8)
        return bytes(out)

    def cut(self, data, order):
        return data[:self.rng.choice((self.rng.randrange(len(data)), self.rng.randrange(64), self.rng.choice(record_places(data, order))))]

    def absurd(self, data, order):
        """A captured length that cannot be."""
        at = self.rng.choice(record_places(data, order)) + 8
        return data[:at] + struct.pack(order + "I", self.rng.choice(self.ABSURD)) + data[at + 4:]

    def nearly(self, data, order):
        """A captured length that is almost right."""
        at = self.rng.choice(record_places(data, order)) + 8
        length = struct.unpack_from(order + "I", data, at)[0] + self.rng.choice((-16, -1, 1, 16))
        return data[:at] + struct.pack(order + "I", length & 0xFFFFFFFF) + data[at + 4:]

    def in_header(self, data, order):
        """In the 24 bytes that a capture begins with; only the magic number counts."""
        at = self.rng.randrange(FILE_HEADER)
        return data[:at] + self.rng.randbytes(1) + data[at + 1:]

    def without(self, data, order):
        start = self.rng.randrange(len(data))
        return data[:start] + data[start + self.rng.choice((1, 4, 16, 100)):]

    def with_more(self, data, order):
        at = self.rng.choice((len(data), self.rng.randrange(len(data))))
        return data[:at] + self.rng.randbytes(self.rng.choice((1, 4, 15, 16, 17, 100))) + data[at:]

    def of_other_order(self, data, order):
        """The magic number of the other byte order, or of no capture that is known here."""
        other = self.rng.choice((data[3::-1], bytes.fromhex("a1b2cd34"), bytes.fromhex("34cdb2a1"), bytes.fromhex("0a0d0d0a"), bytes(4)))
        return other + data[4:]

    def swapped_halves(self, data, order):
        at = self.rng.randrange(len(data))
        return data[:4] + data[at:] + data[4:at]

    def noise(self, data, order):
        return data[:FILE_HEADER] + self.rng.randbytes(self.rng.randrange(300))

    def nothing(self, data, order):
        """Too short for a header, or a header alone."""
        return data[:self.rng.choice((0, 1, 3, 4, 23, 24))]

    def damaged(self, data, order):
        """The capture with one or two damages, and what they are called."""
        out, names = data, []
        for _ in range(self.rng.choice((1, 1, 1, 2))):
            way = self.rng.choice(self.ways)
            try:
                out = way(out, order)
            except (IndexError, ValueError, struct.error):
                continue  # there is nothing left to damage in this way
            names.append(way.__name__)
        return out, "+".join(names)
