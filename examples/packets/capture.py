"""Writes packets.pcap: the packets on which the filters are tried. The same bytes every time.
`examples/packets/make` starts it, and `--check` compares what is stored with what would be written.

The addresses are those that RFC 5737 and RFC 3849 keep for documents, and 10.0.0.0/8. Checksums and lengths are right but where a
comment says otherwise. No packet is cut by the capture: the short ones are short on the wire.
"""

import ipaddress
import os
import random
import struct
import sys

HERE = os.path.dirname(os.path.abspath(__file__))
FILE = os.path.join(HERE, "packets.pcap")
START = 1735689600  # seconds since 1970; the packets are a millisecond apart
ROUTER, HOST, STATION = "02005e100001", "02005e1000f0", "02005e100007"
TCP, UDP, ICMP, ICMP6 = 6, 17, 1, 58
FIN, SYN, RST, PSH, ACK = 1, 2, 4, 8, 16

rng = random.Random(9669)


def checksum(data):
    """RFC 1071."""
    total = sum(struct.unpack(">%dH" % ((len(data) + 1) // 2), data + b"\0" * (len(data) % 2)))
    while total >> 16:
        total = (total & 0xFFFF) + (total >> 16)
    return ~total & 0xFFFF


def ethernet(kind, payload, to=ROUTER, by=HOST):
    return bytes.fromhex(to + by) + struct.pack(">H", kind) + payload


def tag(number, frame, kind=0x8100, priority=0):
    return frame[:12] + struct.pack(">HH", kind, priority << 13 | number) + frame[12:]


def with_checksum(by, to, protocol, data, at):
    """TCP's or UDP's data with the checksum at `at`, over the addresses too (RFC 9293 section 3.1, RFC 768, RFC 8200 section 8.1)."""
    pseudo = struct.pack(">IxxxB", len(data), protocol) if by.version == 6 else struct.pack(">xBH", protocol, len(data))
    value = checksum(by.packed + to.packed + pseudo + data)
    if protocol == UDP and value == 0:
        value = 0xFFFF
    return data[:at] + struct.pack(">H", value) + data[at + 2:]


def address(text):
    return ipaddress.ip_address(text)


class Segment:
    """What IP carries: a protocol, and its bytes once the addresses are known."""

    def __init__(self, protocol, data, checksum_at=None):
        self.protocol, self.data, self.checksum_at = protocol, data, checksum_at

    def between(self, by, to):
        return self.data if self.checksum_at is None else with_checksum(by, to, self.protocol, self.data, self.checksum_at)


def tcp(by, to, flags=ACK, sequence=1000, payload=b"", options=b"", urgent=0):
    words = 5 + len(options) // 4
    return Segment(TCP, struct.pack(">HHIIBBHHH", by, to, sequence, 77, words << 4, flags, 65535, 0, urgent) + options + payload, 16)


def udp(by, to, payload=b""):
    return Segment(UDP, struct.pack(">HHHH", by, to, 8 + len(payload), 0) + payload, 6)


def icmp(kind, code, payload=b""):
    data = struct.pack(">BBHHH", kind, code, 0, 1, 1) + payload
    return Segment(ICMP, data[:2] + struct.pack(">H", checksum(data)) + data[4:])


def ipv4(by, to, carried, ttl=64, options=b"", identification=0, flags=0, offset=0, part=None, wrong=0, to_mac=ROUTER, by_mac=HOST):
    """`part` are the bytes of the carried segment that this fragment has; `wrong` is added to the checksum."""
    source, target = address(by), address(to)
    data = carried.between(source, target)
    data = data if part is None else data[part]
    words = 5 + len(options) // 4
    head = struct.pack(">BBHHHBBH", 0x40 | words, 0, 4 * words + len(data), identification, flags << 13 | offset, ttl, carried.protocol, 0)
    head += source.packed + target.packed + options
    value = checksum(head)
    head = head[:10] + struct.pack(">H", (value + wrong) & 0xFFFF) + head[12:]
    return ethernet(0x0800, head + data, to_mac, by_mac)


def ipv6(by, to, carried, extensions=(), hops=64):
    """`extensions` are (header number, bytes behind the two first ones), outermost first."""
    source, target = address(by), address(to)
    data, following = carried.between(source, target), carried.protocol
    for number, inside in reversed(extensions):
        data = struct.pack(">BB", following, (len(inside) + 2) // 8 - 1) + inside + data
        following = number
    return ethernet(0x86DD, struct.pack(">IHBB", 6 << 28, len(data), following, hops) + source.packed + target.packed + data)


def arp(operation, by, to, sender=HOST):
    return ethernet(0x0806, struct.pack(">HHBBH", 1, 0x0800, 6, 4, operation) + bytes.fromhex(sender) + address(by).packed + bytes(6) +
                    address(to).packed, "ffffffffffff")


def padded(frame, length=60):
    """Ethernet's shortest frame has 60 bytes, without its check sequence."""
    return frame + bytes(max(0, length - len(frame)))


def name(*labels):
    return b"".join(bytes([len(label)]) + label for label in labels) + b"\0"


def dns(question, flags=0x0100):
    return struct.pack(">HHHHHH", 0x1234, flags, 1, 0, 0, 0) + question + struct.pack(">HH", 1, 1)


def noise(length):
    return bytes(rng.randrange(256) for _ in range(length))


def connections():
    ports = [(50000, 443), (443, 50000), (443, 443), (50001, 80), (22, 50002), (8080, 50003), (50004, 8080), (444, 442), (47873, 2)]
    for n, (by, to) in enumerate(ports):
        yield ipv4("10.0.207.121", "198.51.100.%d" % (n + 2), tcp(by, to, PSH | ACK, payload=noise(7 * n)), identification=n * 911)
    for flags in (SYN, SYN | ACK, ACK, FIN | ACK, RST, PSH | ACK, SYN | FIN, SYN | PSH, 0, 0xFF):
        yield padded(ipv4("192.0.2.33", "203.0.113.9", tcp(40000, 25, flags), identification=40 + flags))
    yield ipv4("192.0.2.33", "203.0.113.9", tcp(40000, 25, SYN, options=bytes.fromhex("020405b40402080a000000010000000001030307")))
    for sequence in (0, 1, 0x7FFEFFFF, 0x7FFF0000, 0x7FFF0001, 0x80000000, 0xFFFEFFFF, 0xFFFF0000, 0xFFFFFFFF):
        yield ipv4("10.1.171.95", "10.9.9.9", tcp(1024, 179, ACK, sequence, b"keepalive"), ttl=1, identification=sequence & 0xFFFF)


def headers():
    options = {6: b"\x94\x04\0\0", 8: b"\x07\x0b\x04" + bytes(8) + b"\0", 15: b"\x44\x28\x05\0" + bytes(36)}
    for words, bytes_of in options.items():
        yield ipv4("198.51.100.7", "192.0.2.1", tcp(50000 + words, 443, SYN), options=bytes_of)
        yield ipv4("198.51.100.7", "192.0.2.1", udp(50000 + words, 5500, b"options"), options=bytes_of)
    for words in (0, 2, 4):  # a header length below 20, which no sender may write
        frame = bytearray(ipv4("198.51.100.7", "192.0.2.1", tcp(443, 443, SYN)))
        frame[14] = 0x40 | words
        yield bytes(frame)
    for ttl in (0, 1, 2, 4, 5, 16, 128, 255):
        yield ipv4("203.0.113.250", "10.46.49.195", udp(7000, 7001, noise(90)), ttl=ttl, identification=ttl * 25 or 1)
    for identification in (0, 0x7FFF, 0x8000, 0xF000, 0xFE00, 0xFFFF):
        yield ipv4("203.0.113.1", "10.46.49.1", udp(7000, 7001, noise(9)), ttl=3, identification=identification)
    for wrong in (1, 0x100, 0xFFFE):
        yield ipv4("192.0.2.7", "198.51.100.14", udp(9, 9, b"discard"), wrong=wrong)
    yield ipv4("192.0.2.7", "198.51.100.14", udp(9, 9, b"discard"), options=b"\x01\x01\x01\0", wrong=3)


def datagrams():
    for by, to in ((40000, 4999), (40000, 5000), (40000, 5353), (5353, 5353), (40000, 5999), (40000, 6000), (5500, 40000), (8080, 1), (1, 8080)):
        yield padded(ipv4("10.48.13.8", "192.0.2.%d" % (to % 200 + 1), udp(by, to, b"x" * (to % 5))))
    questions = [name(b"www", b"example"), name(b"example"), name(b"a", b"b", b"c", b"example"), name(b"example", b"com"), name(b"examplf"), name(),
                 name(b"x" * 63, b"example"), name(*[b"n"] * 7, b"example"), name(*[b"n"] * 8, b"example"), b"\xc0\x0c", b"\x07example"]
    for n, question in enumerate(questions):
        yield ipv4("192.0.2.%d" % (29 + n), "198.51.100.53", udp(30000 + n, 53, dns(question)), identification=n)
    yield ipv4("198.51.100.53", "192.0.2.29", udp(53, 30000, dns(name(b"www", b"example"), 0x8180)))
    yield ipv4("192.0.2.29", "198.51.100.53", udp(53, 53, dns(name(b"www", b"example"), 0x8180)))
    yield ipv4("192.0.2.29", "198.51.100.53", udp(30000, 54, dns(name(b"www", b"example"))))
    for seconds, fraction in ((0, 0), (3913055999, 0xFFFFFFFF), (3913056000, 0x80000000), (3913056000, 0x80000001), (3913056001, 0), (0xFFFFFFFF, 0)):
        yield ipv4("10.77.62.33", "203.0.113.123", udp(123, 123, b"\x23" + bytes(39) + struct.pack(">II", seconds, fraction)))
    yield ipv4("10.77.62.33", "203.0.113.123", udp(123, 123, b"\x23" + bytes(30)))


def messages():
    for kind, code in ((8, 0), (0, 0), (3, 1), (3, 3), (11, 0), (5, 1), (13, 0)):
        yield ipv4("192.0.2.1", "10.81.110.200", icmp(kind, code, b"abcdefghijklmnopqrstuvwabcdefghi"), ttl=kind + 1)
    yield ipv4("192.0.2.1", "10.81.110.200", icmp(8, 0), options=b"\x94\x04\0\0")
    for operation, to in ((1, "192.0.2.1"), (1, "192.0.2.2"), (2, "192.0.2.1"), (1, "10.0.0.1")):
        yield padded(arp(operation, "192.0.2.99", to))
    yield arp(1, "192.0.2.99", "192.0.2.1", STATION)
    yield arp(1, "192.0.2.99", "192.0.2.1")[:41]  # one byte short


def fragments():
    whole = udp(5500, 5501, noise(2400))
    for offset, more in ((0, 1), (100, 1), (200, 0)):
        first = offset * 8
        yield ipv4("10.96.65.4", "203.0.113.77", whole, identification=4242, flags=more, offset=offset, part=slice(first, first + 800 if more else None))
    yield ipv4("10.96.65.4", "203.0.113.77", tcp(443, 443, SYN), flags=2)  # must not be fragmented
    yield ipv4("10.96.65.4", "203.0.113.77", tcp(443, 443, SYN, payload=bytes(range(64))), flags=1, part=slice(0, 40))
    yield ipv4("10.96.65.4", "203.0.113.77", tcp(443, 443, SYN, payload=bytes(range(64))), offset=5, part=slice(40, None))
    yield ipv4("10.96.65.4", "203.0.113.77", icmp(8, 0, noise(64)), offset=1, part=slice(8, None))


def version_six():
    inside, outside = "2001:db8:5:1::%x", "2001:db8:%x::53"
    for n, (by, to) in enumerate(((50000, 443), (443, 50000), (50001, 8443), (8080, 50002))):
        yield ipv6(inside % (n + 1), outside % (n + 4), tcp(by, to, SYN, payload=noise(n)))
    for n in range(8):
        yield ipv6("2001:db8:6::%x:%x" % (rng.randrange(65536), n), "2001:db8:ffff:%x::%x" % (n, rng.randrange(1, 65536)), udp(6000 + n, 8080 - n % 3, noise(n)))
    yield ipv6("fe80::1", "ff02::1:ff00:7", Segment(ICMP6, bytes.fromhex("8700000000000000") + address("fe80::7").packed, 2), hops=255)
    hop, routing, destination = (0, bytes.fromhex("010400000000")), (43, bytes(6)), (60, bytes.fromhex("010c") + bytes(12))
    for chain in ((hop,), (destination,), (hop, routing), (hop, destination, routing), (destination,) * 6, (destination,) * 7):
        yield ipv6("2001:db8:4:ffff::9", "2001:db8:5::9", tcp(443, 443), chain)
    yield ipv6("2001:db8:4:ffff::9", "2001:db8:6::9", udp(1, 2), (hop, destination))
    yield ipv6("2001:db8:4:ffff::9", "2001:db8:6::9", tcp(443, 1), ((44, bytes(6)),))  # a fragment header
    yield ipv6("2001:db8:5::1", "2001:db8:5::2", tcp(443, 443))[:53]  # ends inside the address
    yield ipv6("2001:db8:5::1", "2001:db8:5::2", tcp(443, 443))[:56]  # ends inside the ports
    yield ipv6("2001:db8:5::1", "2001:db8:5::2", tcp(443, 443), (hop,))[:60]  # ends inside the options


def tagged():
    inner = ipv4("10.98.67.216", "198.51.100.20", tcp(50000, 443, SYN))
    for number, kind, priority in ((100, 0x8100, 0), (100, 0x8100, 7), (101, 0x8100, 0), (1124, 0x8100, 0), (100, 0x88A8, 3), (100, 0x9100, 0), (200, 0x88A8, 0)):
        yield tag(number, inner, kind, priority)
    yield tag(100, tag(200, inner), 0x88A8)
    yield tag(200, tag(100, inner), 0x88A8)
    yield tag(100, ipv6("2001:db8:5::1", "2001:db8:9::1", tcp(1, 443)))
    yield tag(100, inner)[:15]
    yield tag(100, inner)[:16]


def lengths():
    frame = ipv4("198.51.100.57", "10.99.67.145", udp(5001, 5002, noise(1472)))
    for length in (1, 13, 14, 15, 33, 34, 37, 38, 41, 42, 63, 64, 511, 512, 513, 1514):
        yield frame[:length]  # those below 1514 say more in their headers than they have
    frame = ipv4("198.51.100.57", "10.99.67.145", tcp(443, 8080, SYN, 0xFFFF0001, noise(20)))
    for length in (35, 36, 38, 47, 48, 53, 54, 55):
        yield frame[:length]


def stations():
    payload = udp(1, 2, noise(24))
    yield ipv4("10.107.54.35", "10.107.54.36", payload, to_mac=STATION)
    yield ipv4("10.107.54.35", "10.107.54.36", payload, by_mac=STATION)
    yield ipv4("10.107.54.35", "10.107.54.36", payload, by_mac="02005e100107")
    for to, by in (("021122334455", "554433221102"), ("021122334455", "524311241305"), ("0a0b0c0d0e0f", "0f0e0d0c0b0a"), (HOST, HOST), (STATION, STATION)):
        yield padded(ethernet(0x88B5, b"permuted", to, by), 64)
    yield padded(ethernet(0x88CC, bytes.fromhex("02070402005e100007040503300602007800"), "0180c200000e"))
    yield ethernet(38, b"\x42\x42\x03" + bytes(35), "0180c2000000")  # 802.3 with a length in place of the type
    yield ethernet(0x8864, b"\x11\0\0\x01\0\x1e\0\x21" + ipv4("10.0.0.1", "10.0.0.2", udp(1, 443))[14:])


def random_frames():
    for n in range(20):
        kind = (0x0800, 0x86DD, 0x8100, 0x0806)[n % 4]
        payload = bytearray(noise(rng.randrange(10, 120)))
        if kind == 0x0800:
            payload[0], payload[9:10] = rng.choice((0x45, 0x46, 0x4F, payload[0])), bytes([rng.choice((TCP, UDP, ICMP))])
        yield ethernet(kind, bytes(payload), noise(6).hex(), noise(6).hex())


def frames():
    for part in (connections, headers, datagrams, messages, fragments, version_six, tagged, lengths, stations, random_frames):
        yield from part()


def capture(packets):
    """The pcap format: little-endian, microseconds, Ethernet."""
    out = struct.pack("<IHHiIII", 0xA1B2C3D4, 2, 4, 0, 0, 65535, 1)
    for n, frame in enumerate(packets):
        out += struct.pack("<IIII", START + n // 1000, n % 1000 * 1000, len(frame), len(frame)) + frame
    return out


def main():
    packets = list(frames())
    made = capture(packets)
    if sys.argv[1:] == ["--check"]:
        with open(FILE, "rb") as file:
            sys.exit(0 if file.read() == made else "examples/packets/make: packets.pcap is not what would be written")
    with open(FILE, "wb") as file:
        file.write(made)
    print("packets.pcap: %d packets, %d bytes" % (len(packets), len(made)))


main()
