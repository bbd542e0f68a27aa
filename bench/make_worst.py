#!/usr/bin/env python3
"""Captures that are made to cost much, each for a loop that a file's bytes decide.

    bench/make_worst.py PATH KIND BYTES   writes a capture of about so many bytes
    bench/make_worst.py --list            the kinds, and the commands that each is run with, a line for each, separated by tabs

A kind grows in one of two ways: by more frames, or within 16 frames, whose messages grow, so that what is not linear in one message
is seen too. The bytes depend on nothing but the kind and the size, so that every machine measures the same file.
"""
import struct
import sys

ETHERNET = bytes.fromhex("020000000002020000000001")
FIELDS = ["-T", "fields", "-e", "frame.number"]
JSON = ["-T", "json"]
# The frames of a kind that grows within them.
FEW = 16
# FoldHasher, by which indexmap would keep its keys, multiplies the halves of 16 bytes; with this half the product is 0, whatever the other.
MULTIPLIER = 0x9E3779B97F4A7C15


def ether(kind, data):
    return ETHERNET + struct.pack(">H", kind) + data


def ip4(protocol, data, source=0x0A000001, number=0, fragment=0x4000, options=b"", target=0xC0000201):
    length = min(20 + len(options) + len(data), 65535)
    head = struct.pack(">BBHHHBBHII", 0x45 + len(options) // 4, 0, length, number, fragment, 64, protocol, 0, source, target)
    return head + options + data


def ip6(following, data, source=1, target=2):
    return struct.pack(">IHBB", 0x60000000, len(data), following, 64) + source.to_bytes(16, "big") + target.to_bytes(16, "big") + data


def udp(source, target, data):
    return struct.pack(">HHHH", source, target, 8 + len(data), 0) + data


def segment(number, data, port, target, options=b"", ack=0, flags=0x18):
    return struct.pack(">HHIIBBHHH", port, target, number & 0xFFFFFFFF, ack & 0xFFFFFFFF, (5 + len(options) // 4) << 4, flags, 65535, 0, 0) + options + data


def tcp(number, data, port=40000, source=0x0A000001, target=9999, options=b""):
    return ether(0x0800, ip4(6, segment(number, data, port, target, options), source))


def dns(counts, body, number=1, answer=True):
    return struct.pack(">HHHHHH", number & 0xFFFF, 0x8180 if answer else 0x0100, *counts) + body


def answered(place, counts, body):
    return ether(0x0800, ip4(17, udp(53, 5000 + place % 50000, dns(counts, body, place))))


def asked(place, body, number):
    return ether(0x0800, ip4(17, udp(5000 + place % 50000, 53, dns((1, 0, 0, 0), body, number, False))))


LABELS = b"\x01a" * 127 + b"\x00"
ASKED = b"\x01a\x00\x00\x01\x00\x01"


# What the reader of captures goes through.
def tiny(_):
    """frames of no bytes"""
    return b""


def payloads(place):
    """frames of 64 KB"""
    return ether(0x0800, ip4(17, udp(9998, 9999, bytes((place + k) % 256 for k in range(64000)))))


def ordinary(place):
    """web traffic: queries, answers, and 8 KB over TCP, for comparison"""
    visit, step = divmod(place, 10)
    port, source = 10000 + visit % 50000, 0x0A000001 + visit // 50000
    if step == 0:
        return ether(0x0800, ip4(17, udp(port, 53, dns((1, 0, 0, 0), b"\x03www\x07example\x03com\x00\x00\x01\x00\x01", visit, False)), source))
    if step == 1:
        body = b"\x03www\x07example\x03com\x00\x00\x01\x00\x01" + struct.pack(">HHHIHI", 0xC00C, 1, 1, 60, 4, 0xC0000201)
        return ether(0x0800, ip4(17, udp(53, port, dns((1, 1, 0, 0), body, visit)), source))
    return tcp(1 + (step - 2) * 1000, bytes([place % 256]) * 1000, port, source)


# Headers.
def headers(_):
    """31 IPv4 headers, one in the other"""
    data = udp(9998, 9999, b"")
    for _ in range(31):
        data = ip4(4 if data[0] == 0x45 else 17, data)
    return ether(0x0800, data)


def tags(_):
    """30 VLAN tags, one behind the other"""
    return ether(0x8100, b"".join(b"\x00\x01\x81\x00" for _ in range(29)) + b"\x00\x01\x08\x00" + ip4(17, udp(9998, 9999, b"")))


def options(_):
    """TCP options and IPv4 options of one byte each"""
    return ether(0x0800, ip4(6, struct.pack(">HHIIBBHHH", 40000, 9999, 1, 0, 0xF0, 0x10, 1, 0, 0) + b"\x01" * 40, options=b"\x01" * 40))


def chains(_):
    """IPv6 extension headers, as many as are followed"""
    rest = b"".join(bytes([0, 0]) + bytes(6) for _ in range(29)) + bytes([17, 0]) + bytes(6) + udp(9998, 9999, b"")
    return ether(0x86DD, ip6(0, rest))


def hops(_):
    """an IPv6 header of options of one byte each"""
    return ether(0x86DD, ip6(0, bytes([17, 255]) + bytes(2046) + udp(9998, 9999, b"")))


def errors(_):
    """ICMP errors that carry 30 IPv4 headers, one in the other"""
    data = udp(9998, 9999, b"")
    for _ in range(29):
        data = ip4(4 if data[0] == 0x45 else 17, data)
    return ether(0x0800, ip4(1, struct.pack(">BBHI", 3, 1, 0, 0) + data))


def neighbours(_, room):
    """router advertisements of options of eight bytes"""
    return ether(0x86DD, ip6(58, struct.pack(">BBHBBHII", 134, 0, 0, 64, 0, 1800, 0, 0) + (b"\x05\x01" + bytes(6)) * ((room - 70) // 8)))


# Messages.
def pads(_, room):
    """DHCP messages of options without content"""
    body = struct.pack(">BBBBIHH", 1, 1, 6, 0, 1, 0, 0) + bytes(16) + bytes(16) + bytes(192) + bytes.fromhex("63825363")
    return ether(0x0800, ip4(17, udp(68, 67, body + b"\x0c\x00" * ((room - 300) // 2) + b"\xff")))


def pointers(place, room):
    """DNS answers, each a pointer to a name of 127 labels"""
    count = (room - 320) // 14
    body = LABELS + struct.pack(">HH", 1, 1)
    record = struct.pack(">HHHIHH", 0xC00C, 2, 1, 0, 2, 0xC00C)
    return answered(place, (1, count, 0, 0), body + record * count)


def chained(place, room):
    """DNS records whose data is a chain of pointers, each to the one before, and whose names point to its end"""
    links = (min(room, 32000) - 60) // 4
    chain = b"\x00" + b"".join(struct.pack(">H", 0xC000 + (23 if n == 0 else 24 + 2 * (n - 1))) for n in range(min(links, 8100)))
    records = struct.pack(">BHHIH", 0, 10, 1, 0, len(chain)) + chain
    last = 0xC000 + min(24 + 2 * (min(links, 8100) - 1), 0x3FFF)
    count = max((room - 60 - len(chain)) // 12, 0)
    return answered(place, (0, 1 + count, 0, 0), records + struct.pack(">HHHIH", last, 10, 1, 0, 0) * count)


def empty(place, room):
    """DNS TXT records of empty strings"""
    size = room - 70
    return answered(place, (0, 1, 0, 0), struct.pack(">BHHIH", 0, 16, 1, 0, size) + bytes(size))


def texts(place, room):
    """DNS TXT records of strings of one byte each"""
    count = (room - 70) // 2
    return answered(place, (0, 1, 0, 0), struct.pack(">BHHIH", 0, 16, 1, 0, 2 * count) + b"".join(bytes([1, 97 + k % 26]) for k in range(count)))


def answers(place, room):
    """DNS answers of records with a name of one label, each of another type"""
    count = (room - 60) // 15
    return answered(place, (0, count, 0, 0), b"".join(struct.pack(">HBHHIH", 0x0161, 0, 300 + k, 1, k, 2) + b"hi" for k in range(count)))


def names(place):
    """DNS queries for names of 127 labels"""
    return asked(place, LABELS + struct.pack(">HH", 1, 1), place)


def queries(_):
    """DNS queries of one id in one conversation"""
    return asked(0, ASKED, 7)


def unanswered(place):
    """DNS queries of one conversation, each of another id, which have no answers"""
    return asked(0, ASKED, place)


def pairs(place):
    """DNS queries and their answers"""
    number = place // 2
    if place % 2:
        return ether(0x0800, ip4(17, udp(53, 5000, dns((1, 0, 0, 0), ASKED, number))))
    return asked(0, ASKED, number)


def stream_of(whole, size):
    """A maker of segments of streams that each send the same bytes, so many in a segment."""
    def sent(place, port=80):
        stream, number = divmod(place, (len(whole) + size - 1) // size)
        return tcp(1 + number * size, whole[number * size:][:size], 1024 + stream % 60000, 0x0A000000 + stream // 60000, port)
    return sent


REQUEST = b"GET / HTTP/1.1\r\n\r\n"
ENDLESS = stream_of(b"GET / HTTP/1.1\r\n" + b"a: b\r\n" * 12000, 1400)
CHUNKED = stream_of(b"HTTP/1.1 200 OK\r\nTransfer-Encoding: chunked\r\n\r\n" + b"1\r\na\r\n" * 10000 + b"0\r\n\r\n", 1400)
PIPELINED = stream_of(REQUEST * 7000, 1400)
INTERIM = stream_of(b"HTTP/1.1 100 C\r\n\r\n" * 7000, 1400)
TRICKLED = stream_of(b"GET / HTTP/1.1\r\n" + b"a: b\r\n" * 120 + b"\r\n", 1)
SHORT = stream_of((b"\x00\x0c" + dns((0, 0, 0, 0), b"")) * 9000, 1400)
BYTES = stream_of(b"\x00\x0c" + dns((0, 0, 0, 0), b""), 1)


def heads(place):
    """HTTP requests whose heads never end"""
    return ENDLESS(place)


def chunks(place):
    """HTTP responses in chunks of one byte"""
    return CHUNKED(place)


def fields(place):
    """HTTP requests of 128 field lines, one in each segment"""
    return tcp(1, b"GET / HTTP/1.1\r\n" + b"a:b\r\n" * 128 + b"\r\n", 1024 + place % 60000, 0x0A000000 + place // 60000, 80)


def pipelined(place):
    """HTTP requests of 18 bytes, one behind the other"""
    return PIPELINED(place)


def interim(place):
    """interim HTTP responses, one behind the other"""
    return INTERIM(place)


def trickled(place):
    """HTTP heads in segments of one byte"""
    return TRICKLED(place)


def short(place):
    """DNS messages of 12 bytes over TCP"""
    return SHORT(place, 53)


def bytewise(place):
    """DNS messages over TCP, in segments of one byte"""
    return BYTES(place, 53)


# Fragments.
def fragment(number, place, more, data, source=0x0A000000):
    return ether(0x0800, ip4(17, data, source + number // 65536, number % 65536, (0x2000 if more else 0) | place))


def fragment6(number, place, more, data):
    return ether(0x86DD, ip6(44, struct.pack(">BBHI", 17, 0, place << 3 | more, number & 0xFFFFFFFF) + data))


def lone(place):
    """fragments of eight bytes, each of a datagram of its own"""
    return fragment(place, 0, True, bytes(8))


def tails(place):
    """last fragments of one byte, each of a datagram of its own"""
    return fragment(place, 1, False, b"x")


def lone6(place):
    """IPv6 fragments of eight bytes, each of a datagram of its own"""
    return fragment6(place, 0, 1, bytes(8))


def empty6(place):
    """IPv6 fragments without bytes, each of a datagram of its own"""
    return fragment6(place, 0, 1, b"")


def same6(_):
    """IPv6 fragments without bytes, of one datagram"""
    return fragment6(1, 0, 1, b"")


def twos(place):
    """two fragments of each datagram, which doesn't become whole"""
    return fragment(place // 2, place % 2, True, bytes(8))


def wholes(place):
    """two fragments of each datagram, which becomes whole"""
    return fragment(place // 2, place % 2, place % 2 == 0, bytes(8))


def last(_):
    """the last fragment of one datagram, again and again"""
    return fragment(1, 100, False, b"x")


def backwards(place):
    """fragments of 16 datagrams in turn, in falling order"""
    at = 8188 - place // 16 % 8189
    return fragment(place % 16, at, at != 8188, struct.pack(">Q", place))


def pieces(place):
    """8,000 fragments of a datagram but for its first, and then its last one again and again"""
    at = min(place, 7999) + 1
    return fragment(1, at, at != 8000, struct.pack(">Q", at))


# Streams.
def streams(place):
    """segments of one byte, each of a stream of its own"""
    return tcp(1, b"x", 1024 + place % 60000, 0x0A000000 + place // 60000)


def falling(place):
    """segments of one byte in falling order"""
    return tcp(1 + (1 << 23) - place, b"x") if place else tcp(0, b"")


def holes(place):
    """segments of one byte, every other byte of a stream"""
    return tcp(2 * place, b"x")


def overlaps(place):
    """segments that overlap in all but one byte"""
    return tcp(1 + place, b"y" * 1400)


def passed(place):
    """segments behind lost bytes, each acknowledged by the other side"""
    if place % 2:
        return ether(0x0800, ip4(6, segment(1, b"", 9999, 40000, ack=place + 1, flags=0x10), 0xC0000201, target=0x0A000001))
    return tcp(1 + place, b"x")


def restarts(place):
    """streams that start anew between the same ends"""
    return ether(0x0800, ip4(6, segment(place * 7919, b"", 40000, 9999, flags=0x02)))


def alike(place):
    """segments of one byte between IPv6 addresses whose keys have one hash"""
    return ether(0x86DD, ip6(6, segment(1, b"x", 40000, 9999), MULTIPLIER << 64 | place, MULTIPLIER << 64 | 1 << 63))


def talks(place):
    """datagrams of conversations of UDP, one each"""
    return ether(0x0800, ip4(17, udp(1024 + place % 60000, 9999, b""), 0x0A000000 + place // 60000))


def talks_alike(place):
    """the same between IPv6 addresses whose keys have one hash"""
    return ether(0x86DD, ip6(17, udp(9998, 9999, b""), MULTIPLIER << 64 | place, MULTIPLIER << 64 | 1 << 63))


def records(frames):
    out = [struct.pack("<IHHiIII", 0xA1B2C3D4, 2, 4, 0, 0, 262144, 1)]
    for place, data in enumerate(frames):
        out.append(struct.pack("<IIII", 1700000000 + place // 1000, place % 1000 * 1000, len(data), len(data)) + data)
    return b"".join(out)


def block(kind, body):
    body += bytes(-len(body) % 4)
    return struct.pack("<II", kind, 12 + len(body)) + body + struct.pack("<I", 12 + len(body))


SECTION = block(0x0A0D0D0A, struct.pack("<IHHq", 0x1A2B3C4D, 1, 0, -1))
INTERFACE = block(1, struct.pack("<HHI", 1, 0, 0))


def sections(size):
    """sections without frames"""
    return SECTION * (size // len(SECTION))


def strange(size):
    """blocks of a type that isn't read"""
    return SECTION + block(0x12345, b"") * (size // 12)


def interfaces(size):
    """as many interfaces as frames, which are of the last one"""
    count = max(size // (len(INTERFACE) + 32), 1)
    return SECTION + INTERFACE * count + block(6, struct.pack("<IIIII", count - 1, 0, 0, 0, 0)) * count


def comments(size):
    """frames with options of four bytes"""
    each = size // FEW
    packet = struct.pack("<IIIII", 0, 0, 0, 0, 0) + struct.pack("<HH", 1, 0) * ((each - 40) // 4) + struct.pack("<HH", 0, 0)
    return SECTION + INTERFACE + block(6, packet) * FEW


FILES = (sections, strange, interfaces, comments)
WITHIN = (neighbours, pads, pointers, chained, empty, texts, answers)

BOTH = ["-2", *FIELDS, "-e", "dns.response_in", "-e", "dns.response_to", "-e", "http.response_in"]
STREAMS = [*FIELDS, "-e", "tcp.stream", "-e", "tcp.seq"]


def filtered(text):
    return [*FIELDS, "-Y", text]


MEMBERS = ", ".join(str(60000 + n) for n in range(580))
STRINGS = ", ".join('"%d"' % n for n in range(500))
# Each kind with the words that it is run with, and the loop that it is made for.
TABLE = [
    (ordinary, JSON, "for comparison"),
    (tiny, JSON, "capture_formats: records; out_json: lines"),
    (tiny, FIELDS, "capture_formats: records; run_frames: frames"),
    (tiny, ["-w", "-", "-F", "pcapng"], "capture_write: frames"),
    (payloads, JSON, "out_json: bytes"),
    (sections, FIELDS, "capture_formats: sections"),
    (strange, FIELDS, "capture_formats: blocks that are passed"),
    (interfaces, FIELDS, "capture_formats: interfaces"),
    (interfaces, ["-w", "-", "-F", "pcapng"], "capture_write: interfaces"),
    (comments, FIELDS, "capture_formats: options of a block"),
    (headers, JSON, "dissect: headers of a frame"),
    (tags, JSON, "dis_link: tags"),
    (options, JSON, "dis_ip, dis_ports: options"),
    (chains, JSON, "dis_ip: extension headers"),
    (hops, JSON, "dis_ip: options of an extension header"),
    (errors, JSON, "dis_icmp, dissect: the packet in a message"),
    (neighbours, JSON, "dis_icmp: options of neighbour discovery"),
    (pads, JSON, "dis_hosts: options of DHCP"),
    (pointers, JSON, "dis_dns: names by pointers; out_json: texts"),
    (chained, JSON, "dis_dns: chains of pointers"),
    (empty, JSON, "dis_dns: strings"),
    (texts, JSON, "dis_dns: strings"),
    (answers, JSON, "dis_dns: records"),
    (names, JSON, "dis_dns: labels"),
    (heads, JSON, "stream_messages: lines of a head"),
    (chunks, JSON, "stream_messages: chunks"),
    (fields, JSON, "dis_http: field lines"),
    (pipelined, JSON, "stream_messages, app_layers: messages of a stream"),
    (interim, JSON, "stream_messages, app_layers: messages of a stream"),
    (trickled, JSON, "tcp_messages: a message in many segments"),
    (short, JSON, "stream_messages: messages of DNS"),
    (bytewise, JSON, "tcp_messages: a message in many segments"),
    (lone, JSON, "ip_join: datagrams that wait"),
    (lone, [*FIELDS, "-e", "ip.fragment.error"], "ip_join: datagrams that wait"),
    (tails, [*FIELDS, "-e", "ip.fragment.error"], "ip_join: datagrams that wait"),
    (lone6, [*FIELDS, "-e", "ipv6.fragment.error"], "ip_join: datagrams that wait"),
    (empty6, [*FIELDS, "-e", "ipv6.fragment.error"], "ip_join: datagrams that wait"),
    (same6, [*FIELDS, "-e", "ipv6.fragment.error"], "ip_join: fragments of a datagram"),
    (twos, [*FIELDS, "-e", "ip.fragment.error"], "ip_join: fragments of a datagram"),
    (wholes, [*FIELDS, "-e", "ip.fragment"], "ip_join: datagrams that become whole"),
    (last, [*FIELDS, "-e", "ip.fragment.error"], "ip_join: fragments that come again"),
    (backwards, [*FIELDS, "-e", "ip.fragment.error"], "range_bytes: runs of a datagram"),
    (pieces, [*FIELDS, "-e", "ip.fragment.error"], "range_bytes: runs of a datagram"),
    (streams, JSON, "tcp_streams: streams"),
    (streams, STREAMS, "tcp_streams: streams"),
    (falling, STREAMS, "range_bytes: runs that wait"),
    (holes, STREAMS, "range_bytes: runs that wait"),
    (overlaps, STREAMS, "range_bytes: runs that overlap"),
    (passed, STREAMS, "tcp_streams: gaps that are passed"),
    (restarts, STREAMS, "tcp_streams: streams of one conversation"),
    (alike, STREAMS, "tcp_streams: keys of one hash"),
    (talks, [*FIELDS, "-e", "udp.stream"], "message_links: conversations"),
    (talks_alike, [*FIELDS, "-e", "udp.stream"], "message_links: keys of one hash"),
    (queries, BOTH, "message_links: queries of one id"),
    (unanswered, BOTH, "message_links: queries that wait"),
    (pairs, BOTH, "message_links, second_pass: links"),
    (pipelined, BOTH, "message_links: requests that wait"),
    (streams, ["-q", "-z", "conv,tcp"], "cap_stats: rows of a table"),
    (streams, ["-q", "-z", "conv,ip"], "cap_stats: rows of a table"),
    (alike, ["-q", "-z", "conv,ip"], "cap_stats: keys of one hash"),
    (headers, ["-q", "-z", "io,phs"], "cap_stats: layers of a path"),
    (falling, ["-q", "-z", "follow,tcp,raw,0"], "run_output: stretches of a stream"),
    (holes, ["-q", "-z", "follow,tcp,raw,0"], "run_output: stretches of a stream"),
    (streams, ["-T", "text"], "out_lines: summaries"),
    (texts, [*FIELDS, "-e", "dns.txt"], "out_lines: values of a column"),
    (texts, filtered("dns.txt"), "dis_dns: strings, for comparison with what follows"),
    (texts, filtered("dns.txt == dns.qry.name or dns.txt == dns.txt"), "flt_lists: pairs of two lists"),
    (texts, filtered("dns.txt != dns.txt"), "flt_lists: pairs of two lists"),
    (texts, filtered("all dns.txt < dns.txt"), "flt_lists: pairs of two lists"),
    (texts, filtered("all dns.txt contains dns.txt"), "flt_lists: texts in texts"),
    (texts, filtered("lower(dns.txt) contains upper(dns.txt)"), "flt_lists: texts in texts"),
    (texts, filtered("dns.txt contains \"zz\""), "flt_typed: a text in many"),
    (texts, filtered("dns.txt matches \"z+y\""), "flt_typed: a pattern in many texts"),
    (texts, filtered("dns.txt in {" + STRINGS + "}"), "flt_vm: a set of texts"),
    (texts, filtered("dns.txt[0:1] == 41 or dns.txt[-1] == 42"), "flt_lists: slices"),
    (texts, filtered("count(dns.txt) == 7 or len(dns.txt) == 2"), "flt_lists: calls"),
    (texts, filtered("max(len(dns.txt)) == 2 or min(len(dns.txt), 5) == 0"), "flt_lists: the least and the greatest"),
    (answers, filtered("dns.resp.ttl"), "dis_dns: records, for comparison with what follows"),
    (answers, filtered("dns.resp.ttl + dns.resp.type * dns.resp.type - dns.resp.len == 1"), "flt_lists: sums"),
    (answers, filtered("dns.resp.ttl > dns.resp.type"), "flt_lists: pairs of two lists"),
    (answers, filtered("dns.resp.ttl & 65536"), "flt_lists: masks"),
    (answers, filtered("dns.resp.ttl in {" + MEMBERS + "}"), "flt_vm: a set of numbers"),
    (answers, filtered("dns.resp.name matches \"(.*)(.*)(.*)(.*)x\""), "flt_typed: a pattern made for backtracking"),
    (payloads, filtered("udp.payload matches \"([a-z]+)*0\""), "flt_typed: a pattern in a long text"),
    (payloads, filtered("udp.payload contains \"aaaaaaaaaaaaaaaab\""), "flt_typed: a text in a long one"),
    (tiny, filtered("(" * 64 + "frame.len == 1" + ")" * 64), "flt_parse: parentheses, once"),
    (tiny, filtered(" or ".join("frame.len==%d" % n for n in range(1, 200))), "flt_vm: 199 tests of a frame"),
]


def capture(maker, size):
    if maker in FILES:
        return maker(size)
    if maker in WITHIN:
        return records(maker(place, max(size // FEW - 16, 400)) for place in range(FEW))
    frames, written, place = [], 24, 0
    while written < size:
        frames.append(maker(place))
        written += 16 + len(frames[-1])
        place += 1
    return records(frames)


MAKERS = {maker.__name__: maker for maker, _, _ in TABLE}


def main():
    if "--help" in sys.argv[1:] or len(sys.argv) not in (2, 4):
        print(__doc__)
    elif sys.argv[1] == "--list":
        for maker, words, loop in TABLE:
            print(maker.__name__, loop, *words, sep="\t")
    else:
        path, kind, size = sys.argv[1], sys.argv[2], int(sys.argv[3])
        with open(path, "wb") as file:
            file.write(capture(MAKERS[kind], size))


if __name__ == "__main__":
    main()
