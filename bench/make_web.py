#!/usr/bin/env python3
"""Writes a pcap file of web traffic: for each visit a DNS query and its answer, a handshake, a request, and a response in
segments. Words: FILE VISITS."""
import struct
import sys

ETHERNET = bytes.fromhex("020000000002020000000001") + b"\x08\x00"


def packet(protocol, source, target, payload):
    header = struct.pack(">BBHHHBBH4s4s", 0x45, 0, 20 + len(payload), 1, 0x4000, 64, protocol, 0, source, target)
    return ETHERNET + header + payload


def datagram(source, target, ports, payload):
    return packet(17, source, target, struct.pack(">HHHH", *ports, 8 + len(payload), 0) + payload)


def segment(source, target, ports, seq, ack, flags, payload=b""):
    return packet(6, source, target, struct.pack(">HHIIBBHHH", *ports, seq, ack, 0x50, flags, 8192, 0, 0) + payload)


def name(labels):
    return b"".join(bytes([len(label)]) + label for label in labels) + b"\0"


def visit(k):
    client, server, resolver = bytes([10, 0, 0, 2 + k % 200]), bytes([192, 0, 2, 1 + k % 250]), bytes([10, 0, 0, 1])
    question = name([b"host%d" % (k % 5000), b"example", b"test"]) + struct.pack(">HH", 1, 1)
    port = 10000 + k % 50000
    number = k % 65536
    yield datagram(client, resolver, (port, 53), struct.pack(">HHHHHH", number, 0x0100, 1, 0, 0, 0) + question)
    records = b"".join(struct.pack(">HHHIH", 0xC00C, 1, 1, 60, 4) + server[:3] + bytes([j]) for j in range(2))
    yield datagram(resolver, client, (53, port), struct.pack(">HHHHHH", number, 0x8180, 1, 2, 0, 0) + question + records)
    there, back = (port, 80), (80, port)
    yield segment(client, server, there, 1, 0, 0x02)
    yield segment(server, client, back, 1, 2, 0x12)
    yield segment(client, server, there, 2, 2, 0x10)
    request = b"GET /page%d HTTP/1.1\r\nHost: example.test\r\nAccept: */*\r\n\r\n" % k
    yield segment(client, server, there, 2, 2, 0x18, request)
    body = b"HTTP/1.1 200 OK\r\nContent-Length: 4000\r\n\r\n" + b"x" * 4000
    for at in range(0, len(body), 1400):
        part = body[at:at + 1400]
        yield segment(server, client, back, 2 + at, 2 + len(request), 0x18, part)
    yield segment(client, server, there, 2 + len(request), 2 + len(body), 0x11)


def main():
    with open(sys.argv[1], "wb") as out:
        out.write(struct.pack("<IHHiIII", 0xA1B2C3D4, 2, 4, 0, 0, 262144, 1))
        time = 0
        for k in range(int(sys.argv[2])):
            for frame in visit(k):
                time += 100
                out.write(struct.pack("<IIII", time // 1000000, time % 1000000, len(frame), len(frame)) + frame)


main()
