#!/usr/bin/env python3
"""Writes a capture of so many Ethernet frames, each an IPv4 packet with a TCP segment with options, as pcap or pcapng.

The bytes depend on nothing but the number of frames, so that every machine measures the same file.
"""
import struct
import sys

OPTIONS = bytes.fromhex("0101080a0000000500000006")


def frame(number):
    source, port = 0x0A000001 + number % 251, 40000 + number % 997
    tcp = struct.pack(">HHIIBBHHH", port, 443, number, 1, 8 << 4, 0x18, 65535, 0, 0) + OPTIONS + b"data"
    ip = struct.pack(">BBHHHBBHII", 0x45, 0, 20 + len(tcp), number & 0xFFFF, 0x4000, 64, 6, 0, source, 0x0A000102)
    return bytes.fromhex("0200000000020200000000010800") + ip + tcp


def pcap(file, count):
    file.write(struct.pack("<IHHiIII", 0xA1B2C3D4, 2, 4, 0, 0, 262144, 1))
    for number in range(count):
        data = frame(number)
        file.write(struct.pack("<IIII", 1700000000 + number // 1000, number % 1000 * 1000, len(data), len(data)) + data)


def pcapng(file, count):
    file.write(struct.pack("<IIIHHqI", 0x0A0D0D0A, 28, 0x1A2B3C4D, 1, 0, -1, 28))
    file.write(struct.pack("<IIHHII", 1, 20, 1, 0, 262144, 20))
    for number in range(count):
        data = frame(number)
        ticks = (1700000000 + number // 1000) * 1000000 + number % 1000 * 1000
        padding = -len(data) % 4
        size = 32 + len(data) + padding
        file.write(struct.pack("<IIIIIII", 6, size, 0, ticks >> 32, ticks & 0xFFFFFFFF, len(data), len(data)))
        file.write(data + bytes(padding) + struct.pack("<I", size))


def main():
    path, count = sys.argv[1], int(sys.argv[2])
    with open(path, "wb") as file:
        (pcapng if path.endswith(".pcapng") else pcap)(file, count)


main()
