#!/usr/bin/env python3
"""Writes a capture of so many megabytes: Ethernet frames of 60 to 1,514 bytes, every fiftieth an ARP request.

The bytes depend on nothing but the size, so that every machine measures the same file.
"""
import struct
import sys


def frames(limit):
    """Frames until their records reach the limit, by a small linear congruential generator."""
    state, size, number = 7, 24, 0
    filler = bytes(range(256)) * 6
    arp = bytes.fromhex("ffffffffffff020000000001080600010800060400010200000000010a0000010000000000000a000002").ljust(60, b"\0")
    while True:
        number += 1
        if number % 50 == 0:
            frame = arp
        else:
            state = (state * 1103515245 + 12345) & 0x7FFFFFFF
            length = 60 + state % 1455
            head = bytes.fromhex("0200000000020200000000010800") + struct.pack(">BBHHHBBH", 0x45, 0, length - 14, number & 0xFFFF, 0, 64, 17, 0)
            frame = (head + bytes.fromhex("0a0000010a000002") + struct.pack(">HHHH", 40000, 7, length - 34, 0) + filler)[:length]
        size += 16 + len(frame)
        if size > limit:
            return
        yield struct.pack("<IIII", 1700000000 + number // 1000, number % 1000 * 1000, len(frame), len(frame)) + frame


def main():
    path, megabytes = sys.argv[1], int(sys.argv[2])
    with open(path, "wb") as file:
        file.write(struct.pack("<IHHiIII", 0xA1B2C3D4, 2, 4, 0, 0, 262144, 1))
        for record in frames(megabytes * 1_000_000):
            file.write(record)


main()
