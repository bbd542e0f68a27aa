#!/usr/bin/env python3
"""Writes a capture of IPv4 fragments in Ethernet frames, of one of these kinds, in so many frames:

last    the last fragment of one datagram, of one byte, again and again
falling fragments of 8 bytes in falling order, of 16 datagrams in turn, 8,189 of each; whoever is whole begins anew
pieces  8,000 pieces of 8 bytes of one datagram but for its first, and then its last one again and again
lone    one fragment of 8 bytes of a datagram of its own in each frame

The bytes depend on nothing but the kind and the number of frames, so that every machine measures the same file.
"""
import struct
import sys

ETHERNET = bytes.fromhex("0200000000020200000000010800")
PIECES = 8189


def fragment(ident, place, more, data, source=0x0A000001):
    flags = (0x2000 if more else 0) | place
    ip = struct.pack(">BBHHHBBHII", 0x45, 0, 20 + len(data), ident, flags, 64, 17, 0, source, 0x0A000102)
    return ETHERNET + ip + data


def frames(kind, count):
    for number in range(count):
        if kind == "last":
            yield fragment(1, 100, False, b"x")
        elif kind == "falling":
            place = PIECES - 1 - number // 16 % PIECES
            yield fragment(number % 16, place, place != PIECES - 1, struct.pack(">Q", number))
        elif kind == "pieces":
            place = min(number, 7999) + 1
            yield fragment(1, place, place != 8000, struct.pack(">Q", place))
        else:
            yield fragment(number & 0xFFFF, 1, True, struct.pack(">Q", number), 0x0A000001 + (number >> 16))


def main():
    path, kind, count = sys.argv[1], sys.argv[2], int(sys.argv[3])
    with open(path, "wb") as file:
        file.write(struct.pack("<IHHiIII", 0xA1B2C3D4, 2, 4, 0, 0, 262144, 1))
        for number, data in enumerate(frames(kind, count)):
            file.write(struct.pack("<IIII", 1700000000 + number // 1000, number % 1000 * 1000, len(data), len(data)) + data)


main()
