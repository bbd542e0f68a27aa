#!/usr/bin/env python3
"""Writes a capture of segments of TCP in Ethernet frames, of one of these kinds, in so many frames behind a SYN:

one     1,400 bytes each of one stream, in order
many    250 bytes each of streams in turn, four segments of each
late    as one, but each tenth segment comes ten places late
twice   as one, but each segment comes twice
falling one byte each of one stream, in falling order

The bytes depend on nothing but the kind and the number of frames, so that every machine measures the same file.
"""
import struct
import sys

ETHERNET = bytes.fromhex("0200000000020200000000010800")
ORIGIN = 1000


def segment(number, flags, data, stream=0):
    source, port = 0x0A000001 + stream // 50000, 10000 + stream % 50000
    ip = struct.pack(">BBHHHBBHII", 0x45, 0, 40 + len(data), 0, 0x4000, 64, 6, 0, source, 0xC0000201)
    tcp = struct.pack(">HHIIBBHHH", port, 9999, number, 0, 0x50, flags, 65535, 0, 0)
    return ETHERNET + ip + tcp + data


def piece(place, size):
    return segment(ORIGIN + place * size, 0x18, struct.pack(">Q", place).rjust(size, b"x")[-size:])


def late(count):
    """Places in which each tenth comes behind the ten that follow it."""
    held = None
    for place in range(count):
        if place % 10 == 0:
            if held is not None:
                yield held
            held = place
        else:
            yield place
    if held is not None:
        yield held


def frames(kind, count):
    if kind == "many":
        streams = count // 4
        for number in range(count):
            yield segment(ORIGIN + number // streams * 250, 0x18, struct.pack(">Q", number).rjust(250, b"x"), number % streams)
        return
    yield segment(ORIGIN - 1, 0x02, b"")
    if kind == "one":
        yield from (piece(place, 1400) for place in range(count))
    elif kind == "late":
        yield from (piece(place, 1400) for place in late(count))
    elif kind == "twice":
        yield from (piece(place // 2, 1400) for place in range(count))
    else:
        yield from (piece(place, 1) for place in range(count - 1, -1, -1))


def main():
    path, kind, count = sys.argv[1], sys.argv[2], int(sys.argv[3])
    with open(path, "wb") as file:
        file.write(struct.pack("<IHHiIII", 0xA1B2C3D4, 2, 4, 0, 0, 262144, 1))
        for number, data in enumerate(frames(kind, count)):
            file.write(struct.pack("<IIII", 1700000000 + number // 1000, number % 1000 * 1000, len(data), len(data)) + data)


main()
