#!/usr/bin/env python3
"""Writes a pcap file of queries of one id in one stream of UDP, and behind them one response. Words: FILE QUERIES."""
import struct
import sys

QUESTION = b"\x04host\x07example\x04test\0" + struct.pack(">HH", 1, 1)


def frame(source, target, ports, flags):
    message = struct.pack(">HHHHHH", 1, flags, 1, 0, 0, 0) + QUESTION
    datagram = struct.pack(">HHHH", *ports, 8 + len(message), 0) + message
    header = struct.pack(">BBHHHBBH4s4s", 0x45, 0, 20 + len(datagram), 1, 0x4000, 64, 17, 0, source, target)
    return bytes.fromhex("020000000002020000000001") + b"\x08\x00" + header + datagram


def main():
    client, resolver = bytes([10, 0, 0, 2]), bytes([10, 0, 0, 1])
    query = frame(client, resolver, (40000, 53), 0x0100)
    response = frame(resolver, client, (53, 40000), 0x8180)
    with open(sys.argv[1], "wb") as out:
        out.write(struct.pack("<IHHiIII", 0xA1B2C3D4, 2, 4, 0, 0, 262144, 1))
        for k, packet in enumerate([query] * int(sys.argv[2]) + [response]):
            time = 100 * k
            out.write(struct.pack("<IIII", time // 1000000, time % 1000000, len(packet), len(packet)) + packet)


main()
