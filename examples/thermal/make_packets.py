#!/usr/bin/env python3
"""Writes packets.bin: the housekeeping packets of an hour and three quarters, one every two seconds, with an hour played again.

Packets 0 to 2,699, then 900 to 2,699 once more, byte for byte, then 2,700 to 3,149. README.md says what happens when.
"""
import os
import struct


def checksum(data):
    """CRC-16 of ECSS-E-70-41A."""
    crc = 0xFFFF
    for byte in data:
        crc ^= byte << 8
        for _ in range(8):
            crc = (crc << 1 ^ 0x1021) & 0xFFFF if crc & 0x8000 else crc << 1
    return crc


def plate(i):
    """Raw base plate thermistor: slow, up to 50,000, held, and back."""
    if i < 600:
        return 30000 + 3 * i
    if i < 1800:
        return 32000 + 15 * (i - 600)
    if i < 1980:
        return 50000
    if i < 2580:
        return 50000 - 30 * (i - 1979)
    return 32000


def fast(i):
    """Four raw samples of the lamp's thermistor: two high ones at packet 1,000, four at packet 1,100."""
    if i == 1000:
        return (20000, 46000, 46000, 20000)
    if i == 1100:
        return (46000, 46000, 46000, 46000)
    return (20000, 20010, 20020, 20030)


def shroud(i):
    """Raw shroud sensor, signed: falls by 2 a packet, and warms again from packet 2,700 on."""
    return -15000 - 2 * i if i < 2700 else -15000


def packet(i):
    acquiring = not 2000 <= i < 2150
    heating = 450 <= i < 600
    current = 230 if i == 500 else 120 if heating else 3
    flags = acquiring << 7 | heating << 6 | 1 << 5 | (2 if heating else 0)
    field_header = struct.pack(">BBBBIH", 0x10, 3, 25, 0, 700000000 + 2 * i, 0)
    data = struct.pack(">BBBB", 1, flags, 0x20, i % 256)
    data += struct.pack(">HHh4HBB4sh", plate(i), plate(i) - 900, shroud(i), *fast(i), current, 80, b"v1.3", 250)
    length = 6 + len(field_header) + len(data) + 2
    header = struct.pack(">HHH", 0x0800 | 321, 0xC000 | (14500 + i) % 16384, length - 7)
    body = header + field_header + data
    return body + struct.pack(">H", checksum(body))


def main():
    order = list(range(2700)) + list(range(900, 2700)) + list(range(2700, 3150))
    folder = os.path.dirname(os.path.abspath(__file__))
    with open(os.path.join(folder, "packets.bin"), "wb") as file:
        file.write(b"".join(packet(i) for i in order))


main()
