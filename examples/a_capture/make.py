"""Writes `capture`: the session of ../first_look as Ethernet frames, as `tcpdump -w` would have written them.

usage: python3 make.py > capture
"""
import socket
import struct
import sys

GATEWAY, RELAY = ("198.51.100.7", 5000), ("192.0.2.1", 2268)

REQUEST = "030000000a0b0c0d"
QUERY = (
    "04014db758a175550a0b0c0d46c000240000000001028211c0000201e0000001940400001164ec1e00000000027d0000"
    "1388000000000000000000000000c6336407"
)
UPDATE = (
    "05004db758a175550a0b0c0d46c0002800000000010239f80a000002e0000016940400002200f0000000000104000000"
    "e9fc0001"
)
PACKET = "4500002100000000101184c9cb007105e9fc0001138c138c000d6ee668656c6c6f"
TEARDOWN = "07004db758a175550a0b0c0d1388000000000000000000000000c6336407"


def udp(source, destination, payload):
    octets = bytes.fromhex(payload)
    head = struct.pack(">HHHH", source[1], destination[1], 8 + len(octets), 0)
    return ip(17, socket.inet_aton(source[0]), socket.inet_aton(destination[0]), head + octets)


def ip(protocol, source, destination, octets):
    fields = struct.pack(">BBHHHBBH", 0x45, 0, 20 + len(octets), 0, 0x4000, 64, protocol, 0)
    words = struct.unpack(">10H", fields + source + destination)
    total = sum(words)
    while total >> 16:
        total = (total & 0xFFFF) + (total >> 16)
    return fields[:10] + struct.pack(">H", 0xFFFF - total) + source + destination + octets


def frame(kind, octets):
    return bytes.fromhex("02000000000202000000000" + "1") + struct.pack(">H", kind) + octets.ljust(46, b"\0")


def record(milliseconds, octets, missing=0):
    head = struct.pack("<IIII", milliseconds // 1000, milliseconds % 1000 * 1000, len(octets) - missing, len(octets))
    return head + octets[: len(octets) - missing]


def main():
    capture = struct.pack("<IHHIIII", 0xA1B2C3D4, 2, 4, 0, 0, 262144, 1)
    for at, octets in [
        (1000, udp(GATEWAY, RELAY, REQUEST)),
        (1001, udp(RELAY, GATEWAY, QUERY)),
        (1200, udp(GATEWAY, RELAY, UPDATE)),
        (2000, bytes.fromhex(PACKET)),
        (2000, udp(RELAY, GATEWAY, "0600" + PACKET)),
        (9000, udp(GATEWAY, RELAY, TEARDOWN)),
    ]:
        capture += record(at, frame(0x0800, octets))
    capture += record(9500, frame(0x0806, bytes(28)))
    capture += record(9600, frame(0x0800, udp(GATEWAY, RELAY, REQUEST)), missing=20)
    capture += record(9700, frame(0x0800, udp(GATEWAY, RELAY, REQUEST)))[:40]
    sys.stdout.buffer.write(capture)


main()
