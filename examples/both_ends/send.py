"""Sends numbered multicast packets to a relay's feed, for each line of its input as many as the line says.

usage: echo "GROUP FIRST COUNT" | python3 send.py FEED:PORT

Each is a whole IPv4 packet, with a UDP datagram in it, as the multicast network would carry it, and goes to the feed as
the payload of one UDP datagram. It needs nothing but Python.
"""
import socket
import struct
import sys

SOURCE = "203.0.113.5"


def checksum(octets):
    """The Internet checksum (RFC 1071) of an even number of octets."""
    total = sum(struct.unpack(f"!{len(octets) // 2}H", octets))
    while total > 0xFFFF:
        total = (total >> 16) + (total & 0xFFFF)
    return 0xFFFF - total


def packet(group, text):
    """An IPv4 packet (RFC 791, section 3.1) with a UDP datagram without a checksum (RFC 768)."""
    payload = struct.pack("!HHHH", 5004, 5004, 8 + len(text), 0) + text
    head = struct.pack("!BBHHHBBH", 0x45, 0, 20 + len(payload), 0, 0, 8, 17, 0)
    head += socket.inet_aton(SOURCE) + socket.inet_aton(group)
    return head[:10] + struct.pack("!H", checksum(head)) + head[12:] + payload


def main():
    host, port = sys.argv[1].split(":")
    feed = socket.socket(socket.AF_INET, socket.SOCK_DGRAM)
    for line in sys.stdin:
        group, first, count = line.split()
        for number in range(int(first), int(first) + int(count)):
            feed.sendto(packet(group, b"packet %d" % number), (host, int(port)))


main()
