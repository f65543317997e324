"""A multicast sender: for each line of its input, a number, it sends this number of packets to each of its groups.

usage: python3 source.py INTERFACE PORT GROUP..

These are UDP datagrams with a number that begins at 1, as any program sends them: the kernel makes their headers. A hundred a
second go to each group, with a TTL or hop limit of 8. After each line it prints the last number. It needs nothing but Python.
"""
import socket
import struct
import sys
import time

PACE_S, TTL, TEXT = 0.01, 8, bytes(1312)


def sender(group, index):
    """A socket that sends to this group out of the interface."""
    if ":" in group:
        made = socket.socket(socket.AF_INET6, socket.SOCK_DGRAM)
        made.setsockopt(socket.IPPROTO_IPV6, socket.IPV6_MULTICAST_HOPS, TTL)
        made.setsockopt(socket.IPPROTO_IPV6, socket.IPV6_MULTICAST_IF, index)
    else:
        made = socket.socket(socket.AF_INET, socket.SOCK_DGRAM)
        made.setsockopt(socket.IPPROTO_IP, socket.IP_MULTICAST_TTL, TTL)
        made.setsockopt(socket.IPPROTO_IP, socket.IP_MULTICAST_IF, struct.pack("4s4si", bytes(4), bytes(4), index))
    return made


def main():
    index, port = socket.if_nametoindex(sys.argv[1]), int(sys.argv[2])
    senders = [(sender(group, index), (group, port)) for group in sys.argv[3:]]
    number = 0
    for line in sys.stdin:
        next_at = time.monotonic()
        for number in range(number + 1, number + 1 + int(line)):
            for it, where in senders:
                it.sendto(struct.pack("!I", number) + TEXT, where)
            next_at += PACE_S
            time.sleep(max(0, next_at - time.monotonic()))
        print(number, flush=True)


main()
