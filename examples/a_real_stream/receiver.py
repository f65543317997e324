"""A multicast receiver: it joins groups by its kernel, and reads its sockets.

usage: python3 receiver.py INTERFACE PORT GROUP..

It prints `joined` once it has joined, and `first GROUP NUMBER` as soon as a packet has come. When its input ends it leaves, and
prints a line `GROUP FIRST LAST ONCE AGAIN` for each group: the first and the last number that came, how many numbers came, and
how many packets came besides, with a number that had come before. It needs nothing but Python.
"""
import selectors
import socket
import struct
import sys


def member(group, port, index):
    """A socket that has joined the group on the interface."""
    octets = socket.inet_pton(socket.AF_INET6 if ":" in group else socket.AF_INET, group)
    made = socket.socket(socket.AF_INET6 if ":" in group else socket.AF_INET, socket.SOCK_DGRAM)
    made.setsockopt(socket.SOL_SOCKET, socket.SO_RCVBUF, 4 << 20)
    made.bind((group, port))
    if ":" in group:
        made.setsockopt(socket.IPPROTO_IPV6, socket.IPV6_JOIN_GROUP, octets + struct.pack("I", index))
    else:
        made.setsockopt(socket.IPPROTO_IP, socket.IP_ADD_MEMBERSHIP, octets + struct.pack("4si", bytes(4), index))
    return made


def main():
    index, port, groups = socket.if_nametoindex(sys.argv[1]), int(sys.argv[2]), sys.argv[3:]
    waiting, came = selectors.DefaultSelector(), {group: [] for group in groups}
    waiting.register(sys.stdin, selectors.EVENT_READ)
    for group in groups:
        waiting.register(member(group, port, index), selectors.EVENT_READ, group)
    print("joined", flush=True)
    while True:
        ready = [it for it, _ in waiting.select()]
        for it in ready:
            if it.data:
                number = struct.unpack_from("!I", it.fileobj.recv(65535))[0]
                if not came[it.data]:
                    print("first", it.data, number, flush=True)
                came[it.data].append(number)
        # What came before the end of the input was read is taken first.
        if all(it.data is None for it in ready):
            break
    for group, numbers in came.items():
        once = set(numbers)
        print(group, min(once, default=0), max(once, default=0), len(once), len(numbers) - len(once))


main()
