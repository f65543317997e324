"""A script of a gateway that is served, for replay.sh, to standard output.

usage: python3 bench/gateway.py OCTETS

A gateway finds its relay and answers its Query, and then moments, at which nothing is due, and Multicast Data,
which is handed on, take turns, up to so many octets of script.
"""
import itertools
import sys

from mixed import checksum, packet

RELAY = "192.0.2.1:2268"
SETTINGS = ["set family v4", f"set discovery {RELAY}", "set source 10.0.0.2", "open a 239.1.0.0 exclude"]
ADVERTISEMENT = bytes.fromhex("02000000" "00000001" "c0000201")


def general_query():
    """Every 31744 s, the greatest interval that there is, so that the gateway isn't due."""
    body = bytes.fromhex("00000000" "02ff0000")
    body = b"\x11\x64" + checksum(b"\x11\x64" + body) + body
    front = bytes.fromhex("46c00024000000000102")
    back = bytes.fromhex("c0000201" "e0000001" "94040000")
    return front + checksum(front + back) + back + body


def from_relay(octets):
    return f"dg {RELAY} {octets.hex()}"


def lines():
    yield from SETTINGS
    yield from_relay(ADVERTISEMENT)
    yield from_relay(bytes.fromhex("0400" "a1a2a3a4a5a6" "00000002") + general_query())
    data = from_relay(bytes.fromhex("0600" + packet(0).removeprefix("mc ")))
    for moment in itertools.count(1):
        yield f"at {moment}"
        yield data


def main():
    left = int(sys.argv[1])
    for line in lines():
        left -= len(line) + 1
        if left < 0:
            break
        print(line)


main()
