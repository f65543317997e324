"""A script of both ends for replay.sh, to standard output.

usage: python3 bench/pair.py OCTETS [GATEWAYS]

So many gateways, or one, find their relay and report a group each. Then rounds come up to so many octets of script:
a moment, at which nothing is due; a gateway joins one of eight groups, and both of its reports arrive; a packet to
it is copied and handed on; it leaves the group, the change is lost, and the full report arrives twice. The
gateways take turns.
"""
import itertools
import sys

from mixed import packet

# Every 31744 s, the greatest interval that there is, so that no gateway is due.
SETTINGS = ["set relay 192.0.2.1", "set query_seconds 31744"]


def name(index):
    return f"g{index}"


class Sent:
    """How many datagrams were sent to the relay and by it."""

    def __init__(self):
        self.up = 0
        self.down = 0

    def ups(self, count):
        first = self.up + 1
        self.up += count
        return range(first, self.up + 1)

    def next_down(self):
        self.down += 1
        return self.down


def session(index, sent):
    """Discovery, Advertisement, Request, Query, and the full report."""
    yield f"{name(index)} open s 239.2.{index >> 8}.{index & 255} exclude"
    for _ in range(2):
        yield f"up {sent.ups(1)[0]}"
        yield f"down {sent.next_down()}"
    yield f"up {sent.ups(1)[0]}"


def one_round(number, index, sent):
    group = number % 8 * 2
    yield f"at {number + 1}"
    yield f"{name(index)} open t 239.1.0.{group} exclude"
    for up in sent.ups(2):
        yield f"up {up}"
    yield packet(group)
    yield f"down {sent.next_down()}"
    yield f"{name(index)} close t"
    _lost, full = sent.ups(2)
    yield f"up {full}"
    yield f"up {full}"


def lines(gateways):
    yield from SETTINGS
    for index in range(gateways):
        yield f"gateway {name(index)} 10.1.{index >> 8}.{index & 255}:5000 v4 10.0.0.2"
    sent = Sent()
    for index in range(gateways):
        yield from session(index, sent)
    for number in itertools.count():
        yield from one_round(number, number % gateways, sent)


def main():
    left = int(sys.argv[1])
    gateways = int(sys.argv[2]) if len(sys.argv) > 2 else 1
    for line in lines(gateways):
        left -= len(line) + 1
        if left < 0:
            break
        print(line)


main()
