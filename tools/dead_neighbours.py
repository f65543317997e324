"""A running relay some of whose members have vanished from its own subnet: what the others still get.

usage: tools/dead-neighbours.sh [--gone N,..] [--workers N,..] [--waiting OCTETS] [--send-buffer OCTETS] [COMMAND]

COMMAND is the binary of `amt`, and crates/amt/out/amt without it. The relay runs in a network namespace of its own, 16
live members and those that vanish in another, with a veth pair between them. All join one group. Then the addresses of
some are taken away, and 2,000 packets a second come for 6 seconds. A datagram to a neighbour that doesn't answer waits in
the system for 3 seconds, and is charged to the sending socket for so long: up to `unres_qlen_bytes` of the interface for
each neighbour. Meanwhile a live host sends a Request each 100 ms.

    --gone N,..             how many members vanish, a run each: 0,1,3,16,64 where none is given
    --workers N,..          the relay's workers: 0,2
    --waiting OCTETS        net.ipv4.neigh.DEVICE.unres_qlen_bytes in the relay's namespace; the system's own without it
    --send-buffer OCTETS    net.core.wmem_default and wmem_max while this runs, for the whole machine; they stay without it

It prints a line a run: which share of the packets the live members got, the least and the mean of them; how many Requests
had no answer in 2 seconds, and after how long the others were answered. It checks that the vanished don't resolve, that
all packets were offered, and nothing else: what is to be expected is in docs/OPERATING.md. It needs root, and leaves no
namespace.
"""
import argparse
import contextlib
import os
import pathlib
import statistics
import sys
import tempfile
import time

import loopback
import namespaces
from loopback import Failed, bound, expect
from namespaces import DEVICE, GONE_NET, LIVE_NET, ip

LIVE, RATE, SECONDS = 16, 2000, 6
SIZES = pathlib.Path("/proc/sys/net/core")


@contextlib.contextmanager
def send_buffer(octets):
    """The send buffers that sockets have, and may ask for, are that large."""
    before = {name: (SIZES / name).read_text(encoding="ascii") for name in ("wmem_default", "wmem_max")}
    try:
        for name in before if octets else ():
            (SIZES / name).write_text(str(octets), encoding="ascii")
        yield
    finally:
        for name, text in before.items() if octets else ():
            (SIZES / name).write_text(text, encoding="ascii")


def vanish(relay, hosts):
    """The members' addresses are no one's any more, and the relay's system has forgotten where they were."""
    ip("-n", hosts, "route", "del", "local", f"{GONE_NET}.0/24", "dev", DEVICE)
    ip("-n", relay, "neigh", "flush", "dev", DEVICE, "to", f"{GONE_NET}.0/24")


def expect_unresolved(relay, gone):
    shown = ip("-n", relay, "neigh", "show", "dev", DEVICE, "to", f"{GONE_NET}.0/24").splitlines()
    expect(len(shown) == gone, f"{len(shown)} neighbours for {gone} that vanished")
    for line in shown:
        expect(line.split()[-1] in ("INCOMPLETE", "FAILED"), f"a neighbour that vanished has an address: {line}")


def run(command, folder, workers, gone, waiting):
    """Which share of the packets each live member got, and after how long Requests were answered."""
    with namespaces.network(waiting) as (relay, hosts):
        sender = namespaces.start_relay(command, folder, relay, workers)
        with namespaces.inside(hosts):
            live = [namespaces.member(f"{LIVE_NET}.{number + 1}") for number in range(LIVE)]
            # (they are kept: a port that is closed would answer)
            vanished = [namespaces.member(f"{GONE_NET}.{number + 1}") for number in range(gone)]
            asking = bound(f"{LIVE_NET}.200")
        vanish(relay, hosts)
        offering = namespaces.offer(sender, RATE, SECONDS)
        answers = namespaces.ask_for(asking, SECONDS - 0.5)
        expect_unresolved(relay, gone)
        namespaces.expect_in_time(offering, "packets")
        time.sleep(1.5)
        shares = [namespaces.share(it, RATE * SECONDS) for it in live]
        for it in [*live, *vanished]:
            it.socket.close()
    return shares, answers


def numbers(text):
    return [int(it) for it in text.split(",")]


def main():
    words = argparse.ArgumentParser(usage=__doc__.split("\n")[2].removeprefix("usage: "))
    words.add_argument("--gone", type=numbers, default=[0, 1, 3, 16, 64])
    words.add_argument("--workers", type=numbers, default=[0, 2])
    words.add_argument("--waiting", type=int)
    words.add_argument("--send-buffer", type=int)
    words.add_argument("command", nargs="*")
    given = words.parse_args()
    command = loopback.command_of(given.command)
    print(f"{LIVE} live members, {RATE} packets a second for {SECONDS} s; load {os.getloadavg()[0]:.1f}")
    print(f"{'gone':>4} {'workers':>7} {'least %':>8} {'mean %':>8} {'unanswered':>11} {'median ms':>9} {'worst':>8}")
    with send_buffer(given.send_buffer), tempfile.TemporaryDirectory() as folder:
        for workers in given.workers:
            for gone in given.gone:
                shares, answers = run(command, folder, workers, gone, given.waiting)
                got = f"{100 * min(shares):8.1f} {100 * statistics.mean(shares):8.1f}"
                print(f"{gone:4} {workers:7} {got} {namespaces.summed_up(answers)}", flush=True)
    return 0


if __name__ == "__main__":
    try:
        sys.exit(main())
    except Failed as why:
        print(f"dead-neighbours: {why}", file=sys.stderr)
        sys.exit(1)
