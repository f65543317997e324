"""A running relay to which one member with a good MAC sends the longest reports: what the others still get.

usage: tools/flood.sh [--updates N,..] [--workers N,..] [--report KIND] [--records N] [--filter FILE] [COMMAND]

COMMAND is the binary of `amt`, and crates/amt/out/amt without it. The relay and its members run in network namespaces. A
member gets 2,000 packets a second for 6 seconds, and another host asks by a Request each 100 ms. Meanwhile one endpoint
sends Updates with a good MAC, each a datagram of as many records as --records says.

    --updates N,..    how many Updates a second, a run each: 0,100,200,500 where none is given
    --workers N,..    the relay's workers: 0,2
    --report KIND     joined: it joins and leaves 60 groups over and over; unchanged: it allows and blocks no source, on
                      60 groups; left: it leaves as many groups as it has records, of which none was joined;
                      joined where none is given
    --records N       the records of a report: 8,000, which is as many as a datagram holds
    --filter FILE     rules for nft in the relay's namespace, as examples/systemd/amt.nft

It prints a line a run: which share of the packets the member got, how much of a processor the relay took, how many Requests
had no answer in 2 seconds, and after how long the others were answered. It checks that all was sent in time, and nothing
else. It needs root, and leaves no namespace.
"""
import argparse
import contextlib
import os
import sys
import tempfile
import time

import loopback
import namespaces
from loopback import AMT_PORT, UPDATE, Failed, bound
from namespaces import LIVE_NET, RELAY

RATE, SECONDS = 2000, 6
# What a report says of each of its groups in turn, and of how many groups.
REPORTS = {
    "joined": ((loopback.TO_EX, loopback.TO_IN), 60),
    "unchanged": ((loopback.ALLOW, loopback.BLOCK), 60),
    "left": ((loopback.TO_IN, loopback.TO_IN), 8000),
}


def long_report(name, count):
    """The records of one kind on each group, then those of the other kind, and so on."""
    kinds, groups = REPORTS[name]
    return loopback.report([
        (kinds[number // groups % 2], f"239.2.{number % groups // 250}.{number % groups % 250 + 1}", [])
        for number in range(count)
    ])


def run(command, folder, workers, updates, given):
    """Which share of the packets the member got, the relay's processor seconds a second, and how Requests were answered."""
    with namespaces.network() as (relay, hosts), contextlib.ExitStack() as left:
        sender = namespaces.start_relay(command, folder, relay, workers)
        if given.filter:
            namespaces.ip("netns", "exec", relay, "nft", "-f", given.filter)
        with namespaces.inside(hosts):
            member, flooding = namespaces.member(f"{LIVE_NET}.1"), namespaces.member(f"{LIVE_NET}.2")
            asking = bound(f"{LIVE_NET}.200")
        for it in (member.socket, flooding.socket, asking, sender):
            left.callback(it.close)
        end = loopback.STARTED[-1]
        before = end.processor_s()
        message = bytes([UPDATE, 0]) + flooding.proof + long_report(given.report, given.records)
        children = [namespaces.offer(sender, RATE, SECONDS)]
        if updates:
            children.append(namespaces.paced(updates, SECONDS, lambda _: flooding.socket.sendto(message, (RELAY, AMT_PORT))))
        answers = namespaces.ask_for(asking, SECONDS - 0.5)
        for it in children:
            namespaces.expect_in_time(it, "packets or Updates")
        took = (end.processor_s() - before) / SECONDS
        time.sleep(1.5)
        return namespaces.share(member, RATE * SECONDS), took, answers


def numbers(text):
    return [int(it) for it in text.split(",")]


def main():
    words = argparse.ArgumentParser(usage=__doc__.split("\n")[2].removeprefix("usage: "))
    words.add_argument("--updates", type=numbers, default=[0, 100, 200, 500])
    words.add_argument("--workers", type=numbers, default=[0, 2])
    words.add_argument("--report", choices=REPORTS, default="joined")
    words.add_argument("--records", type=int, default=8000)
    words.add_argument("--filter")
    words.add_argument("command", nargs="*")
    given = words.parse_args()
    command = loopback.command_of(given.command)
    print(f"a member at {RATE} packets a second for {SECONDS} s, Updates of {given.records} records, {given.report}; load {os.getloadavg()[0]:.1f}")
    print(f"{'updates/s':>9} {'workers':>7} {'got %':>7} {'processors':>10} {'unanswered':>11} {'median ms':>9} {'worst':>8}")
    with tempfile.TemporaryDirectory() as folder:
        for workers in given.workers:
            for updates in given.updates:
                got, took, answers = run(command, folder, workers, updates, given)
                print(f"{updates:9} {workers:7} {100 * got:7.1f} {took:10.2f} {namespaces.summed_up(answers)}", flush=True)
    return 0


if __name__ == "__main__":
    try:
        sys.exit(main())
    except Failed as why:
        print(f"flood: {why}", file=sys.stderr)
        sys.exit(1)
