"""A running relay with 65,536 live endpoints: what that takes, that they are renewed, and that Requests leave nothing.

usage: tools/load-held.sh [COMMAND [QUERY_SECONDS [ENDPOINTS]]]

COMMAND is the binary of `amt`, and crates/amt/out/amt without it. The endpoints are ports of many addresses of
127.0.0.0/8, and each wants a group of its own. Each asks by a Request, and reports by the MAC of the Query that comes.
A membership lasts 2 x QUERY_SECONDS + 10 s; QUERY_SECONDS is 45 where none is given. With fewer ENDPOINTS, a power of two
from 256 on, the relay's limit is that number: for a binary with checks, which is slower. What is checked, in order:

    1. 65,535 endpoints report. The limit is one more, so no Query has the L flag yet.
    2. 10,000 other ports send a Request each. Each gets its Query, without the L flag: not one has become an endpoint.
       The relay's resident memory grows by no more than 256 KiB, and packets to 256 of the endpoints are copied.
    3. The last endpoint reports, and then the L flag is set: all 65,536 are live.
    4. After an eighth of what a membership lasts all ask and report again, in less than half of it.
    5. Once all first reports are past that, the L flag is still set, so all were renewed; the packets are copied.
    6. Once the second ones are too, the L flag isn't set, and no packet is copied.

It prints times, rates and memory, and ends with 1 where something isn't so.
"""
import os
import random
import socket
import struct
import sys
import tempfile
import time

import loopback
from loopback import AMT_PORT, DATA, IS_EX, QUERY, UPDATE, End, Failed, bound, expect, packet, request

MANY, STRANGERS, SAMPLE = 65_536, 10_000, 256
# It takes no longer than that, however slow the relay is.
LONGEST_S = 1800
# Twice as many are in the receive buffer of a relay at a time, which by default is some 200 KiB: each takes some 800
# octets.
BATCH = 100
PORTS, FIRST_PORT = 1024, 10_000
FEED = 2269
SOURCE = "203.0.113.5"
GROWTH_KB = 256


def group_of(number):
    return socket.inet_ntoa(struct.pack("!I", 0xEF010000 + number))


class Load:
    """The relay, and what talks to it."""

    def __init__(self, command, folder, query_seconds, many):
        self.many = many
        self.third = os.getpid() % 255
        self.address = f"127.68.{self.third}.1"
        self.lasts_s = 2 * query_seconds + 10
        settings = loopback.write_settings(f"{folder}/relay.toml", {
            "relay": self.address, "listen": f"{self.address}:{AMT_PORT}", "feed": f"{self.address}:{FEED}",
            "query4": self.address, "endpoints": many, "groups": 4, "workers": 1, "query_seconds": query_seconds})
        turns = str(LONGEST_S * loopback.TURNS_A_SECOND)
        self.relay = End([*command, "relay", settings, "--turns", turns], self.address, [AMT_PORT, FEED])
        self.peer = (self.address, AMT_PORT)
        self.until = time.monotonic() + LONGEST_S
        self.sender = bound(self.address)
        # The sockets of those that hear packets stay.
        self.kept = {}

    def peer_of(self, number, net=69):
        return f"127.{net}.{self.third}.{number // PORTS + 1}", FIRST_PORT + number % PORTS

    def socket_of(self, number, net=69):
        if net == 69 and number in self.kept:
            return self.kept[number]
        made = bound(*self.peer_of(number, net), wait_s=1.0)
        if net == 69 and number % (self.many // SAMPLE) == 0:
            self.kept[number] = made
        return made

    def ask(self, asking):
        """Requests from all of these sockets, and the Queries that come."""
        nonces = [struct.pack("!I", random.getrandbits(32)) for _ in asking]
        answers = [None] * len(asking)
        for _ in range(10):
            expect(self.relay.process.poll() is None, "the relay has ended")
            expect(time.monotonic() < self.until, f"it takes more than {LONGEST_S} s")
            left = [place for place, answer in enumerate(answers) if answer is None]
            for place in left:
                asking[place].sendto(request(*struct.unpack("!I", nonces[place])), self.peer)
            for place in left:
                answers[place] = self.answer(asking[place], nonces[place])
            if None not in answers:
                return answers
        raise Failed("no Query came")

    def answer(self, asked, nonce):
        while True:
            try:
                octets = asked.recv(2048)
            except socket.timeout:
                return None
            if octets[0] == QUERY and octets[8:12] == nonce:
                return octets

    def batches(self, first, end, net=69):
        """Sockets of these numbers, some at a time; those that hear no packets are closed."""
        for start in range(first, end, BATCH):
            numbers = range(start, min(start + BATCH, end))
            sockets = [self.socket_of(number, net) for number in numbers]
            yield numbers, sockets
            for number, made in zip(numbers, sockets):
                if net != 69 or number not in self.kept:
                    made.close()

    def report(self, first, end):
        """All of these ask and report. Datagrams are taken in order, so each Query shows that the reports before it
        have been taken. How many Queries had the L flag."""
        limited = 0
        for numbers, sockets in self.batches(first, end):
            answers = self.ask(sockets)
            for number, made, answer in zip(numbers, sockets, answers):
                limited += answer[1] >> 1 & 1
                body = loopback.report([(IS_EX, group_of(number), [])])
                made.sendto(struct.pack("!BB", UPDATE, 0) + answer[2:12] + body, self.peer)
        return limited

    def ask_as_strangers(self):
        """Requests from other ports, and their Queries."""
        return [answer for _, sockets in self.batches(0, STRANGERS, net=70) for answer in self.ask(sockets)]

    def is_full(self):
        """Whether the relay says so: the L flag of a Query for somebody else. Reports before it have been taken."""
        with bound(self.address) as asking:
            return self.ask([asking])[0][1] >> 1 & 1 == 1

    def copies(self):
        """How many of the packets to the groups of those that hear come, one each."""
        came = 0
        for number in sorted(self.kept):
            self.sender.sendto(packet(SOURCE, group_of(number), b"%d" % number), (self.address, FEED))
            self.kept[number].settimeout(0.2)
            try:
                octets = self.kept[number].recv(2048)
            except socket.timeout:
                continue
            came += octets[0] == DATA and octets[2:] == packet(SOURCE, group_of(number), b"%d" % number)
        for made in self.kept.values():
            made.settimeout(1.0)
        return came


def wait_until(moment):
    time.sleep(max(moment - time.monotonic(), 0))


def timed(call, *words):
    began = time.monotonic()
    found = call(*words)
    return time.monotonic() - began, found


def run(load):
    many = load.many
    print(f"resident {load.relay.memory_kb()} KiB before the first Request", flush=True)
    began = time.monotonic()
    took, limited = timed(load.report, 0, many - 1)
    print(f"{many - 1} endpoints asked and reported in {took:.1f} s, {(many - 1) / took:.0f} a second", flush=True)
    expect(limited == 0 and not load.is_full(), "the L flag is set too early")
    before = load.relay.memory_kb()
    print(f"resident {before} KiB with {many - 1} live endpoints", flush=True)

    took, answers = timed(load.ask_as_strangers)
    after = load.relay.memory_kb()
    print(f"{STRANGERS} Requests from other ports answered in {took:.1f} s, {STRANGERS / took:.0f} a second; resident "
          f"{after} KiB after them", flush=True)
    expect(all(answer[1] >> 1 & 1 == 0 for answer in answers) and not load.is_full(), "a Request has left an endpoint")
    expect(after - before <= GROWTH_KB, f"memory grew by {after - before} KiB")
    came = load.copies()
    expect(came == SAMPLE, f"{came} of {SAMPLE} packets were copied after the Requests")

    load.report(many - 1, many)
    expect(load.is_full(), "the L flag isn't set with all endpoints")
    joined = time.monotonic()
    print(f"the last endpoint reported, and the relay is full, after {joined - began:.1f} s", flush=True)

    # So that there is a time at which the first reports are past, and the second ones aren't.
    wait_until(joined + load.lasts_s / 8)
    took, limited = timed(load.report, 0, many)
    renewed = time.monotonic()
    expect(limited == many, f"{many - limited} Queries without the L flag: memberships expired")
    print(f"all {many} asked and reported again in {took:.1f} s, {many / took:.0f} a second", flush=True)
    expect(took < load.lasts_s / 2, f"that is more than half of {load.lasts_s} s: give more QUERY_SECONDS")
    wait_until(joined + load.lasts_s + 1)
    expect(load.is_full(), "not all were renewed")
    came = load.copies()
    expect(came == SAMPLE, f"{came} of {SAMPLE} packets were copied after the renewals")
    print(f"full {time.monotonic() - joined:.0f} s after the last first report, with a membership of {load.lasts_s} s; "
          f"{came} of {SAMPLE} packets copied; resident {load.relay.memory_kb()} KiB", flush=True)

    wait_until(renewed + load.lasts_s + 1)
    expect(not load.is_full(), "memberships are left")
    came = load.copies()
    expect(came == 0, f"{came} packets were copied to nobody")
    print(f"a membership later nothing is live, and nothing copied; resident {load.relay.memory_kb()} KiB; "
          f"{load.relay.processor_s():.1f} s of a processor in all", flush=True)


def main():
    command = loopback.command_of(sys.argv[1:2])
    query_seconds = int(sys.argv[2]) if len(sys.argv) > 2 else 45
    many = int(sys.argv[3]) if len(sys.argv) > 3 else MANY
    if not SAMPLE <= many <= MANY or many & many - 1:
        sys.exit(__doc__)
    with tempfile.TemporaryDirectory() as folder:
        run(Load(command, folder, query_seconds, many))
    print("passed")


try:
    main()
except Failed as fault:
    sys.exit(f"load-held: {fault}")
