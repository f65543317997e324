"""Both ends for some minutes over a lossy hop, with joins and leaves at random, strangers and noise.

usage: tools/soak.sh MINUTES [COMMAND [SEED [PACKETS]]]

COMMAND is the binary of `amt`, and crates/amt/out/amt without it. `amt relay` and `amt gateway` run over the loopback.
This program stands between them as the network, and loses, repeats, delays and so reorders datagrams both ways, by
SEED. It sends numbered packets to the feed, lines to the control socket, and, from other sockets, Discoveries and
Requests to the relay, and noise and forged messages to both ends. Secrets are rotated each minute, and memberships last
13 s, so that both happen often.

It keeps its own record: which sockets the gateway has, by the lines that it sent; which filters the relay has, by the
Updates that it passed on, with their lifetimes; and what it did to each datagram. By that record
    - a packet that is handed on was wanted by a socket and by the relay's filters, and came no more often than the hop
      passed its copies on;
    - a packet that the relay's filters want is copied to the gateway, once, and one that they don't want is not;
    - a copy that the hop passed on and a socket wants is handed on, as often as it was passed on, and one that no
      socket wants is not;
    - an Update and a Teardown carry the MAC and the nonce of a Query that was passed on before;
    - a stranger's packets and messages change nothing of this, and its Requests are answered;
    - neither process grows: the median of its resident memory in the last quarter of the run is at most 512 KiB above
      that in the second quarter. A run of less than a minute isn't judged so.

The margin. The record has the moment at which this program sent something, and an end takes it in one of its next
turns. An idle turn takes some 8 ms; what a loaded machine adds is the time that a process waits for a processor. So a
packet is judged where what is wanted of its group and source is the same from a second before it was sent until a
second after it came; the others are counted as unjudged. The longest ways that were seen are told at the end, and how
late this program itself was: these have to be shorter than that second, or the run is void and ends with 2; then fewer
PACKETS a second, 200 where no number is given, may do. What is under way is waited for until 5 s after the last packet.

It prints its figures, and ends with 0 where all of this holds, and with 1 and what doesn't otherwise.
"""
import collections
import heapq
import os
import random
import select
import socket
import statistics
import struct
import sys
import tempfile
import time

import loopback
from loopback import (
    ALLOW, AMT_PORT, DATA, DISCOVERY, IS_EX, IS_IN, QUERY, TEARDOWN, TO_EX, TO_IN, UPDATE, End, Failed, bound,
    packet, request, text_of,
)

RELAY, FEED, LISTEN, CONTROL, DELIVER, FAR = 2267, 2269, 2270, 2271, 2272, 2273
MARGIN_S = 1.0
GRACE_S = 5.0
LOST, REPEATED, DELAYED, LONGEST_DELAY_S = 0.1, 0.05, 0.1, 0.15
QUERY_SECONDS, RESPONSE_TENTHS, ROBUSTNESS = 6, 10, 2
LIFETIME_S = ROBUSTNESS * QUERY_SECONDS + RESPONSE_TENTHS / 10
GROUPS = [f"233.252.0.{number}" for number in range(1, 17)]
SOURCES = [f"203.0.113.{number}" for number in range(1, 5)]
NAMES = [f"s{number}" for number in range(20)]
# Strangers send a fifth as many datagrams.
PACKETS_A_SECOND, LINES_A_SECOND = 200, 3
FORGED = b"forged"
GROWTH_KB = 512


def admits(filter_, source):
    """Whether a filter (mode, sources) wants a source; none wants nothing."""
    return filter_ is not None and (source in filter_[1]) == (filter_[0] == "include")


class Timeline:
    """What a thing was from which moment on, in order."""

    def __init__(self, first):
        self.moments, self.values = [float("-inf")], [first]

    def set(self, moment, value):
        if value != self.values[-1]:
            self.moments.append(moment)
            self.values.append(value)

    def within(self, start, end):
        """All that it was at some time from start to end."""
        found = []
        for place in range(len(self.moments) - 1, -1, -1):
            if self.moments[place] <= end:
                found.append(self.values[place])
            if self.moments[place] <= start:
                break
        return found


class Sockets:
    """The gateway's sockets, by the lines that were sent."""

    def __init__(self):
        self.open = {}
        self.lines = {group: Timeline(()) for group in GROUPS}

    def put(self, moment):
        for group, line in self.lines.items():
            line.set(moment, tuple(sorted((mode, sources) for at, mode, sources in self.open.values() if at == group)))

    def wants(self, group, source, start, end):
        """Whether a socket wanted this at each time from start to end, or at some."""
        states = self.lines[group].within(start, end)
        found = [any(admits(filter_, source) for filter_ in filters) for filters in states]
        return all(found), any(found)


class Filters:
    """The relay's filters, by the Updates that were passed on (RFC 3376, section 4.2.12, and the lifetimes)."""

    def __init__(self):
        self.lines = {group: Timeline(None) for group in GROUPS}
        self.renewed = {}

    def expire(self, moment):
        for group, renewed in list(self.renewed.items()):
            if moment >= renewed + LIFETIME_S:
                self.lines[group].set(renewed + LIFETIME_S, None)
                del self.renewed[group]

    def apply(self, moment, records):
        self.expire(moment)
        for kind, group, sources in records:
            mode, listed = self.lines[group].values[-1] or ("include", frozenset())
            if kind in (IS_IN, TO_IN):
                mode, listed = "include", sources
            elif kind in (IS_EX, TO_EX):
                mode, listed = "exclude", sources
            else:
                listed = listed | sources if (kind == ALLOW) == (mode == "include") else listed - sources
            if mode == "include" and not listed:
                self.lines[group].set(moment, None)
                self.renewed.pop(group, None)
            else:
                self.lines[group].set(moment, (mode, listed))
                self.renewed[group] = moment

    def wants(self, group, source, start, end):
        self.expire(end)
        found = [admits(filter_, source) for filter_ in self.lines[group].within(start, end)]
        return all(found), any(found)


def records_of(update):
    """The records of an Update, which the gateway made: an IPv4 datagram with an option, and a report."""
    body = update[12 + 24:]
    records, at = [], 8
    for _ in range(struct.unpack("!H", body[6:8])[0]):
        kind, _, count = struct.unpack("!BBH", body[at:at + 4])
        addresses = [socket.inet_ntoa(body[at + 4 + 4 * place:at + 8 + 4 * place]) for place in range(count + 1)]
        records.append((kind, addresses[0], frozenset(addresses[1:])))
        at += 8 + 4 * count
    return records


class Packet:
    """A packet that went to the feed, and what came of it."""

    def __init__(self, moment, group, source):
        self.moment, self.group, self.source = moment, group, source
        self.copied = []
        self.passed = []
        self.delivered = []


class Soak:
    """The hop, the feed, the sockets' lines, the strangers, and the record."""

    def __init__(self, address, seed):
        self.address, self.random = address, random.Random(seed)
        self.near = self.socket(AMT_PORT)
        self.far = self.socket(FAR)
        self.deliver = self.socket(DELIVER)
        self.sender = self.socket(0)
        self.strangers = [self.socket(0) for _ in range(8)]
        self.sockets, self.filters = Sockets(), Filters()
        self.packets, self.under_way, self.proofs = [], [], set()
        self.counts = collections.Counter()
        self.faults = []
        self.longest = {"way to the hop": 0.0, "way from the hop": 0.0, "delay of this program": 0.0}

    def socket(self, port):
        made = bound(self.address, port)
        made.setblocking(False)
        made.setsockopt(socket.SOL_SOCKET, socket.SO_RCVBUF, 4 << 20)
        return made

    def fault(self, text):
        if len(self.faults) < 20:
            self.faults.append(text)
        self.counts["faults"] += 1

    def took(self, what, seconds):
        self.longest[what] = max(self.longest[what], seconds)

    # The hop.

    def pass_on(self, octets, is_up):
        """Loses, repeats or delays a datagram, or passes it on at once."""
        self.counts["up" if is_up else "down"] += 1
        if self.random.random() < LOST:
            self.counts["lost"] += 1
            return
        times = 1
        if self.random.random() < REPEATED:
            self.counts["repeated"] += 1
            times = 2
        for _ in range(times):
            if self.random.random() < DELAYED:
                self.counts["delayed"] += 1
                due = time.monotonic() + self.random.random() * LONGEST_DELAY_S
                heapq.heappush(self.under_way, (due, self.counts["delayed"], octets, is_up))
            else:
                self.put(octets, is_up)

    def put(self, octets, is_up):
        """A datagram goes to its end, and into the record."""
        if is_up:
            self.far.sendto(octets, (self.address, RELAY))
            if octets[0] == UPDATE:
                self.filters.apply(time.monotonic(), records_of(octets))
            return
        if octets[0] == QUERY:
            self.proofs.add(octets[2:12])
        self.near.sendto(octets, (self.address, LISTEN))
        if octets[0] == DATA:
            number = self.number_of(octets[2:])
            if number is not None:
                self.packets[number].passed.append(time.monotonic())

    def number_of(self, octets):
        """Which of the packets this is, unaltered."""
        source, group, text = text_of(octets)
        number = int(text) if text.isdigit() else -1
        if not 0 <= number < len(self.packets) or octets != packet(source, group, text):
            self.fault(f"a packet that was never sent: {octets.hex()[:80]}")
            return None
        return number

    def from_gateway(self, octets):
        if octets[0] in (UPDATE, TEARDOWN) and octets[2:12] not in self.proofs:
            self.fault("an Update or a Teardown with no MAC of a Query that was passed on")
        self.pass_on(octets, True)

    def from_relay(self, octets):
        if octets[0] == DATA:
            number = self.number_of(octets[2:])
            if number is not None:
                moment = time.monotonic()
                self.packets[number].copied.append(moment)
                self.took("way to the hop", moment - self.packets[number].moment)
        self.pass_on(octets, False)

    def delivered(self, octets):
        number = self.number_of(octets)
        if number is not None:
            moment, found = time.monotonic(), self.packets[number]
            found.delivered.append(moment)
            if not found.passed:
                self.fault(f"packet {number} was handed on, and no copy was passed on")
            else:
                self.took("way from the hop", moment - max(it for it in found.passed if it <= moment))

    def heard(self, octets):
        """What a stranger hears."""
        if octets[0] == QUERY:
            self.counts["queries of strangers"] += 1
        elif octets[0] == DATA:
            self.fault("a stranger hears a packet")

    # What happens of itself.

    def feed(self):
        group, source = self.random.choice(GROUPS), self.random.choice(SOURCES)
        octets = packet(source, group, b"%d" % len(self.packets))
        self.packets.append(Packet(time.monotonic(), group, source))
        self.sender.sendto(octets, (self.address, FEED))

    def line(self):
        """A control line: mostly one that opens, changes or closes a socket, now and then one that closes all, or none
        at all."""
        chance, opened = self.random.random(), self.sockets.open
        mode = self.random.choice(["include", "exclude"])
        sources = frozenset(self.random.sample(SOURCES, self.random.randrange(len(SOURCES))))
        unused = [name for name in NAMES if name not in opened]
        text = None
        if chance < 0.01:
            opened.clear()
            text = "leave"
        elif chance < 0.1:
            self.control("".join(self.random.choices("open close leave include 233.252.0.1x", k=30)) + " x")
            self.counts["bad lines"] += 1
            return
        elif chance < 0.5 and unused:
            name, group = self.random.choice(unused), self.random.choice(GROUPS)
            opened[name] = (group, mode, sources)
            text = f"open {name} {group} {mode} {' '.join(sorted(sources))}"
        elif chance < 0.8 and opened:
            name = self.random.choice(sorted(opened))
            opened[name] = (opened[name][0], mode, sources)
            text = f"change {name} {mode} {' '.join(sorted(sources))}"
        elif opened:
            name = self.random.choice(sorted(opened))
            del opened[name]
            text = f"close {name}"
        if text is not None:
            self.control(text)
            self.sockets.put(time.monotonic())
            self.counts["lines"] += 1

    def control(self, text):
        self.sender.sendto(text.encode() + b"\n", (self.address, CONTROL))

    def strange(self):
        """A stranger's datagram, to either end."""
        stranger, chance = self.random.choice(self.strangers), self.random.random()
        noise = self.random.randbytes(self.random.choice([0, 1, 2, 8, 12, 40, 200, 1400]))
        port = self.random.choice([RELAY, LISTEN])
        if chance < 0.3:
            self.counts["requests of strangers"] += 1
            octets, port = request(self.random.getrandbits(32)), RELAY
        elif chance < 0.4:
            octets, port = struct.pack("!BBHI", DISCOVERY, 0, 0, self.random.getrandbits(32)), RELAY
        elif chance < 0.5:
            body = loopback.report([(IS_EX, self.random.choice(GROUPS), [])])
            octets, port = struct.pack("!BB", UPDATE, 0) + self.random.randbytes(10) + body, RELAY
        elif chance < 0.6:
            octets = struct.pack("!BB", DATA, 0) + packet(SOURCES[0], self.random.choice(GROUPS), FORGED)
        elif chance < 0.7 and self.proofs:
            # A Query, an Update or a Teardown by a MAC that is good for somebody else.
            kind, proof = self.random.choice([QUERY, UPDATE, TEARDOWN]), self.random.choice(sorted(self.proofs))
            octets = struct.pack("!BB", kind, 1) + proof + noise
        else:
            octets = struct.pack("!B", self.random.randrange(16)) + noise
            if octets[0] == 3 and len(octets) == 8:
                self.counts["requests of strangers"] += port == RELAY
        self.counts["datagrams of strangers"] += 1
        stranger.sendto(octets, (self.address, port))

    # The run.

    def take(self, wait_s):
        """Takes all that is there, or the first that comes within this time."""
        sockets = {self.near: self.from_gateway, self.far: self.from_relay, self.deliver: self.delivered}
        sockets.update({stranger: self.heard for stranger in self.strangers})
        for ready in select.select(list(sockets), [], [], max(wait_s, 0))[0]:
            for _ in range(200):
                try:
                    octets = ready.recv(65535)
                except BlockingIOError:
                    break
                sockets[ready](octets)

    def pass_due(self):
        while self.under_way and self.under_way[0][0] <= time.monotonic():
            _, _, octets, is_up = heapq.heappop(self.under_way)
            self.put(octets, is_up)

    def run(self, seconds, packets, watched):
        """Lets all of it happen for so long. What happens is at random moments, so many in a second."""
        start = time.monotonic()
        todo = [(start, number) for number in range(3)]
        actions = [(self.feed, packets), (self.line, LINES_A_SECOND), (self.strange, packets / 5)]
        looked = 0
        while time.monotonic() < start + seconds:
            self.take(min(todo[0][0], self.under_way[0][0] if self.under_way else todo[0][0]) - time.monotonic())
            self.pass_due()
            while todo[0][0] <= time.monotonic():
                moment, number = heapq.heappop(todo)
                self.took("delay of this program", time.monotonic() - moment)
                action, often = actions[number]
                action()
                heapq.heappush(todo, (max(moment, time.monotonic() - 0.1) + self.random.expovariate(often), number))
            if time.monotonic() > start + looked:
                looked += 1
                watched.look()
        # What is under way still comes.
        end = time.monotonic() + GRACE_S
        while time.monotonic() < end:
            self.take(0.01)
            self.pass_due()

    # Judging.

    def judge(self):
        for number, found in enumerate(self.packets):
            self.judge_copies(number, found)
            self.judge_deliveries(number, found)

    def judge_copies(self, number, found):
        """What the relay made of a packet."""
        end = max([found.moment, *found.copied]) + MARGIN_S
        always, ever = self.filters.wants(found.group, found.source, found.moment - MARGIN_S, end)
        if always != ever:
            self.counts["unjudged at the relay"] += 1
        elif len(found.copied) != always:
            receiver = "a receiver" if always else "no receiver"
            self.fault(f"packet {number}: {len(found.copied)} copies where the relay has {receiver}")
        else:
            self.counts["copied, as wanted" if always else "not copied, as not wanted"] += 1
        if found.copied and not ever:
            self.fault(f"packet {number} was copied, and no filter wanted it")

    def judge_deliveries(self, number, found):
        """What the gateway made of the copies that were passed on."""
        if len(found.delivered) > len(found.passed):
            self.fault(f"packet {number} was handed on {len(found.delivered)} times, of {len(found.passed)} copies")
        if not found.passed:
            return
        start, end = min(found.passed) - MARGIN_S, max([*found.passed, *found.delivered]) + MARGIN_S
        always, ever = self.sockets.wants(found.group, found.source, start, end)
        if always != ever:
            self.counts["unjudged at the gateway"] += 1
        elif len(found.delivered) != (len(found.passed) if always else 0):
            self.fault(f"packet {number}: {len(found.passed)} copies, {len(found.delivered)} handed on, where "
                       f"{'a' if always else 'no'} socket wants it")
        else:
            self.counts["handed on, as wanted" if always else "dropped, as not wanted"] += 1
            if always and len(found.copied) == 1 and len(found.passed) == 1:
                self.counts["of these over a hop that did nothing"] += 1


class Watched:
    """The resident memory of both ends, looked at each second."""

    def __init__(self, ends):
        self.ends = ends
        self.kb = {name: [] for name in ends}

    def look(self):
        for name, end in self.ends.items():
            self.kb[name].append(end.memory_kb())

    def growth(self, name):
        """From the median of the second quarter to that of the last one."""
        quarter = max(len(self.kb[name]) // 4, 1)
        return statistics.median(self.kb[name][-quarter:]) - statistics.median(self.kb[name][quarter:2 * quarter])


def ends_of(command, address, folder, seconds):
    """A relay that says of itself that it is the hop, and a gateway that goes to the hop. Were this program killed,
    they would end by their turns."""
    turns = str(int((seconds + 60) * loopback.TURNS_A_SECOND))
    relay = loopback.write_settings(f"{folder}/relay.toml", {
        "relay": address, "listen": f"{address}:{RELAY}", "feed": f"{address}:{FEED}", "query4": address, "workers": 2,
        "robustness": ROBUSTNESS, "query_seconds": QUERY_SECONDS, "response_tenths": RESPONSE_TENTHS,
        "rotate_seconds": 60})
    gateway = loopback.write_settings(f"{folder}/gateway.toml", {
        "family": "v4", "source": loopback.HOST, "listen": f"{address}:{LISTEN}", "deliver": f"{address}:{DELIVER}",
        "control": f"{address}:{CONTROL}", "discovery": f"{address}:{AMT_PORT}", "relay": f"{address}:{AMT_PORT}"})
    return {"relay": End([*command, "relay", relay, "--turns", turns], address, [RELAY, FEED]),
            "gateway": End([*command, "gateway", gateway, "--turns", turns], address, [LISTEN, CONTROL])}


def tell(soak, watched, ends, seconds):
    """The figures."""
    print(f"{seconds:.0f} s; {len(soak.packets)} packets to the feed")
    for name, count in sorted(soak.counts.items()):
        print(f"{name} {count}")
    for name, way in soak.longest.items():
        print(f"longest {name} {1000 * way:.0f} ms")
    for name, end in ends.items():
        kb = watched.kb[name]
        print(f"{name}: resident {kb[0]} KiB at first, {kb[len(kb) // 4]} after a quarter, {kb[-1]} at last, growth "
              f"{watched.growth(name):.0f}; {end.processor_s():.1f} s of a processor")


def main():
    if not 2 <= len(sys.argv) <= 5:
        sys.exit(__doc__)
    seconds = 60 * float(sys.argv[1])
    command = loopback.command_of(sys.argv[2:3])
    seed = int(sys.argv[3]) if len(sys.argv) > 3 else 1
    packets = int(sys.argv[4]) if len(sys.argv) > 4 else PACKETS_A_SECOND
    address = f"127.67.{os.getpid() % 255}.1"
    with tempfile.TemporaryDirectory() as folder:
        soak = Soak(address, seed)
        ends = ends_of(command, address, folder, seconds)
        watched = Watched(ends)
        began = time.monotonic()
        soak.run(seconds, packets, watched)
        lasted = time.monotonic() - began
        soak.judge()
        for name, end in ends.items():
            if end.process.poll() is not None:
                soak.fault(f"the {name} has ended with {end.process.returncode}")
            elif seconds >= 60 and watched.growth(name) > GROWTH_KB:
                soak.fault(f"the {name} has grown")
        if soak.counts["queries of strangers"] < soak.counts["requests of strangers"]:
            soak.fault("a stranger's Request wasn't answered")
        tell(soak, watched, ends, lasted)
        loopback.stop_all()
    for fault in soak.faults:
        print(f"soak: {fault}", file=sys.stderr)
    if max(soak.longest.values()) > MARGIN_S:
        print("soak: void: something took longer than the margin, since too much else runs here", file=sys.stderr)
        return 2
    if soak.counts["handed on, as wanted"] == 0:
        print("soak: nothing was handed on", file=sys.stderr)
        return 1
    print("failed" if soak.faults else "passed")
    return 1 if soak.faults else 0


try:
    sys.exit(main())
except Failed as fault:
    sys.exit(f"soak: {fault}")
