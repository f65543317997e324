#!/usr/bin/env python3
"""Writes crates/replay_cases/data/dual_network.cases: sessions of both families over a bad network.

usage: tools/dual_network.py [SEED] > crates/replay_cases/data/dual_network.cases

A host opens, changes and closes sockets in both families, one in each group. Of what its gateway and the relay send,
some is lost, some delivered twice, and all late by up to a minute; in some sessions the datagrams of one family by up to
ten. Which lines a script has is found with the model of plain_ends.py, since a delivery needs a number. What a `show`
has to write is not: those are the sockets that were open when the report was sent that the relay has last accepted.
Where that is the latest full report of its family, the two have to agree (docs/BEHAVIOUR.md, Both ends), and a `show`
stands there. The model has to agree too, or nothing is written.

The seed of the file is the default. `tools/dual_network.py check SESSIONS` writes nothing, and asks the model alone of
as many sessions with other seeds.
"""
import heapq
import itertools
import random
import sys

import plain_ends

HEAD = """\
// Both ends agree in each family over a network that loses, repeats and delays what they send.
// Each session was written by tools/dual_network.py. A host has one socket in a group, and opens, changes and closes
// them. Right after the relay has accepted the latest full report of a family, a `show` must have a row for each socket
// of it that was open when that was sent, and no other. That is what is wanted, by a record of the sockets alone, and no
// other line is compared.
$ amt replay dual
< set relay 192.0.2.1
< gateway g 198.51.100.7:5000 10.0.0.2 fe80::2
"""
GROUPS = {"v4": ["239.1.1.1", "239.1.1.2", "239.1.1.3"], "v6": ["ff3e::1", "ff3e::2", "ff3e::3"]}
SOURCES = {"v4": ["198.51.100.8", "198.51.100.9"], "v6": ["2001:db8::8", "2001:db8::9"]}
MINUTE = 60_000
LIFETIME = 260_000
LONGEST = 900_000
# How late a delivery is, in milliseconds: at once mostly, and a minute at most, but for the family of a late network.
DELAYS = [0] * 10 + [20, 20, 1500, 30_000, MINUTE]
LATE = [*DELAYS, 90_000, 300_000, 10 * MINUTE]
# The time from one socket call to the next.
CALLS = [0, 0, 20_000, 45_000, 100_000]


class Session:
    """A script, as the model answers it line by line; the sockets of each family, and what is to come."""

    def __init__(self, dice, compared, most):
        self.dice, self.compared, self.most = dice, compared, most
        self.lines, self.coming, self.order, self.now = [], [], itertools.count(), 0
        self.ends = plain_ends.Ends(plain_ends.Script("dual", HEAD_SCRIPT))
        self.sockets = {"v4": {}, "v6": {}}
        # By the number of a datagram up its family and, of a full report, the sockets for which it speaks.
        self.families, self.full = {}, {}
        self.latest, self.accepted, self.accepted_at = {}, {}, {}
        self.shown = 0

    def rows(self, family):
        sockets = self.full[self.latest[family]]
        return [f"* 198.51.100.7:5000 {group} {mode} {','.join(sources) or '-'}"
                for group, (mode, sources) in sorted(sockets.items())]

    def agrees(self, family):
        latest = self.latest.get(family)
        return latest is not None and self.accepted.get(family) == latest and self.now - self.accepted_at[family] < LIFETIME

    def say(self, line):
        """A line of the script; what the ends send for it is given to the network."""
        self.lines.append(f"< {line}")
        said = self.ends.take(line.split())
        family, outcome, sent = None, "", []
        for text in said:
            words = text.split()
            if words[0] == "=":
                family, outcome = (words[3], words[4]) if words[2] == "g" else (None, words[3])
            elif words[0] == ">":
                number, octets = int(words[2]), bytes.fromhex(words[4])
                sent.append((words[1], number, family or family_of(octets)))
                if words[1] == "up":
                    self.families[number] = family
                    if octets[0] == 5:
                        last = number
        if any(way == "up" for way, _, _ in sent) and outcome in ("active", "changed"):
            self.full[last], self.latest[family] = dict(self.sockets[family]), last
        for datagram in sent:
            self.network(*datagram)
        return said

    def network(self, way, number, family):
        """Loses a datagram, or delivers it once or twice, some time later."""
        delays = DELAYS if family in self.compared else LATE
        for _ in range(self.dice.choice([0] + 6 * [1] + [2])):
            self.plan(self.now + self.dice.choice(delays), f"{way} {number}")

    def plan(self, at, line):
        heapq.heappush(self.coming, (at, next(self.order), line))

    def call(self):
        """A call of a socket: one is opened in a group that has none, and changed or closed where there is one."""
        family = self.dice.choice(["v4", "v6"])
        place = self.dice.randrange(len(GROUPS[family]))
        group, name = GROUPS[family][place], "abc"[place]
        mode = self.dice.choice(["include", "exclude"])
        sources = sorted(self.dice.sample(SOURCES[family], self.dice.randrange(mode == "include", 3)))
        text = " ".join([mode, *sources])
        if group not in self.sockets[family]:
            what = f"open {name} {group} {text}"
        elif self.dice.random() < 0.5:
            what = f"close {name}"
        else:
            what = f"change {name} {text}"
        if what.startswith("close"):
            del self.sockets[family][group]
        else:
            self.sockets[family][group] = mode, sources
        self.say(f"g {family} {what}")

    def show(self):
        """A `show` with the rows of the families that are compared, which all agree now."""
        said = self.say("show")
        wanted = [row for family in self.compared for row in self.rows(family)]
        rows = [it for it in said[1:] if any(f" {group} " in it for family in self.compared for group in GROUPS[family])]
        if rows != wanted:
            raise AssertionError("\n".join([*self.lines, "wanted", *wanted, "the model has", *rows]))
        self.lines += [f"> = {self.ends.number} rows {len(wanted)}"] if len(self.compared) == 2 else []
        self.lines += [f"> {it}" for it in wanted]
        self.shown += 1

    def delivery(self, line):
        said = self.say(line)
        way, number = line.split()
        if way == "up" and said[0].endswith("relay updated"):
            family = self.families[int(number)]
            self.accepted[family], self.accepted_at[family] = int(number), self.now
            if family in self.compared and all(self.agrees(it) for it in self.compared):
                self.show()

    def run(self):
        self.say("at 0")
        self.plan(0, "call")
        while len(self.lines) < self.most and self.now < LONGEST:
            at = min([self.coming[0][0], *(it.gateway.due for it in self.ends.members if it.gateway.due > self.now)])
            if at > self.now:
                self.now = at
                self.say(f"at {at}")
            while self.coming and self.coming[0][0] <= self.now:
                line = heapq.heappop(self.coming)[2]
                if line == "call":
                    self.call()
                    self.plan(self.now + self.dice.choice(CALLS), "call")
                else:
                    self.delivery(line)
        return self


HEAD_SCRIPT = "".join(f"{it[2:]}\n" for it in HEAD.splitlines() if it.startswith("< ")).encode()


def family_of(octets):
    """The family of which a datagram of the relay speaks: by its packet, or by its nonce, in which both differ."""
    if octets[0] == 6:
        return "v4" if octets[2] >> 4 == 4 else "v6"
    return "v6" if octets[8 if octets[0] == 4 else 4] & 0x80 else "v4"


# A session's name, the families that are compared and by which lines, and how many lines it has at least.
SESSIONS = [("both families agree where each datagram is late by a minute at most", ["v4", "v6"], None, 120),
            ("IPv4 agrees, whatever time the datagrams of IPv6 take", ["v4"], "~ * 198.51.100.7:5000 239.", 85),
            ("IPv6 agrees, whatever time the datagrams of IPv4 take", ["v6"], "~ * 198.51.100.7:5000 ff3e:", 85)]


def cases(seed):
    found = [HEAD.rstrip("\n")]
    for place, (name, compared, text, most) in enumerate(SESSIONS):
        session = Session(random.Random(10 * seed + place), compared, most).run()
        found.append("\n".join([f"# {name}", *([text] if text else ["~ rows", "~ *"]), *session.lines]))
    return "\n\n".join(found)


def main():
    words = sys.argv[1:]
    if words[:1] == ["check"]:
        shown = 0
        for number in range(int(words[1])):
            for place, (_, compared, _, _) in enumerate(SESSIONS):
                shown += Session(random.Random(f"{number} {place}"), compared, 400).run().shown
        print(f"{len(SESSIONS) * int(words[1])} sessions, {shown} times the rows are those of the sockets")
        return
    print(cases(int(words[0]) if words else 60))


if __name__ == "__main__":
    main()
