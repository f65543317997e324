"""Judges `amt replay relay` and `amt replay upstream` by a plain model, over random scripts.

usage: tools/plain-relay.sh AMT [SCRIPTS [SEED]]

The model keeps every accepted entry and reckons what stands from the whole list anew, each time it is asked. It knows no
map, no index and no expiry queue, and is written from docs/FORMATS.md and docs/BEHAVIOUR.md alone. A script has requests, updates
and teardowns of few endpoints of both families with good, old and forged MACs, packets, secrets, changed limits, and moments
before, at and after the end of a lifetime; Discoveries, and datagrams that are refused; some relays serve Linux's
gateways. What all endpoints together want is merged anew before and after each step.
It prints the first script whose text differs, and ends with status 1.
"""
import hashlib
import hmac
import ipaddress
import random
import subprocess
import sys
from collections import Counter

LIFETIME = 260_000
KINDS = (1, 2, 3, 4, 5, 6)


def text_of(address):
    return str(ipaddress.ip_address(address))


def sum_of(octets):
    total = sum(octets[::2]) * 256 + sum(octets[1::2])
    while total >> 16:
        total = (total & 0xFFFF) + (total >> 16)
    return (0xFFFF - total).to_bytes(2, "big")


def filled(octets, at, before=b""):
    return octets[:at] + sum_of(before + octets) + octets[at + 2:]


def inner_of(source, destination, payload):
    """The payload in a datagram with Router Alert, as both ends write it."""
    if len(source) == 4:
        head = bytes.fromhex("46c0") + (24 + len(payload)).to_bytes(2, "big") + bytes(4) + b"\x01\x02\0\0" + source + destination
        return filled(head + bytes.fromhex("94040000"), 10) + payload
    return (b"\x60\0\0\0" + (8 + len(payload)).to_bytes(2, "big") + b"\0\x01" + source + destination
            + bytes.fromhex("3a00050200000100") + payload)


def summed(source, destination, payload):
    pseudo = b"" if len(source) == 4 else source + destination + len(payload).to_bytes(4, "big") + b"\0\0\0\x3a"
    return filled(payload, 2, pseudo)


QUERY4 = inner_of(bytes(4), bytes([224, 0, 0, 1]), summed(bytes(4), b"", bytes.fromhex("1164000000000000027d0000")))
LINK, NODES = bytes.fromhex("fe80" + "0" * 27 + "1"), bytes.fromhex("ff02" + "0" * 27 + "1")
QUERY6 = inner_of(LINK, NODES, summed(LINK, NODES, bytes.fromhex("8200000027100000" + "0" * 32 + "027d0000")))


class Endpoint:
    def __init__(self, address, port):
        self.address, self.port = ipaddress.ip_address(address).packed, port
        self.peer = f"{address}:{port}" if len(self.address) == 4 else f"[{address}]:{port}"
        self.place = (len(self.address), self.address, port)
        self.named = port.to_bytes(2, "big") + self.address.rjust(16, b"\0")

    def mac(self, secret, nonce):
        octets = self.named[2:] + self.named[:2] + nonce
        return hmac.new(secret, octets, hashlib.sha256).digest()[:6]


def report_of(records, v6, source=None):
    """An Update's inner datagram."""
    body = b"".join(bytes([kind, 0]) + len(sources).to_bytes(2, "big") + group + b"".join(sources) for kind, group, sources in records)
    payload = bytes([0x8F if v6 else 0x22]) + bytes(5) + len(records).to_bytes(2, "big") + body
    source = source or (LINK if v6 else bytes([10, 0, 0, 2]))
    destination = bytes.fromhex("ff02" + "0" * 26 + "16") if v6 else bytes([224, 0, 0, 22])
    return inner_of(source, destination, summed(source, destination, payload))


def after(old, kind, sources):
    """What a record leaves of a filter: whether it excludes, and the listed sources."""
    excludes, listed = old
    if kind in (1, 3):
        return False, sources
    if kind in (2, 4):
        return True, sources
    return excludes, listed | sources if excludes == (kind == 6) else listed - sources


def stands(log, moment, lifetime=LIFETIME):
    """The filters that stand at the moment, by endpoint and group."""
    filters, renewed = {}, {}
    for entry in log:
        _, endpoint, records, at = entry
        if records is None:
            for pair in [it for it in filters if it[0] == endpoint]:
                del filters[pair]
            continue
        for kind, group, sources in records:
            pair = (endpoint, group)
            if pair in filters and at - renewed[pair] >= lifetime:
                del filters[pair]
            filters[pair], renewed[pair] = after(filters.get(pair, (False, frozenset())), kind, frozenset(sources)), at
            if filters[pair] == (False, frozenset()):
                del filters[pair]
    return {pair: it for pair, it in filters.items() if moment - renewed[pair] < lifetime}


def order_of(address):
    return len(address), address


def joined(filters):
    """What all of these filters together want of each group: whether it excludes, and the listed sources."""
    found = {}
    for group in {group for _, group in filters}:
        those = [it for (_, other), it in filters.items() if other == group]
        wanted = frozenset().union(*(listed for excludes, listed in those if not excludes))
        unwanted = [listed for excludes, listed in those if excludes]
        found[group] = (True, frozenset.intersection(*unwanted) - wanted) if unwanted else (False, wanted)
    return found


def listed_text(sources):
    return ",".join(text_of(it) for it in sorted(sources, key=order_of)) or "-"


def change_records(before, after):
    """The records that make of the filters before, by group, those after."""
    for group in sorted({*before, *after}, key=order_of):
        (excluded, old), (excludes, new) = (it.get(group, (False, frozenset())) for it in (before, after))
        if excluded != excludes:
            yield 4 if excludes else 3, group, new
            continue
        for kind, sources in ((5, old - new if excludes else new - old), (6, new - old if excludes else old - new)):
            if sources:
                yield kind, group, sources


def changes(before, after):
    """The lines that tell a network of what all filters together want, group by group."""
    names = {3: "to_in", 4: "to_ex", 5: "allow", 6: "block"}
    for kind, group, sources in change_records(joined(before), joined(after)):
        yield f"+ {names[kind]} {text_of(group)} {listed_text(sources)}"


class Relay:
    def __init__(self, keep, limits, lifetime=LIFETIME, queries=(QUERY4, QUERY6), is_for_linux=False):
        self.keep, self.secrets, self.limits, self.now, self.log = keep, [bytes(32)], limits, 0, []
        self.lifetime, self.queries, self.is_for_linux = lifetime, queries, is_for_linux

    def filters(self):
        return stands(self.log, self.now, self.lifetime)

    def live(self, filters):
        return len({endpoint for endpoint, _ in filters})

    def is_good(self, endpoint, nonce, mac):
        return any(endpoint.mac(secret, nonce) == mac for secret in self.secrets[-self.keep:])

    def request(self, endpoint, nonce, flags):
        """A Request's answer, by its second octet. Linux's gateways say by 80 what others say by 01, and get Queries without flags."""
        limited = self.live(self.filters()) >= self.limits[0]
        v6 = flags % 2 == 1 or self.is_for_linux and flags == 0x80
        seen = b"" if self.is_for_linux else endpoint.named
        said = 0 if self.is_for_linux else 2 * limited + 1
        query = bytes([4, said]) + endpoint.mac(self.secrets[-1], nonce) + nonce + self.queries[v6] + seen
        return f"queried {'v6' if v6 else 'v4'}{' limited' if limited else ''}", [(endpoint.peer, query)]

    def passed(self, endpoint, records, before, later):
        """The limit that a report passes, in words."""
        for group in sorted({group for _, group, _ in records}, key=order_of):
            size = len(later.get((endpoint, group), (False, ()))[1])
            if size > max(self.limits[2], len(before.get((endpoint, group), (False, ()))[1])):
                return f"sources {text_of(group)} {size}"
        groups = [sum(it == endpoint for it, _ in filters) for filters in (before, later)]
        if groups[1] > max(self.limits[1], groups[0]):
            return f"groups {groups[1]}"
        if self.live(later) > max(self.limits[0], self.live(before)):
            return f"endpoints {self.live(later)}"
        return None

    def update(self, endpoint, nonce, mac, records):
        if not self.is_good(endpoint, nonce, mac):
            return "badmac", []
        entry = ("report", endpoint, [it for it in records if is_forwardable(it[1])], self.now)
        limit = self.passed(endpoint, entry[2], self.filters(), stands([*self.log, entry], self.now, self.lifetime))
        if limit:
            return f"limit {limit}", []
        self.log.append(entry)
        return "updated", []

    def teardown(self, endpoint, nonce, mac):
        if not self.is_good(endpoint, nonce, mac):
            return "badmac", []
        if all(it != endpoint for it, _ in self.filters()):
            return "notunnel", []
        self.log.append(("clear", endpoint, None, self.now))
        return "torndown", []

    def packet(self, source, group, octets):
        if not is_forwardable(group):
            return f"notforwarded scope {text_of(group)}", []
        targets = [endpoint for (endpoint, it), (excludes, listed) in self.filters().items() if it == group and (source in listed) != excludes]
        targets.sort(key=lambda it: it.place)
        return f"copied {len(targets)}", [(it.peer, b"\x06\0" + octets) for it in targets]

    def rows(self):
        filters = self.filters()
        pairs = sorted(filters, key=lambda it: (it[0].place, order_of(it[1])))
        for endpoint, group in pairs:
            excludes, listed = filters[endpoint, group]
            yield f"* {endpoint.peer} {text_of(group)} {'exclude' if excludes else 'include'} {listed_text(listed)}"


def is_forwardable(group):
    if len(group) == 4:
        return 224 <= group[0] <= 239 and group[:3] != bytes([224, 0, 0])
    return group[0] == 0xFF and (group[1] & 15) > 2


ENDPOINTS = [Endpoint("198.51.100.7", 5000), Endpoint("198.51.100.7", 5001), Endpoint("198.51.100.8", 5000), Endpoint("2001:db8::7", 5000)]
GROUPS = {v6: [ipaddress.ip_address(it).packed for it in those] for v6, those in
          ((False, ("239.1.1.1", "239.1.1.2", "239.1.1.3", "224.0.0.5")), (True, ("ff0e::1", "ff0e::2", "ff02::5")))}
SOURCES = {v6: [ipaddress.ip_address(it).packed for it in those] for v6, those in
           ((False, ("198.51.100.1", "198.51.100.2", "198.51.100.3", "198.51.100.4")), (True, ("2001:db8::1", "2001:db8::2", "2001:db8::3")))}


def some_records(dice, v6):
    return [(dice.choice(KINDS), dice.choice(GROUPS[v6]), dice.sample(SOURCES[v6], dice.randrange(len(SOURCES[v6]) + 1)))
            for _ in range(dice.choice((1, 1, 1, 2, 2, 3, 0)))]


class Script:
    """A random script, and its text by the model."""

    def __init__(self, dice):
        self.lines, self.text, self.outcomes = ["set relay 192.0.2.1"], [], Counter()
        keep, most = dice.choice((1, 2, 2, 3, 4)), [dice.choice(it) for it in ((1, 2, 3, 4), (1, 2, 3, 3), (2, 3, 4, 4))]
        for_linux = dice.choice((None, None, "false", "true", "true"))
        if for_linux:
            self.lines.append(f"set linux_gateways {for_linux}")
        if keep != 2 or dice.random() < 0.5:
            self.lines.append(f"set secrets {keep}")
        self.lines += [f"set {key} {number}" for key, number in zip(("endpoints", "groups", "sources"), most)]
        self.relay = Relay(keep, most, is_for_linux=for_linux == "true")
        self.most, self.dice, self.macs, self.filters = most, dice, [bytes(32)], {}

    def say(self, line, outcome, sends=()):
        self.lines.append(line)
        self.outcomes[" ".join(outcome.split()[:2])] += 1
        self.text.append(f"= {1 + sum(it.startswith('= ') for it in self.text)} {outcome}")
        self.text += [f"> {peer} {octets.hex()}" for peer, octets in sends]
        before, self.filters = self.filters, self.relay.filters()
        told = list(changes(before, self.filters))
        self.text += told
        self.outcomes.update(" ".join(it.split()[:2]) for it in told)

    def add(self):
        dice, relay = self.dice, self.relay
        endpoint, nonce, v6 = dice.choice(ENDPOINTS), bytes([0, 0, 0, dice.randrange(3)]), dice.random() < 0.2
        mac = endpoint.mac(dice.choice(self.macs[-5:]) if dice.random() < 0.6 else relay.secrets[-1], nonce)
        if dice.random() < 0.03:
            mac = bytes([mac[0] ^ 1]) + mac[1:]
        what = dice.random()
        if what < 0.04:
            self.unheard(endpoint, nonce)
        elif what < 0.45:
            records = some_records(dice, v6)
            octets = b"\x05\0" + mac + nonce + report_of(records, v6)
            self.say(f"dg {endpoint.peer} {octets.hex()}", *relay.update(endpoint, nonce, mac, records))
        elif what < 0.55:
            flags = dice.choice((0, 1, 0x80, 0x80, 0x81, dice.randrange(256)))
            self.say(f"dg {endpoint.peer} {(bytes([3, flags, 0, 0]) + nonce).hex()}", *relay.request(endpoint, nonce, flags))
        elif what < 0.62:
            octets = b"\x07\0" + mac + nonce + endpoint.named
            self.say(f"dg {dice.choice(ENDPOINTS).peer} {octets.hex()}", *relay.teardown(endpoint, nonce, mac))
        elif what < 0.70:
            self.packet(v6)
        elif what < 0.80:
            at = max(0, relay.now + dice.choice((-1, 0, 1, 1000, 100_000, 259_999, 260_000, 130_000)))
            relay.now = max(relay.now, at)
            self.say(f"at {at}", f"moved {relay.now}")
        elif what < 0.87:
            secret = bytes([dice.randrange(4)]) * 32
            relay.secrets.append(secret)
            self.macs.append(secret)
            self.say(f"secret {secret.hex()}", "rotated")
        elif what < 0.95:
            relay.limits = [dice.randrange(1, it + 1) for it in self.most]
            self.say("limits " + " ".join(map(str, relay.limits)), "resized")
        else:
            rows = list(relay.rows())
            self.say("show", f"rows {len(rows)}")
            self.text += rows

    def unheard(self, endpoint, nonce):
        """A Discovery, and datagrams that are no message for a relay, or come from no endpoint."""
        advertisement = b"\x02\0\0\0" + nonce + bytes([192, 0, 2, 1])
        self.say(*self.dice.choice((
            (f"dg {endpoint.peer} {(bytes([1, 0, 0, 0]) + nonce).hex()}", "advertised", [(endpoint.peer, advertisement)]),
            (f"dg {endpoint.peer} -", "refused empty"), (f"dg {endpoint.peer} 15", "refused version 1"),
            (f"dg {endpoint.peer} {advertisement.hex()}", "wrongkind 2"), ("dg [::1]:5000 0100", "badsource"))))

    def packet(self, v6):
        source, group = self.dice.choice(SOURCES[v6]), self.dice.choice(GROUPS[v6])
        head = b"\x60\0\0\0\0\x04\x11\x40" if v6 else filled(bytes.fromhex("450000180000000040110000") + source + group, 10)[:12]
        octets = head + source + group + b"test"
        self.say(f"mc {octets.hex()}", *self.relay.packet(source, group, octets))


def differs(amt, kind, script, wanted):
    """Prints where the program's text isn't the wanted one."""
    ran = subprocess.run([amt, "replay", kind], input="".join(f"{it}\n" for it in script.lines), capture_output=True, text=True)
    if (ran.returncode, ran.stdout) == (0, wanted):
        return False
    print(f"replay {kind} differs, status {ran.returncode} {ran.stderr}")
    print("\n".join(script.lines))
    for one, other in zip(wanted.split("\n"), ran.stdout.split("\n")):
        print("  " if one == other else "! ", one, "" if one == other else f"\n  amt: {other}")
    return True


def main():
    amt, count, seed = sys.argv[1], int(sys.argv[2]) if len(sys.argv) > 2 else 100, int(sys.argv[3]) if len(sys.argv) > 3 else 1
    met = Counter()
    for number in range(seed, seed + count):
        script = Script(random.Random(number))
        for _ in range(random.Random(-number).randrange(5, 60)):
            script.add()
        events = sum(it.startswith("= ") for it in script.text)
        met += script.outcomes
        for kind in ("relay", "upstream"):
            lines = [it for it in script.text if kind == "upstream" or not it.startswith("+ ")]
            if differs(amt, kind, script, "".join(f"{it}\n" for it in [*lines, f". {events}"])):
                print(f"script {number}")
                return 1
    print(f"{count} scripts agree; outcomes: " + ", ".join(f"{it} {many}" for it, many in sorted(met.items())))
    return 0


if __name__ == "__main__":
    sys.exit(main())
