"""A plain model of both ends on a schedule: what `amt replay pair` and `amt replay dual` write.

The relay is that of plain_relay.py. A gateway is here, and so are the scripts, with the reasons for which lines are
refused. Nothing is kept that can be reckoned: what a host wants, and since when it wants a group no more, is read off
the list of all its socket calls each time that it is asked. It was written from docs/FORMATS.md, docs/BEHAVIOUR.md and
the RFCs, and not from the program. Of datagrams it knows those alone that one of both ends sends to the other.
"""
import ipaddress
import re

from plain_relay import (Endpoint, Relay, change_records, filled, inner_of, is_forwardable, joined, order_of, report_of,
                         summed, text_of)

DISCOVERING, REQUESTING, ACTIVE, IDLE = "discovering", "requesting", "active", "idle"
NOTHING = (False, frozenset())
# Before the first Query memberships are taken to last so long, in milliseconds.
FIRST_LIFETIME = 260_000
LONGEST_FAREWELL = 100_000_000
MOST_SOURCES, MOST_OCTETS = 32, 1400


def code_of(value, mantissa_bits):
    """The code that stands for a number, or None."""
    for code in range(2 ** (mantissa_bits + 4)):
        if value == value_of(code, mantissa_bits):
            return code
    return None


def value_of(code, mantissa_bits):
    if code < 2 ** (mantissa_bits + 3):
        return code
    mantissa, exponent = code % 2**mantissa_bits, code // 2**mantissa_bits % 8
    return (2**mantissa_bits + mantissa) << (exponent + 3)


class Sockets:
    """The open sockets at the beginning and after each accepted call, with the moment of the call."""

    def __init__(self):
        self.past = [(0, {})]

    def now_open(self):
        return dict(self.past[-1][1])

    def add(self, at, sockets):
        self.past.append((at, sockets))

    def left(self):
        """The groups that are wanted no more, with the moment of the last call by which each came to be."""
        found = {}
        for (_, before), (at, after) in zip(self.past, self.past[1:]):
            found.update({group: at for group in wanted(before).keys() - wanted(after).keys()})
        return {group: at for group, at in found.items() if group not in wanted(self.now_open())}

    def full(self, now, keep):
        """The records of the full report."""
        filters = wanted(self.now_open())
        records = [(2 if excludes else 1, group, sources) for group, (excludes, sources) in filters.items()]
        records += [(3, group, frozenset()) for group, at in self.left().items() if now - at < keep]
        return sorted(records, key=lambda it: order_of(it[1]))

    def is_quiet(self, now, keep):
        return not self.now_open() and all(now - at >= keep for at in self.left().values())

    def refusal(self, now, sockets, group):
        """Why the host can't have these sockets, of which one of the group is new."""
        counts = {it: 0 for it, at in self.left().items() if now - at <= LONGEST_FAREWELL}
        for it, _, sources in sockets.values():
            counts[it] = counts.get(it, 0) + len(sources)
        if counts[group] > MOST_SOURCES:
            return f"sources {counts[group]}"
        octets = 8 + sum(4 + len(it) + len(it) * count for it, count in counts.items())
        return f"report {octets}" if octets > MOST_OCTETS else None


def wanted(sockets):
    """What the sockets together want, by group."""
    filters = joined({(name, group): (excludes, sources) for name, (group, excludes, sources) in sockets.items()})
    return {group: it for group, it in filters.items() if it != NOTHING}


class Gateway:
    """A gateway of one family. A step is its outcome, what it sends to its relay, and the packet that it hands on."""

    def __init__(self, v6, source, nonce):
        self.v6, self.source, self.next_nonce = v6, source, nonce
        self.now, self.state, self.nonce, self.tries, self.due = 0, IDLE, None, 0, 0
        self.has_relay, self.sockets, self.lifetime = False, Sockets(), FIRST_LIFETIME
        self.mac, self.answered = None, None

    def farewell(self):
        return min(self.lifetime + 60_000, LONGEST_FAREWELL)

    def draw(self):
        self.nonce = self.next_nonce.to_bytes(4, "big")
        self.next_nonce = (self.next_nonce + 1) % 2**32

    def ask(self, tries):
        """Sends a Discovery or a Request, the first or one more with its nonce."""
        longest = 120 if self.state == DISCOVERING else 16
        self.tries, self.due = tries, self.now + 1000 * min(2 ** (tries - 1), longest)
        head = b"\1\0\0\0" if self.state == DISCOVERING else bytes([3, self.v6, 0, 0])
        return f"{self.state} {tries}", [head + self.nonce], None

    def begin(self):
        self.state = REQUESTING if self.has_relay else DISCOVERING
        self.draw()
        return self.ask(1)

    def moment(self, at):
        self.now = max(self.now, at)
        if self.state == IDLE or self.now < self.due:
            return "quiet", [], None
        if self.sockets.is_quiet(self.now, self.farewell()):
            self.state = IDLE
            return "idle", [], None
        if self.state == DISCOVERING:
            return self.ask(min(self.tries + 1, 255))
        if self.state == REQUESTING and self.tries < 5:
            return self.ask(self.tries + 1)
        self.has_relay = self.state == ACTIVE
        return self.begin()

    def update(self, records):
        """An Update with the records, or none where there is none."""
        records = [(kind, group, sorted(sources, key=order_of)) for kind, group, sources in records]
        inner = report_of(records, self.v6, self.source)
        return [b"\5\0" + self.mac + self.answered + inner] if records else []

    def call(self, words):
        """A socket call by the words of its line."""
        sockets, name, what = self.sockets.now_open(), words[1] if words[1:] else None, words[0]
        if what == "open" and name in sockets:
            return "refused taken", [], None
        if what in ("change", "close") and name not in sockets:
            return "refused nosocket", [], None
        before = wanted(sockets)
        if what == "leave":
            sockets = {}
        elif what == "close":
            del sockets[name]
        else:
            *_, mode, sources = group, excludes, listed = call_of(words, sockets)
            sockets[name] = group, mode, sources
            refusal = self.sockets.refusal(self.now, sockets, group)
            if refusal:
                return f"refused {refusal}", [], None
        self.sockets.add(self.now, sockets)
        if self.state == IDLE and what == "open":
            return self.begin()
        changes = list(change_records(before, wanted(sockets)))
        if self.state != ACTIVE or not changes:
            return "kept", [], None
        change = self.update(changes)
        # The inner datagram's payload: what is before it has 12 octets of the message and a header with one option.
        if len(change[0]) - (60 if self.v6 else 36) > MOST_OCTETS:
            change = []
        return "changed", change + self.update(self.sockets.full(self.now, self.farewell())), None

    def take(self, octets):
        """A datagram of the relay."""
        kind = octets[0]
        if self.state not in {2: [DISCOVERING], 4: [REQUESTING], 6: [REQUESTING, ACTIVE]}[kind]:
            return f"ignored state {kind}", [], None
        if kind == 6:
            return self.packet(octets[2:])
        nonce = octets[4:8] if kind == 2 else octets[8:12]
        if nonce != self.nonce:
            return f"ignored nonce {self.nonce.hex()} {nonce.hex()}", [], None
        if kind == 2:
            self.has_relay = True
            return self.begin()
        names_gateway = octets[1] % 2
        return self.query(octets[2:8], nonce, octets[12:-18] if names_gateway else octets[12:])

    def query(self, mac, nonce, inner):
        if inner[0] >> 4 != (6 if self.v6 else 4):
            return "ignored family", [], None
        query = inner[48:] if self.v6 else inner[24:]
        fields = query[24:26] if self.v6 else query[8:10]
        response = value_of(int.from_bytes(query[4:6], "big"), 12) if self.v6 else 100 * value_of(query[1], 4)
        interval = 1000 * (value_of(fields[1], 4) or 125)
        self.mac, self.answered, self.state = mac, nonce, ACTIVE
        self.lifetime, self.due = (fields[0] % 8 or 2) * interval + response, self.now + interval
        return "active", self.update(self.sockets.full(self.now, self.farewell())), None

    def packet(self, packet):
        source, group = addresses_of(packet)
        sockets = self.sockets.now_open().values()
        if any(it == group and (source in sources) != excludes for it, excludes, sources in sockets):
            return "delivered", [], packet
        return f"ignored notwanted {text_of(group)} {text_of(source)}", [], None


def call_of(words, sockets):
    """The group, mode and sources of an `open` or `change`."""
    if words[0] == "open":
        group, mode, sources = address_in(words[2]), words[3], words[4:]
    else:
        group, mode, sources = sockets[words[1]][0], words[2], words[3:]
    return group, mode == "exclude", frozenset(address_in(it) for it in sources)


def addresses_of(packet):
    return (packet[12:16], packet[16:20]) if packet[0] >> 4 == 4 else (packet[8:24], packet[24:40])


def address_in(text, lengths=(4, 16)):
    """The octets of an address of one of these lengths, or None."""
    if not re.fullmatch(r"[0-9.]+|[0-9a-fA-F:]+", text):
        return None
    try:
        octets = ipaddress.ip_address(text).packed
    except ValueError:
        return None
    return octets if len(octets) in lengths else None


def peer_in(text):
    """The address and port of a peer, or None."""
    found = re.fullmatch(r"(?:\[([0-9a-fA-F:]+)\]|([0-9.]+)):(0|[1-9][0-9]{0,4})", text)
    octets = found and (address_in(found[1], (16,)) if found[1] else address_in(found[2], (4,)))
    return (octets, int(found[3])) if octets and int(found[3]) < 2**16 else None


def peer_text(peer):
    address, port = peer
    return f"{text_of(address)}:{port}" if len(address) == 4 else f"[{text_of(address)}]:{port}"


def is_refused_source(peer):
    """Whether it lies in ::/96 or ::ffff:0:0/96, from where nothing is taken."""
    return len(peer[0]) == 16 and peer[0][:10] == bytes(10) and peer[0][10:12] in (bytes(2), b"\xff\xff")


class Member:
    """A machine of a gateway: its first words in a part's line, the peer as which the relay sees it, and itself."""

    def __init__(self, who, peer, gateway):
        self.who, self.peer, self.gateway = who, peer, gateway


class Ends:
    """A relay and the machines of its gateways, with what was sent each way. An event's text is its lines."""

    def __init__(self, script):
        numbers = {**DEFAULTS, **script.numbers}
        self.address, self.packet_limit = script.addresses["relay"], numbers["packet_limit"]
        lifetime = 1000 * numbers["robustness"] * numbers["query_seconds"] + 100 * numbers["response_tenths"]
        limits = [numbers[it] for it in ("endpoints", "groups", "sources")]
        queries = queries_of(numbers, script.addresses)
        self.relay = Relay(numbers["secrets"], limits, lifetime, queries, script.is_for_linux)
        self.relay.secrets = [script.secret]
        self.peer, self.ups, self.downs, self.number = peer_text((self.address, 2268)), [], [], 0
        self.endpoints = {peer: Endpoint(text_of(peer[0]), peer[1]) for _, peer, _ in script.gateways}
        self.members = [Member(" ".join([name, *family]), peer, Gateway(v6, source, nonce))
                        for name, peer, machines in script.gateways for family, v6, source, nonce in machines]

    def take(self, words):
        """The lines of the next event or `show`."""
        self.number += 1
        if words[0] == "show":
            rows = list(self.relay.rows())
            return [f"= {self.number} rows {len(rows)}", *rows]
        return list(self.parts(words))

    def parts(self, words):
        what = words[0]
        if what == "at":
            self.relay.now = max(self.relay.now, int(words[1]))
            yield from self.relay_part(f"moved {self.relay.now}")
            for member in self.members:
                yield from self.gateway_part(member, member.gateway.moment(int(words[1])))
        elif what == "secret":
            self.relay.secrets.append(bytes.fromhex(words[1]))
            yield from self.relay_part("rotated")
        elif what == "mc":
            yield from self.relay_part(*self.packet(octets_in(words[1])))
        elif what == "up":
            yield from self.up(int(words[1]))
        elif what == "down":
            yield from self.down(int(words[1]))
        else:
            member = next(it for it in self.members if it.who.split() == words[:len(it.who.split())])
            yield from self.gateway_part(member, member.gateway.call(words[len(member.who.split()):]))

    def relay_part(self, outcome, sends=()):
        yield f"= {self.number} relay {outcome}"
        for peer, octets in sends:
            self.downs.append((peer, octets))
            yield f"> down {len(self.downs)} {peer} {octets.hex()}"

    def gateway_part(self, member, step):
        outcome, sends, packet = step
        yield f"= {self.number} {member.who} {outcome}"
        for octets in sends:
            self.ups.append((member.peer, octets))
            yield f"> up {len(self.ups)} {self.peer} {octets.hex()}"
        if packet is not None:
            yield f"^ {packet.hex()}"

    def up(self, number):
        if not 1 <= number <= len(self.ups):
            yield f"= {self.number} absent {number}"
            return
        yield from self.relay_part(*self.answer(*self.ups[number - 1]))

    def down(self, number):
        """The machines of a gateway are asked one after the other, until one doesn't ignore the datagram."""
        to, octets = self.downs[number - 1] if 1 <= number <= len(self.downs) else (None, b"")
        members = [it for it in self.members if peer_text(it.peer) == to]
        if not members:
            yield f"= {self.number} absent {number}"
        for member in members:
            step = member.gateway.take(octets)
            yield from self.gateway_part(member, step)
            if not step[0].startswith("ignored"):
                return

    def answer(self, peer, octets):
        """What the relay makes of a datagram that a gateway has sent."""
        if is_refused_source(peer):
            return "badsource", []
        endpoint, kind = self.endpoints[peer], octets[0]
        if kind == 1:
            return "advertised", [(endpoint.peer, b"\2\0\0\0" + octets[4:] + self.address)]
        if kind == 3:
            return self.relay.request(endpoint, octets[4:], octets[1])
        return self.relay.update(endpoint, octets[8:12], octets[2:8], records_in(octets[12:]))

    def packet(self, packet):
        if len(packet) > self.packet_limit:
            return f"toobig {len(packet)}", []
        version = packet[0] >> 4 if packet else 4
        if version not in (4, 6):
            return f"notforwarded head version {version}", []
        need = 20 if version == 4 else 40
        if len(packet) < need:
            return f"notforwarded head short {need} {len(packet)}", []
        return self.relay.packet(*addresses_of(packet), packet)


def queries_of(numbers, addresses):
    """The General Queries of both families."""
    seconds = code_of(numbers["query_seconds"], 4)
    fields = bytes([numbers["robustness"], seconds, 0, 0])
    all4, all6 = bytes([224, 0, 0, 1]), ipaddress.ip_address("ff02::1").packed
    source4, source6 = addresses.get("query4", bytes(4)), addresses.get("query6", ipaddress.ip_address("fe80::1").packed)
    tenths, ms = code_of(numbers["response_tenths"], 4), code_of(100 * numbers["response_tenths"], 12)
    query4 = filled(bytes([0x11, tenths]) + bytes(6) + fields, 2)
    query6 = summed(source6, all6, b"\x82\0\0\0" + ms.to_bytes(2, "big") + bytes(18) + fields)
    return inner_of(source4, all4, query4), inner_of(source6, all6, query6)


def records_in(inner):
    """The records of a report that a gateway has written."""
    payload, length = (inner[24:], 4) if inner[0] >> 4 == 4 else (inner[48:], 16)
    records, at = [], 8
    for _ in range(int.from_bytes(payload[6:8], "big")):
        kind, count, group = payload[at], int.from_bytes(payload[at + 2:at + 4], "big"), payload[at + 4:at + 4 + length]
        at += 4 + length
        records.append((kind, group, [payload[at + it * length:at + it * length + length] for it in range(count)]))
        at += count * length
    return records


def octets_in(digits):
    return b"" if digits == "-" else bytes.fromhex(digits)


# Scripts. A line that is bad is so for the first of these reasons that fits it; `missing` stands after all lines.
REASONS = ["long", "word", "late", "twice", "count", "number", "hex", "address", "peer", "name", "mode", "group", "range"]
DEFAULTS = {"robustness": 2, "query_seconds": 125, "response_tenths": 100, "secrets": 2, "endpoints": 1024, "groups": 64,
            "sources": 64, "packet_limit": 1450}
RANGES = {"robustness": (1, 7), "query_seconds": (1, 31744), "response_tenths": (1, 31744), "secrets": (1, 4),
          "endpoints": (1, 65536), "groups": (1, 256), "sources": (1, 64), "packet_limit": (20, 65000)}
ADDRESSES = {"relay": (4, 16), "query4": (4,), "query6": (16,)}
FLAGS = ["false", "true"]
WORDS = ["at", "secret", "mc", "show", "up", "down", "set", "gateway"]
CALLS = {"open": 4, "change": 3, "close": 2, "leave": 1}


class Refused(Exception):
    """The first bad line and the first reason in it."""


def is_number(text):
    return re.fullmatch("0|[1-9][0-9]*", text) is not None


def is_name(text):
    return re.fullmatch("[a-z0-9_]{1,32}", text) is not None


def is_hex(text):
    return text == "-" or len(text) % 2 == 0 and len(text) <= 131070 and re.fullmatch("[0-9a-fA-F]+", text) is not None


def is_secret(text):
    return len(text) == 64 and is_hex(text)


class Script:
    """A script of `amt replay pair`, or of `amt replay dual`. Each line is asked for all reasons that fit it."""

    def __init__(self, kind, octets):
        self.is_dual = kind == "dual"
        self.numbers, self.addresses, self.secret, self.is_for_linux, self.given = {}, {}, bytes(32), False, set()
        self.gateways, self.events = [], []
        lines = octets.split(b"\n")
        ended = lines[-1] == b""
        lines = [it.removesuffix(b"\r") for it in lines[:-1]] + ([] if ended else lines[-1:])
        for number, line in enumerate(lines, 1):
            self.read(number, line.strip(b" "), len(line) > 140_000)
        last = len(lines) + 1
        if "relay" not in self.addresses:
            raise Refused(f"line {last}: missing")
        if self.is_out_of_range():
            raise Refused(f"line {last}: range")

    def is_out_of_range(self):
        numbers = {**DEFAULTS, **self.numbers}
        tenths = numbers["response_tenths"]
        codes = [code_of(numbers["query_seconds"], 4), code_of(tenths, 4), code_of(100 * tenths, 12)]
        return None in codes or numbers["endpoints"] * numbers["groups"] * numbers["sources"] > 2**24

    def read(self, number, line, is_long):
        words = line.decode("latin-1").split(" ")
        words = [it for it in words if it]
        if not is_long and (not words or words[0].startswith("#")):
            return
        reasons = {"long"} if is_long else {it for it in self.reasons(words) if it}
        if any(not 0x20 <= it <= 0x7E for it in line):
            reasons.add("word")
        if reasons:
            raise Refused(f"line {number}: {min(reasons, key=REASONS.index)}")
        self.keep(words)

    def reasons(self, words):
        """All reasons for which the line is bad, in no order."""
        what, more = words[0], words[1:]
        if what in ("set", "gateway"):
            yield self.events and "late"
            yield from self.setting_reasons(more) if what == "set" else self.gateway_reasons(more)
        elif what in WORDS:
            yield len(more) != (0 if what == "show" else 1) and "count"
            for text in more[:1]:
                yield what in ("at", "up", "down") and not (is_number(text) and int(text) < 2**62) and "number"
                yield what == "mc" and not is_hex(text) and "hex"
                yield what == "secret" and not is_secret(text) and "hex"
        elif what not in [it[0] for it in self.gateways]:
            yield "word"
        elif self.is_dual:
            yield not more and "count"
            yield more and more[0] not in ("v4", "v6") and "word"
            yield from self.call_reasons(more[1:], 16 if more[:1] == ["v6"] else 4)
        else:
            family = next(machines[0][1] for name, _, machines in self.gateways if name == what)
            yield from self.call_reasons(more, 16 if family else 4)

    def setting_reasons(self, more):
        yield len(more) != 2 and "count"
        for key in more[:1]:
            yield key not in [*RANGES, *ADDRESSES, "secret", "linux_gateways"] and "word"
            yield key in self.given and "twice"
            for text in more[1:2]:
                yield key in ADDRESSES and not address_in(text, ADDRESSES[key]) and "address"
                yield key == "secret" and not is_secret(text) and "hex"
                yield key == "linux_gateways" and text not in FLAGS and "range"
                yield key in RANGES and not is_number(text) and "number"
                yield key in RANGES and is_number(text) and not RANGES[key][0] <= int(text) <= RANGES[key][1] and "range"

    def gateway_reasons(self, more):
        yield len(more) != 4 and "count"
        yield more and more[0] in [it[0] for it in self.gateways] and "twice"
        yield more and (not is_name(more[0]) or more[0] in WORDS) and "name"
        peer = peer_in(more[1]) if more[1:] else None
        yield peer and peer in [it[1] for it in self.gateways] and "twice"
        yield more[1:] and not peer and "peer"
        if self.is_dual:
            families = [4, 16]
        else:
            yield more[2:] and more[2] not in ("v4", "v6") and "word"
            families = [None, 16 if more[2:3] == ["v6"] else 4]
        for text, length in zip(more[2:], families):
            yield length and not address_in(text, (length,)) and "address"

    def call_reasons(self, more, length):
        what = more[0] if more else None
        yield what is None and "count"
        yield what is not None and what not in CALLS and "word"
        if what not in CALLS:
            return
        is_list = what in ("open", "change")
        yield (len(more) < CALLS[what] or len(more) > CALLS[what] and not is_list) and "count"
        yield more[1:] and not is_name(more[1]) and "name"
        if is_list:
            yield more[CALLS[what] - 1:] and more[CALLS[what] - 1] not in ("include", "exclude") and "mode"
            yield any(not address_in(it, (length,)) for it in more[CALLS[what]:]) and "address"
        if what == "open" and more[2:]:
            group = address_in(more[2], (length,))
            yield not (group and is_forwardable(group)) and "group"

    def keep(self, words):
        if words[0] == "set":
            key, text = words[1:]
            self.given.add(key)
            if key in RANGES:
                self.numbers[key] = int(text)
            elif key == "secret":
                self.secret = bytes.fromhex(text)
            elif key == "linux_gateways":
                self.is_for_linux = text == "true"
            else:
                self.addresses[key] = address_in(text)
        elif words[0] == "gateway":
            self.gateways.append((words[1], peer_in(words[2]), self.machines(words[3:])))
        else:
            self.events.append(words)

    def machines(self, more):
        """What a part says of the family, whether it is v6, the source and the first nonce, of each machine."""
        if self.is_dual:
            return [(["v4"], False, address_in(more[0]), 1), (["v6"], True, address_in(more[1]), 0x80000001)]
        return [([], more[0] == "v6", address_in(more[1]), 1)]


def replay(kind, octets):
    """The status, the output and the line on standard error."""
    try:
        script = Script(kind, octets)
    except Refused as fault:
        return 3, "", f"amt: {fault}\n"
    ends = Ends(script)
    lines = [line for words in script.events for line in ends.take(words)]
    return 0, "".join(f"{it}\n" for it in [*lines, f". {ends.number}"]), ""
