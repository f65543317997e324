"""Judges `amt dns` and `amt pcap` by plain models over random octets.

usage: tools/plain-octets.sh AMT [INPUTS [SEED]]

The models were written from RFC 1035, RFC 8777, the format of libpcap and docs/FORMATS.md, and not from the program.
Inputs are lawful ones, and such ones with some octets changed, cut or put in. What the program writes, its status and
its line have to be those of the model, to the octet. The script of a capture has to be one that `amt replay relay`
reads, and its lines ones that `amt dump` reads. It prints the first input that differs, as hexadecimal digits, and ends
with 1 then.
"""
import ipaddress
import random
import subprocess
import sys

AMT = sys.argv[1]
INPUTS = int(sys.argv[2]) if len(sys.argv) > 2 else 300
CHANCE = random.Random(int(sys.argv[3]) if len(sys.argv) > 3 else 1)

SOURCE, RELAY = "198.51.100.9", "192.0.2.1"
NAME = [b"9", b"100", b"51", b"198", b"in-addr", b"arpa"]


class Fault(Exception):
    pass


def number(octets, at, size, order="big"):
    return int.from_bytes(octets[at : at + size], order)


def wire(labels):
    return b"".join(bytes([len(it)]) + it for it in labels) + b"\0"


def name_at(octets, at):
    """The labels of the name at a place, and the place after it; nothing where none stands."""
    labels, start, place, end = [], at, at, None
    while place < len(octets):
        count = octets[place]
        if count == 0:
            return (labels, end or place + 1) if len(wire(labels)) <= 255 else None
        if count < 64:
            label = octets[place + 1 : place + 1 + count]
            if len(label) < count:
                return None
            labels, place = [*labels, label], place + 1 + count
            if len(wire(labels)) > 255:
                return None
        elif count >= 192 and place + 2 <= len(octets):
            to = number(octets, place, 2) % 2**14
            if to >= start:
                return None
            end, start, place = end or place + 2, to, to
        else:
            return None
    return None


def must(octets, at):
    read = name_at(octets, at)
    if read is None:
        raise Fault(f"name {at}")
    return read


def relay_of(octets, begin, end, index):
    if end - begin < 2:
        raise Fault(f"data {index}")
    kind, at = octets[begin + 1] % 128, begin + 2
    sizes = {0: 0, 1: 4, 2: 16}
    if kind > 3:
        return None
    if kind == 3:
        labels, last = must(octets, at)
        if last != end:
            raise Fault(f"data {index}")
        text = "name " + wire(labels).hex()
    else:
        if end - at != sizes[kind]:
            raise Fault(f"data {index}")
        text = "none" if kind == 0 else str(ipaddress.ip_address(octets[at:end]))
    return octets[begin], octets[begin + 1] // 128, text


def answer(octets):
    if len(octets) < 12:
        raise Fault(f"short 12 {len(octets)}")
    flags = number(octets, 2, 2)
    for wrong, fault in [
        (number(octets, 0, 2) != 0, f"id 0 {number(octets, 0, 2)}"),
        (flags < 2**15, "notanswer"),
        (flags // 2**9 % 2 == 1, "truncated"),
        (flags % 16 != 0, f"code {flags % 16}"),
        (number(octets, 4, 2) != 1, f"questions {number(octets, 4, 2)}"),
    ]:
        if wrong:
            raise Fault(fault)
    labels, at = must(octets, 12)
    asks = [it.lower() for it in labels] == NAME and octets[at : at + 4] == b"\x01\x04\0\x01"
    if not asks:
        raise Fault("question")
    found, at = [], at + 4
    for index in range(number(octets, 6, 2)):
        _, fields = must(octets, at)
        begin = fields + 10
        end = begin + number(octets, fields + 8, 2)
        if begin > len(octets) or end > len(octets):
            raise Fault(f"record {index}")
        if octets[fields : fields + 4] == b"\x01\x04\0\x01":
            found += [it for it in [relay_of(octets, begin, end, index)] if it]
        at = end
    return found


def told(octets):
    query = b"\0\0\1\0\0\1" + bytes(6) + wire(NAME) + b"\x01\x04\0\x01"
    found = answer(octets)
    lines = [f"query {query.hex()}", *(f"record {p} {d} {relay}" for p, d, relay in found)]
    chosen = min(found, key=lambda it: it[0], default=None)
    lines.append(f"choose {chosen[1]} {chosen[2]}" if chosen else "choose nothing")
    return "".join(it + "\n" for it in lines)


def packet_of(link, captured, original):
    if len(captured) < original:
        raise Fault("cut")
    if link == 1:
        at = 12
        while captured[at : at + 2] in (b"\x81\0", b"\x88\xa8") and at < 20:
            at += 4
        if captured[at : at + 2] not in (b"\x08\0", b"\x86\xdd"):
            raise Fault("frame")
        captured = captured[at + 2 :]
    version = captured[0] // 16 if captured else 0
    least = {4: 20, 6: 40}.get(version)
    if least is None or len(captured) < least:
        raise Fault("ip")
    size = number(captured, 2, 2) if version == 4 else 40 + number(captured, 4, 2)
    if size < 20 or size > len(captured) or size > 65535:
        raise Fault("ip")
    return captured[:size]


def ends(packet):
    places = (12, 16, 20) if packet[0] // 16 == 4 else (8, 24, 40)
    return [str(ipaddress.ip_address(packet[a:b])) for a, b in zip(places, places[1:])]


def udp_in(packet):
    if packet[0] // 16 == 4:
        at = packet[0] % 16 * 4
        fits = packet[9] == 17 and number(packet, 6, 2) % 2**14 == 0 and at >= 20
    else:
        at, fits = 40, packet[6] == 17
    size = number(packet, at + 4, 2)
    if not fits or len(packet) < at + 8 or size < 8 or size > len(packet) - at:
        return None
    return number(packet, at, 2), number(packet, at + 2, 2), packet[at + 8 : at + size]


def is_forwarded(address):
    ip = ipaddress.ip_address(address)
    if ip.version == 4:
        return ip.is_multicast and not address.startswith("224.0.0.")
    return ip.is_multicast and ip.packed[1] % 16 > 2


def lines_of(index, at, captured, packet):
    source, destination = ends(packet)
    udp = udp_in(packet)
    if udp and destination == RELAY and udp[1] == 2268:
        peer = source if ":" not in source else f"[{source}]"
        return [f"at {at}", f"dg {peer}:{udp[0]} {udp[2].hex() or '-'}"]
    if is_forwarded(destination):
        return [f"at {at}", f"mc {packet.hex()}"]
    return [f"# {index} other"]


def captured(octets):
    """The script and the lines of a capture."""
    if len(octets) < 24:
        raise Fault("short")
    formats = {0xA1B2C3D4: ("big", 1000), 0xA1B23C4D: ("big", 10**6), 0xD4C3B2A1: ("little", 1000), 0x4D3CB2A1: ("little", 10**6)}
    if number(octets, 0, 4) not in formats:
        raise Fault("magic")
    order, units = formats[number(octets, 0, 4)]
    if (number(octets, 4, 2, order), number(octets, 6, 2, order)) != (2, 4):
        raise Fault("version")
    link = number(octets, 20, 4, order) % 2**16
    if link not in (1, 101):
        raise Fault("linktype")
    script, lines, place, index = [f"set relay {RELAY}"], [], 24, 0
    while place + 16 <= len(octets):
        seconds, fraction, size, original = (number(octets, place + at, 4, order) for at in (0, 4, 8, 12))
        if place + 16 + size > len(octets):
            break
        index += 1
        try:
            packet = packet_of(link, octets[place + 16 : place + 16 + size], original)
            script += lines_of(index, seconds * 1000 + fraction // units, octets, packet)
            udp = udp_in(packet)
            if udp and 2268 in udp[:2]:
                lines.append(udp[2].hex() or "-")
        except Fault as fault:
            script.append(f"# {index} {fault}")
        place += 16 + size
    if place < len(octets):
        script.append(f"# tail {len(octets) - place}")
    return tuple("".join(it + "\n" for it in text) for text in (script, lines))


def spoiled(octets):
    octets = bytearray(octets)
    for _ in range(CHANCE.choice([0, 0, 1, 1, 2, 4])):
        at = CHANCE.randrange(len(octets) + 1)
        what = CHANCE.randrange(4)
        if what == 0 and at < len(octets):
            octets[at] = CHANCE.choice([0, 1, 3, 63, 64, 128, 192, CHANCE.randrange(256)])
        elif what == 1:
            octets[at:at] = CHANCE.randbytes(CHANCE.randrange(4))
        elif what == 2 and at < len(octets):
            octets[at] ^= 1 << CHANCE.randrange(8)
        elif CHANCE.random() < 0.4:
            del octets[at:]
    return bytes(octets)


def some_answer():
    question = wire([it.upper() if CHANCE.random() < 0.2 else it for it in NAME])
    octets = bytearray(b"\0\0\x81\x80\0\1" + bytes(6) + question + b"\x01\x04\0\x01")
    count = CHANCE.randrange(6)
    for _ in range(count):
        places = [12, 14, 18, len(octets) - 1, len(octets) - 4, CHANCE.randrange(len(octets))]
        owner = (0xC000 | CHANCE.choice(places)).to_bytes(2, "big")
        owner = CHANCE.choice([owner, b"\xc0\x0c", b"\xc0\x0c", b"\1a" + owner, b"\0"])
        kind = CHANCE.choice([0, 1, 1, 2, 3, 3, 4, 127])
        relay = {0: b"", 1: CHANCE.randbytes(4), 2: CHANCE.randbytes(16), 3: CHANCE.choice([owner, wire([b"r", b"example"])])}.get(kind, b"x")
        data = bytes([CHANCE.randrange(4), kind | CHANCE.choice([0, 128])]) + relay
        fields = CHANCE.choice([b"\x01\x04\0\1"] * 6 + [b"\0\1\0\1", b"\x01\x04\0\3"])
        octets += owner + fields + bytes(4) + len(data).to_bytes(2, "big") + data
    octets[6:8] = max(0, count + CHANCE.choice([0, 0, 0, 0, -1, 1])).to_bytes(2, "big")
    return spoiled(octets)


def some_packet():
    four = CHANCE.random() < 0.6
    text = CHANCE.choice([RELAY, RELAY, "239.1.1.1", "224.0.0.5", "198.51.100.7"] if four else ["2001:db8::1", "ff3e::1", "ff02::1", "::ffff:192.0.2.1"])
    source = ipaddress.ip_address(CHANCE.choice(["198.51.100.7", RELAY]) if four else "2001:db8::7").packed
    ports = [CHANCE.choice([2268, 5000]) for _ in range(2)]
    payload = CHANCE.randbytes(CHANCE.randrange(12))
    body = b"".join(it.to_bytes(2, "big") for it in [*ports, 8 + len(payload), 0]) + payload
    to = ipaddress.ip_address(text).packed
    if four:
        options = bytes(CHANCE.choice([0, 0, 4]))
        size = 20 + len(options) + len(body)
        head = bytes([0x40 | (20 + len(options)) // 4, 0]) + size.to_bytes(2, "big") + bytes(2) + CHANCE.choice([b"\0\0", b"\x40\0", b"\x20\0"])
        return head + bytes([64, CHANCE.choice([17, 17, 17, 6]), 0, 0]) + source + to + options + body
    return b"\x60\0\0\0" + len(body).to_bytes(2, "big") + bytes([CHANCE.choice([17, 17, 0]), 64]) + source + to + body


def some_capture():
    order = CHANCE.choice(["big", "little"])
    magic = CHANCE.choice([0xA1B2C3D4, 0xA1B23C4D])
    link = CHANCE.choice([1, 101])
    put = lambda it, size=4: it.to_bytes(size, order)
    octets = put(magic) + put(2, 2) + put(4, 2) + bytes(12) + put(link)
    for _ in range(CHANCE.randrange(6)):
        captured_octets = some_packet()
        if link == 1:
            tags = CHANCE.choice([b"", b"", b"\x81\0\0\7", b"\x88\xa8\0\7\x81\0\0\7"])
            captured_octets = bytes(12) + tags + CHANCE.choice([b"\x08\0", b"\x86\xdd", b"\x08\6"]) + captured_octets + bytes(CHANCE.choice([0, 6]))
        captured_octets = spoiled(captured_octets) if CHANCE.random() < 0.3 else captured_octets
        original = len(captured_octets) + CHANCE.choice([0, 0, 0, 0, 1, -1])
        octets += put(CHANCE.randrange(100)) + put(CHANCE.randrange(2 * 10**6)) + put(len(captured_octets)) + put(max(0, original)) + captured_octets
    return spoiled(octets)


def run(arguments, given):
    ran = subprocess.run([AMT, *arguments], input=given, capture_output=True, timeout=60)
    return ran.returncode, ran.stdout.decode(), ran.stderr.decode()


def wanted(prefix, make):
    try:
        return 0, make(), ""
    except Fault as fault:
        return 3, "", f"amt: {prefix}: {fault}\n"


def differs(arguments, given, want, octets):
    have = run(arguments, given)
    if have != want:
        print(f"amt {' '.join(arguments)} of {octets.hex()}\nwanted {want}\nhave   {have}")
    return have != want


def try_capture(octets):
    script = wanted("capture", lambda: captured(octets)[0])
    lines = wanted("capture", lambda: captured(octets)[1])
    if differs(["pcap", RELAY], octets, script, octets) or differs(["pcap"], octets, lines, octets):
        return False
    if script[0] == 0:
        for command, text in [(["replay", "relay"], script[1]), (["dump"], lines[1])]:
            if run(command, text.encode())[0] != 0:
                print(f"amt {' '.join(command)} refuses what amt pcap wrote of {octets.hex()}")
                return False
    return True


def main():
    for _ in range(INPUTS):
        octets = some_answer()
        text = (octets.hex() or "-").encode() + b"\n"
        if differs(["dns", SOURCE], text, wanted("dns", lambda: told(octets)), octets):
            return 1
        if not try_capture(some_capture()):
            return 1
    many = bytearray(bytes.fromhex("d4c3b2a102000400") + bytes(12) + b"e\0\0\0")
    packet = bytes.fromhex("450000240000000040118e8dc6336407c0000201138808dc001000000100000001020304")
    for index in range(100000):
        many += b"".join(it.to_bytes(4, "little") for it in [index // 1000, index % 1000 * 1000, len(packet), len(packet)]) + packet
    if not try_capture(bytes(many)):
        return 1
    print(f"{INPUTS} answers and {INPUTS} captures, and one of 100,000 records, as the models say")
    return 0


sys.exit(main())
