"""A gateway for one session with a running relay, and a source that sends it two packets.

usage: python3 client.py RELAY:PORT FEED:PORT

It discovers the relay, joins a group, gets one packet and tears down, and prints each message. It ends with 1, and the
reason, at the first answer that isn't the expected one. It needs nothing but Python.
"""
import os
import socket
import struct
import sys

SOURCE = "203.0.113.5"
GROUP = "233.252.0.1"
TEXT = b"hello"
# How long an answer is waited for, and how often a message is sent: what goes over UDP may be lost.
PATIENCE_S = 0.25
TRIES = 20


def expect(holds, what):
    if not holds:
        sys.exit(f"client: {what}")


def peer(text):
    host, _, port = text.rpartition(":")
    return host, int(port)


def checksum(octets):
    """The Internet checksum (RFC 1071) of an even number of octets; 0 where theirs is right."""
    total = sum(struct.unpack(f"!{len(octets) // 2}H", octets))
    while total > 0xFFFF:
        total = (total >> 16) + (total & 0xFFFF)
    return 0xFFFF - total


def ipv4(protocol, ttl, source, group, payload, options=b""):
    """An IPv4 datagram (RFC 791, section 3.1)."""
    words = 5 + len(options) // 4
    length = 4 * words + len(payload)
    head = struct.pack("!BBHHHBBH", 0x40 + words, 0, length, 0, 0, ttl, protocol, 0)
    head += socket.inet_aton(source) + socket.inet_aton(group) + options
    return head[:10] + struct.pack("!H", checksum(head)) + head[12:] + payload


def report():
    """An IGMPv3 report (RFC 3376, section 4.2): all sources of the group are wanted. It has the option Router Alert."""
    body = struct.pack("!BBHHH", 0x22, 0, 0, 0, 1) + struct.pack("!BBH", 4, 0, 0) + socket.inet_aton(GROUP)
    body = body[:2] + struct.pack("!H", checksum(body)) + body[4:]
    return ipv4(2, 1, "10.0.0.2", "224.0.0.22", body, bytes.fromhex("94040000"))


def packet(text):
    """What the multicast network carries: a UDP datagram to the group, without a checksum."""
    return ipv4(17, 8, SOURCE, GROUP, struct.pack("!HHHH", 5004, 5004, 8 + len(text), 0) + text)


class Tunnel:
    """The gateway's end: a socket, and where the relay is."""

    def __init__(self, relay):
        self.relay = relay
        self.socket = socket.socket(socket.AF_INET, socket.SOCK_DGRAM)
        self.socket.bind((relay[0], 0))
        self.socket.settimeout(PATIENCE_S)

    def send(self, what, octets):
        print(f"> {what:<13} {octets.hex()}")
        self.socket.sendto(octets, self.relay)

    def receive(self):
        """What the relay sends next, or None where nothing comes."""
        try:
            octets, source = self.socket.recvfrom(65535)
        except socket.timeout:
            return None
        expect(source == self.relay, f"a datagram from {source}, which isn't the relay")
        return octets

    def receive_data(self):
        """The next Multicast Data message, or None. Other messages are late answers to what was sent twice."""
        octets = self.receive()
        while octets is not None and octets[0] != 6:
            octets = self.receive()
        return octets

    def ask(self, what, octets, kind, nonce):
        """Sends until an answer of this type with this nonce comes."""
        for _ in range(TRIES):
            self.send(what, octets + nonce)
            answer = self.receive()
            while answer is not None:
                at = {2: 4, 4: 8}.get(answer[0])
                if answer[0] == kind and answer[at : at + 4] == nonce:
                    return answer
                answer = self.receive()
        return sys.exit(f"client: no answer to a {what}")

    def discover(self):
        """RFC 7450, sections 5.1.1 and 5.1.2: the Advertisement names the relay's address."""
        nonce = os.urandom(4)
        answer = self.ask("Discovery", bytes.fromhex("01000000"), 2, nonce)
        print(f"< Advertisement {answer.hex()}")
        expect(len(answer) == 12 and answer[:4] == bytes.fromhex("02000000"), "no Advertisement of an IPv4 relay")
        self.relay = (socket.inet_ntoa(answer[8:]), self.relay[1])
        print(f"  the relay is {self.relay[0]}")

    def request(self):
        """Sections 5.1.3 and 5.1.4: the Query has a MAC for this endpoint, and says how the relay sees it."""
        nonce = os.urandom(4)
        query = self.ask("Request", bytes.fromhex("03000000"), 4, nonce)
        print(f"< Query         {query.hex()}")
        host, port = self.socket.getsockname()
        own = struct.pack("!H", port) + bytes(12) + socket.inet_aton(host)
        inner = query[12:-18]
        expect(len(query) == 66 and query[1] == 1, "no Query for IGMPv3 with room and the gateway's address")
        expect(query[-18:] == own, "the Query is for another endpoint")
        expect(checksum(inner[:24]) == 0 and checksum(inner[24:]) == 0, "a wrong checksum in the Query")
        expect(inner[24] == 0x11 and inner[28:32] == bytes(4), "the Query carries no General Query")
        return query[2:12], own


def show_packet(copy):
    """The Multicast Data message (section 5.1.6) has to be two octets and the packet, as it was sent."""
    print(f"< Data          {copy.hex()}")
    expect(copy == b"\x06\0" + packet(TEXT), "the copy isn't the packet that was sent")
    source, group = (socket.inet_ntoa(copy[at : at + 4]) for at in (14, 18))
    print(f"  a packet from {source} to {group}: {copy[30:].decode()}")


def main():
    relay, feed = peer(sys.argv[1]), peer(sys.argv[2])
    network = socket.socket(socket.AF_INET, socket.SOCK_DGRAM)
    tunnel = Tunnel(relay)
    tunnel.discover()

    # An Update has no answer. Datagrams are taken in order, so the next Query shows that it was taken.
    proof, own = tunnel.request()
    tunnel.send("Update", b"\x05\0" + proof + report())
    proof, own = tunnel.request()
    print(f"* a packet to {GROUP} for the feed")
    network.sendto(packet(TEXT), feed)
    copy = tunnel.receive_data()
    expect(copy is not None, "no copy came")
    show_packet(copy)

    # A Teardown has none either. Nothing is copied after it.
    tunnel.send("Teardown", b"\x07\0" + proof + own)
    tunnel.request()
    print(f"* another packet to {GROUP}")
    network.sendto(packet(b"goodbye"), feed)
    expect(tunnel.receive_data() is None, "a copy came after the Teardown")
    print("  nothing comes")


main()
