"""What the tests of amt-feed, amt-deliver and amt-join have in common: a LAN, the tools, packets, hosts. It is no command.

Each tool runs in one network namespace, and the hosts and sources of its LAN in another, with a veth pair between them. The
relay's feed and the gateway's control are sockets of the tests.
"""
import contextlib
import os
import pathlib
import selectors
import signal
import socket
import struct
import subprocess
import sys
import time

from loopback import Failed, bound, expect, ipv4
from namespaces import inside, ip

HERE = pathlib.Path(__file__).resolve().parent
DEVICE, NEAR_IP, FAR_IP, NEAR_IP6, FAR_IP6 = "lan0", "198.51.100.1", "198.51.100.2", "2001:db8:3::1", "2001:db8:3::2"
GROUP, OTHER, GROUP6 = "233.252.0.1", "233.252.0.2", "ff3e::8000:1"
SOURCE, SOURCE2, SOURCE6, SOURCE7 = "203.0.113.5", "203.0.113.6", "2001:db8:1::5", "2001:db8:1::6"
FEED, DELIVER, CONTROL, PORT = 9000, 9001, 9002, 5004
NOBODY = 65534
SOL_PACKET, PACKET_ADD_MEMBERSHIP, PACKET_MR_ALLMULTI = 263, 1, 2
MCAST_JOIN_GROUP, MCAST_BLOCK_SOURCE, MCAST_JOIN_SOURCE_GROUP = 42, 43, 46
# A Python that other users may run, too.
PYTHON = "/usr/bin/python3" if os.access("/usr/bin/python3", os.X_OK) else sys.executable
# How long something may take that comes at once. The machine may be busy.
SOON_S = 6.0
TESTS = []


def test(function):
    TESTS.append(function)
    return function


# Namespaces

class Lan:
    """Two namespaces with a link between them, and a folder that everybody may read with the tools."""

    def __init__(self, folder):
        self.folder, self.near, self.far = folder, *(f"amt-{part}-{os.getpid()}" for part in ("near", "far"))

    def make(self):
        for name in (self.near, self.far):
            ip("netns", "add", name)
            ip("-n", name, "link", "set", "lo", "up")
            # A link-local address counts at once, and the sources of packets are elsewhere.
            self.write(name, "ipv6/conf/default/accept_dad", "0")
            for which in ("all", "default"):
                self.write(name, f"ipv4/conf/{which}/rp_filter", "0")
        self.link()

    def link(self):
        ip("-n", self.near, "link", "add", DEVICE, "type", "veth", "peer", "name", DEVICE, "netns", self.far)
        for name, addresses in ((self.near, (NEAR_IP + "/24", NEAR_IP6 + "/64")), (self.far, (FAR_IP + "/24", FAR_IP6 + "/64"))):
            for it in addresses:
                ip("-n", name, "addr", "add", it, "dev", DEVICE)
            ip("-n", name, "link", "set", DEVICE, "up")

    def unlink(self):
        ip("-n", self.near, "link", "del", DEVICE)

    def write(self, name, what, text):
        with inside(name):
            pathlib.Path(f"/proc/sys/net/{what}").write_text(text, encoding="ascii")

    def remove(self):
        for name in (self.near, self.far):
            subprocess.run(["ip", "netns", "del", name], check=False, stderr=subprocess.DEVNULL)


def sockets_in(name, make):
    with inside(name):
        return make()


# The tools

class Tool:
    """A tool that runs in the near namespace, and what it prints."""

    def __init__(self, lan, name, words, prefix=(), **how):
        command = [*prefix, PYTHON, f"{lan.folder}/{name}", *map(str, words)]
        with inside(lan.near):
            self.process = subprocess.Popen(command, stdout=subprocess.PIPE, stderr=subprocess.PIPE, stdin=subprocess.DEVNULL,
                                            cwd="/", **how)
        self.lines, self.rest = [], b""
        os.set_blocking(self.process.stdout.fileno(), False)
        self.waiting = selectors.DefaultSelector()
        self.waiting.register(self.process.stdout, selectors.EVENT_READ)

    def read(self, wait_s):
        """Takes what it printed meanwhile; whether anything came."""
        if not self.waiting.select(wait_s):
            return False
        octets = self.process.stdout.read()
        *lines, self.rest = (self.rest + (octets or b"")).split(b"\n")
        self.lines += [it.decode() for it in lines]
        return bool(octets)

    def ready(self):
        until = time.monotonic() + 20
        while not any(it.startswith("ready") for it in self.lines):
            if not self.read(0.2) and (self.process.poll() is not None or time.monotonic() > until):
                raise Failed(f"it isn't ready: {self.process.stderr.read().decode().strip()}")
        return self

    def end(self, number=signal.SIGTERM):
        """Its status and errors after a signal."""
        self.process.send_signal(number)
        return self.ended()

    def ended(self):
        """Its status and errors, once it ends by itself."""
        try:
            out, err = self.process.communicate(timeout=20)
        except subprocess.TimeoutExpired:
            self.kill()
            raise Failed("it goes on") from None
        self.lines += (self.rest + out).decode().splitlines()
        return self.process.returncode, err.decode().splitlines()

    def counts(self):
        """The counts of the last line, by their names."""
        fields = self.lines[-1].split()
        return dict(zip(fields[::2], map(int, fields[1::2])))

    def kill(self):
        if self.process.poll() is None:
            self.process.kill()
            self.process.wait()


@contextlib.contextmanager
def running(lan, name, *words, **how):
    made = Tool(lan, name, words, **how)
    try:
        yield made.ready()
    finally:
        made.kill()


def feeding(lan, *words, **how):
    return running(lan, "amt-feed", "--interface", DEVICE, "--to", f"127.0.0.1:{FEED}", *words, **how)


def delivering(lan, *words):
    return running(lan, "amt-deliver", "--listen", f"127.0.0.1:{DELIVER}", *(words or ("--interface", DEVICE)))


def joining(lan, family, *words):
    return running(lan, "amt-join", "--interface", DEVICE, "--family", family, "--control", f"127.0.0.1:{CONTROL}", *words)


def finish(tool, **wanted):
    """It ends by SIGTERM with 0, nothing on its standard error, and these counts."""
    status, errors = tool.end()
    expect(status == 0 and not errors, f"status {status}, {errors}")
    counts = tool.counts()
    expect(all(counts.get(name) == count for name, count in wanted.items()), f"counts {counts}, wanted {wanted}")
    return counts


# Packets, sources and hosts

def sound(octets):
    """The checksum that the octets want."""
    return struct.pack("!H", 0xFFFF - int.from_bytes(octets + bytes(len(octets) % 2), "big") % 0xFFFF)


def packed(address):
    return socket.inet_pton(socket.AF_INET6 if ":" in address else socket.AF_INET, address)


def udp(source, group, text, ttl=8):
    """A packet with a UDP datagram and its checksum, of the family of its addresses."""
    head = struct.pack("!HHHH", PORT, PORT, 8 + len(text), 0)
    pseudo = packed(source) + packed(group) + struct.pack("!II", 8 + len(text), 17)
    datagram = head[:6] + sound(pseudo + head + text) + text
    return ipv6(17, ttl, source, group, datagram) if ":" in group else ipv4(17, ttl, source, group, datagram)


def ipv6(following, hop_limit, source, group, payload):
    return struct.pack("!IHBB", 6 << 28, len(payload), following, hop_limit) + packed(source) + packed(group) + payload


def link_address(group):
    octets = packed(group)
    return b"\x33\x33" + octets[12:] if len(octets) == 16 else bytes([1, 0, 0x5E, octets[1] & 0x7F]) + octets[2:]


class Wire:
    """The far end of the link, where frames are sent and all are seen."""

    def __init__(self, lan):
        with inside(lan.far):
            self.socket = socket.socket(socket.AF_PACKET, socket.SOCK_RAW, socket.htons(3))
            self.socket.bind((DEVICE, 3))
            index = struct.pack("iHH8x", socket.if_nametoindex(DEVICE), PACKET_MR_ALLMULTI, 0)
        self.socket.setsockopt(SOL_PACKET, PACKET_ADD_MEMBERSHIP, index)
        self.socket.setsockopt(socket.SOL_SOCKET, socket.SO_RCVBUF, 4 << 20)

    def send(self, packet, link=b"\2\0\0\0\0\2", to=None):
        """A packet in a frame from this link address."""
        group = packet[24:40] if packet[0] >> 4 == 6 else packet[16:20]
        to = to or link_address(socket.inet_ntop(socket.AF_INET6 if len(group) == 16 else socket.AF_INET, group))
        self.socket.send(to + link + (b"\x86\xdd" if len(group) == 16 else b"\x08\0") + packet)

    def frames(self, wait_s, enough=lambda frame: False):
        """The frames that came in until one is enough, or until the time is over."""
        found, until = [], time.monotonic() + wait_s
        while (left := until - time.monotonic()) > 0:
            self.socket.settimeout(left)
            try:
                frame, where = self.socket.recvfrom(65535)
            except TimeoutError:
                break
            if where[2] != socket.PACKET_OUTGOING:
                found.append(frame)
                if enough(frame):
                    break
        return found

    def close(self):
        self.socket.close()


def socket_address(address):
    octets = packed(address)
    if len(octets) == 4:
        return struct.pack("=HH4s120x", socket.AF_INET, 0, octets)
    return struct.pack("=HHI16sI100x", socket.AF_INET6, 0, 0, octets, 0)


class Host:
    """A socket of a host, which joins by its kernel."""

    def __init__(self, lan, group, source=None, where=None, device=DEVICE):
        self.group, self.where = group, where or lan.far
        self.v6 = ":" in group
        with inside(self.where):
            self.socket = socket.socket(socket.AF_INET6 if self.v6 else socket.AF_INET, socket.SOCK_DGRAM)
            self.socket.setsockopt(socket.SOL_SOCKET, socket.SO_REUSEADDR, 1)
            self.socket.bind((group, PORT))
            self.index = socket.if_nametoindex(device)
        self.option(MCAST_JOIN_SOURCE_GROUP if source else MCAST_JOIN_GROUP, source)

    def option(self, number, source=None):
        """A membership option of this group, and a source of it where there is one."""
        request = struct.pack("I0P", self.index) + socket_address(self.group)
        level = socket.IPPROTO_IPV6 if self.v6 else socket.IPPROTO_IP
        with inside(self.where):
            self.socket.setsockopt(level, number, request + (socket_address(source) if source else b""))

    def receive(self, count, wait_s=SOON_S):
        """What comes, until this number came or the time is over."""
        return receive(self.socket, count, wait_s)

    def close(self):
        with inside(self.where):
            self.socket.close()


def receive(from_socket, count, wait_s=SOON_S):
    found, until = [], time.monotonic() + wait_s
    while len(found) < count and (left := until - time.monotonic()) > 0:
        from_socket.settimeout(left)
        try:
            found.append(from_socket.recv(65535))
        except TimeoutError:
            break
    return found


def nothing_more(from_socket, wait_s=0.4):
    found = receive(from_socket, 1, wait_s)
    expect(not found, f"something came: {found}")


def sending(where, group, ttl=8, device=DEVICE):
    """A sender's socket, as any program has one."""
    with inside(where):
        made = socket.socket(socket.AF_INET6 if ":" in group else socket.AF_INET, socket.SOCK_DGRAM)
        index = socket.if_nametoindex(device)
    if ":" in group:
        made.setsockopt(socket.IPPROTO_IPV6, socket.IPV6_MULTICAST_HOPS, ttl)
        made.setsockopt(socket.IPPROTO_IPV6, socket.IPV6_MULTICAST_IF, index)
    else:
        made.setsockopt(socket.IPPROTO_IP, socket.IP_MULTICAST_TTL, ttl)
        made.setsockopt(socket.IPPROTO_IP, socket.IP_MULTICAST_IF, struct.pack("4s4si", bytes(4), bytes(4), index))
    return made


def expect_sound(packet):
    """Its UDP checksum is right, and that of its IPv4 header."""
    if packet[0] >> 4 == 4:
        expect(int.from_bytes(packet[:20], "big") % 0xFFFF == 0, "the checksum of the header is wrong")
        pseudo, datagram = packet[12:20], packet[20:]
    else:
        pseudo, datagram = packet[8:40], packet[40:]
    summed = pseudo + struct.pack("!II", len(datagram), 17) + datagram + bytes(len(datagram) % 2)
    expect(int.from_bytes(summed, "big") % 0xFFFF == 0, "the checksum of UDP is wrong")


# Reports of hosts, by hand

def records(made, width):
    """Group records (kind, group, sources)."""
    octets = b""
    for kind, group, sources in made:
        octets += struct.pack("!BBH", kind, 0, len(sources)) + packed(group) + b"".join(map(packed, sources))
    return octets


def igmp(host, to, body, ttl=1):
    return ipv4(2, ttl, host, to, body[:2] + sound(body) + body[4:], bytes.fromhex("94040000"))


def report3(host, made, ttl=1):
    """A report of IGMPv3."""
    return igmp(host, "224.0.0.22", struct.pack("!BBHHH", 0x22, 0, 0, 0, len(made)) + records(made, 4), ttl)


def mld(host, to, body):
    pseudo = packed(host) + packed(to) + struct.pack("!II", len(body), 58)
    return ipv6(0, 1, host, to, bytes([58, 0, 5, 2, 0, 0, 1, 0]) + body[:2] + sound(pseudo + body) + body[4:])


def report6(host, made):
    """A report of MLDv2."""
    return mld(host, "ff02::16", struct.pack("!BBHHH", 0x8F, 0, 0, 0, len(made)) + records(made, 16))


def hears(control, *wanted, wait_s=SOON_S):
    """These lines come next at the gateway's control."""
    heard = [it.decode() for it in receive(control, len(wanted), wait_s)]
    expect(heard == list(wanted), f"heard {heard}, wanted {list(wanted)}")


@contextlib.contextmanager
def control_of(lan):
    with sockets_in(lan.near, lambda: bound("127.0.0.1", CONTROL)) as made:
        yield made


@contextlib.contextmanager
def feed_of(lan):
    with sockets_in(lan.near, lambda: bound("127.0.0.1", FEED)) as made:
        made.setsockopt(socket.SOL_SOCKET, socket.SO_RCVBUF, 4 << 20)
        yield made


@contextlib.contextmanager
def wire_of(lan):
    made = Wire(lan)
    try:
        yield made
    finally:
        made.close()
