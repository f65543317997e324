"""What the tools that run `amt` over the loopback have in common: messages, settings, processes. It is no command.

A tool has its own addresses of 127.0.0.0/8, so that it disturbs no other run. It needs nothing but Python.
"""
import atexit
import os
import pathlib
import random
import signal
import socket
import struct
import subprocess
import time

HERE = pathlib.Path(__file__).resolve().parent
AMT = str(HERE.parent / "crates" / "amt" / "out" / "amt")
AMT_PORT = 2268
# An idle turn takes at least 2 ms, and one in which something comes may take much less.
TURNS_A_SECOND = 2000
DISCOVERY, ADVERTISEMENT, REQUEST, QUERY, UPDATE, DATA, TEARDOWN = range(1, 8)
# Kinds of group records (RFC 3376, section 4.2.12).
IS_IN, IS_EX, TO_IN, TO_EX, ALLOW, BLOCK = range(1, 7)
HOST = "10.0.0.2"


class Failed(Exception):
    """Something isn't as expected."""


def expect(holds, what):
    if not holds:
        raise Failed(what)


def idle_turn_s(command, settings):
    """How long a relay's idle turn takes here: some 8 ms, and 2 ms where the system ends sleeps on time."""
    began = time.monotonic()
    subprocess.run([*command, "relay", settings, "--turns", "100"], stdout=subprocess.DEVNULL, check=True)
    return (time.monotonic() - began) / 100


def command_of(words):
    """The binary of `amt`: the first of these words, or the one that `rt run` leaves."""
    command = (words[0] if words else AMT).split()
    if not os.access(command[0], os.X_OK):
        raise Failed(f"no binary {command[0]}: `rt run` in crates/amt leaves it at crates/amt/out/amt")
    return command


def checksum(octets):
    """The Internet checksum (RFC 1071)."""
    if len(octets) % 2:
        octets += b"\0"
    total = sum(struct.unpack(f"!{len(octets) // 2}H", octets))
    while total > 0xFFFF:
        total = (total >> 16) + (total & 0xFFFF)
    return 0xFFFF - total


def ipv4(protocol, ttl, source, group, payload, options=b""):
    """An IPv4 datagram (RFC 791, section 3.1)."""
    words = 5 + len(options) // 4
    head = struct.pack("!BBHHHBBH", 0x40 + words, 0, 4 * words + len(payload), 0, 0, ttl, protocol, 0)
    head += socket.inet_aton(source) + socket.inet_aton(group) + options
    return head[:10] + struct.pack("!H", checksum(head)) + head[12:] + payload


def report(records):
    """An IGMPv3 report (RFC 3376, section 4.2) of records (kind, group, sources)."""
    body = struct.pack("!BBHHH", 0x22, 0, 0, 0, len(records))
    for kind, group, sources in records:
        body += struct.pack("!BBH", kind, 0, len(sources)) + socket.inet_aton(group)
        body += b"".join(map(socket.inet_aton, sources))
    body = body[:2] + struct.pack("!H", checksum(body)) + body[4:]
    return ipv4(2, 1, HOST, "224.0.0.22", body, bytes.fromhex("94040000"))


def packet(source, group, text):
    """What the multicast network carries: a UDP datagram to the group, without a checksum."""
    return ipv4(17, 8, source, group, struct.pack("!HHHH", 5004, 5004, 8 + len(text), 0) + text)


def text_of(octets):
    """Source, group and text of such a packet."""
    return socket.inet_ntoa(octets[12:16]), socket.inet_ntoa(octets[16:20]), octets[28:]


def request(nonce):
    return struct.pack("!BBHI", REQUEST, 0, 0, nonce)


def bound(address, port=0, wait_s=2.0):
    """A UDP socket at this address."""
    made = socket.socket(socket.AF_INET, socket.SOCK_DGRAM)
    made.bind((address, port))
    made.settimeout(wait_s)
    return made


def is_bound(address, port):
    """Whether something listens there, by the system's own list."""
    wanted = f"{struct.unpack('=I', socket.inet_aton(address))[0]:08X}:{port:04X} "
    return wanted in pathlib.Path("/proc/net/udp").read_text(encoding="ascii")


class Endpoint:
    """A tunnel endpoint with no state machine: it asks for a MAC, and reports by it."""

    def __init__(self, address, relay, port=0):
        self.relay = relay
        self.socket = bound(address, port)
        self.proof = None

    def ask(self, tries=10):
        """A Request, until its Query comes; what the Query proves."""
        nonce = random.getrandbits(32)
        for _ in range(tries):
            self.socket.sendto(request(nonce), self.relay)
            answer = self.receive(QUERY)
            while answer is not None and answer[8:12] != struct.pack("!I", nonce):
                answer = self.receive(QUERY)
            if answer is not None:
                self.proof = answer[2:12]
                return
        raise Failed("no Query came")

    def update(self, records):
        self.socket.sendto(struct.pack("!BB", UPDATE, 0) + self.proof + report(records), self.relay)

    def settle(self):
        """Datagrams are taken in order: after the Query of another Request an Update before it has been taken. The
        next packet to the feed is judged after that."""
        self.ask()

    def receive(self, kind):
        """The next message of this type, or None where none comes."""
        while True:
            try:
                octets = self.socket.recv(65535)
            except (socket.timeout, BlockingIOError):
                return None
            if octets and octets[0] == kind:
                return octets


def write_settings(path, settings):
    """A settings file of texts, numbers and booleans."""
    lines = [f'{key} = "{value}"' if isinstance(value, str) else f"{key} = {str(value).lower()}" for key, value in settings.items()]
    pathlib.Path(path).write_text("\n".join(lines) + "\n", encoding="ascii")
    return str(path)


def counts_of(text):
    """A report's counts by their names, as text: `end` is a word."""
    return dict(line.split() for line in text.splitlines())


# The ends that were started.
STARTED = []


class End:
    """An end that runs, and its output."""

    def __init__(self, words, address, ports, **how):
        how = {"stdout": subprocess.PIPE, "stderr": subprocess.PIPE, "stdin": subprocess.DEVNULL, **how}
        self.process = subprocess.Popen(words, text=True, **how)
        STARTED.append(self)
        until = time.monotonic() + 20
        while not all(is_bound(address, port) for port in ports):
            if self.process.poll() is not None or time.monotonic() > until:
                self.stop()
                said = self.process.communicate()[1]
                raise Failed(f"{' '.join(words)} doesn't listen: status {self.process.returncode}, {said}")
            time.sleep(0.01)

    def memory_kb(self):
        """What is resident of it, by VmRSS."""
        for line in pathlib.Path(f"/proc/{self.process.pid}/status").read_text().splitlines():
            if line.startswith("VmRSS:"):
                return int(line.split()[1])
        raise Failed("it has ended")

    def processor_s(self):
        fields = pathlib.Path(f"/proc/{self.process.pid}/stat").read_text().rpartition(")")[2].split()
        return (int(fields[11]) + int(fields[12])) / os.sysconf("SC_CLK_TCK")

    def wait(self, seconds):
        """Its status, output and errors, once its turns are done."""
        try:
            out, err = self.process.communicate(timeout=seconds)
        except subprocess.TimeoutExpired:
            self.stop()
            raise Failed(f"it goes on for more than {seconds} s") from None
        return self.process.returncode, out or "", err or ""

    def stop(self):
        if self.process.poll() is None:
            self.process.send_signal(signal.SIGKILL)
            self.process.wait()


def stop_all():
    """Ends those that still run."""
    while STARTED:
        STARTED.pop().stop()


def ended_by_signal(_number, _frame):
    """Nothing that was started outlives this program."""
    raise SystemExit(1)


atexit.register(stop_all)
signal.signal(signal.SIGTERM, ended_by_signal)
signal.signal(signal.SIGHUP, ended_by_signal)
