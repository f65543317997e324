"""What the tools that run a relay over network namespaces have in common. It is no command.

A relay runs in one namespace, its members in another, with a veth pair between them. They need root, and no namespace is
left. The addresses are those of RFC 2544's benchmarks, and reach nothing outside the two.
"""
import contextlib
import ctypes
import os
import pathlib
import random
import signal
import statistics
import struct
import subprocess
import time

import loopback
from loopback import AMT_PORT, DATA, IS_EX, QUERY, Endpoint, bound, expect, packet, request

RELAY, FEED = "198.18.0.1", 9000
LIVE_NET, GONE_NET = "198.18.1", "198.18.2"
GROUP, SOURCE = "239.1.1.1", "203.0.113.5"
DEVICE = "amt0"
PAYLOAD = 1316
CLONE_NEWNET = 0x40000000
# As much as all packets of a run take, so that a member is read when the run is over.
RECEIVE_BUFFER = 64 << 20
SO_RCVBUFFORCE = 33
LIBC = ctypes.CDLL(None, use_errno=True)


def ip(*words):
    ran = subprocess.run(["ip", *words], capture_output=True, text=True)
    expect(ran.returncode == 0, f"ip {' '.join(words)}: {ran.stderr.strip()}")
    return ran.stdout


def enter(path):
    with open(path, "rb") as it:
        expect(LIBC.setns(it.fileno(), CLONE_NEWNET) == 0, f"setns: {os.strerror(ctypes.get_errno())}")


@contextlib.contextmanager
def inside(name):
    """What is made meanwhile is in this namespace."""
    with open("/proc/self/ns/net", "rb") as own:
        enter(f"/run/netns/{name}")
        try:
            yield
        finally:
            LIBC.setns(own.fileno(), CLONE_NEWNET)


@contextlib.contextmanager
def network(waiting=None):
    """The names of two namespaces with a veth pair between them; `waiting` is how many octets may wait for a neighbour's address."""
    relay, hosts = (f"amt-{part}-{os.getpid()}" for part in ("relay", "hosts"))
    made = []
    try:
        for name in (relay, hosts):
            ip("netns", "add", name)
            made.append(name)
            ip("-n", name, "link", "set", "lo", "up")
        ip("-n", relay, "link", "add", DEVICE, "type", "veth", "peer", "name", DEVICE, "netns", hosts)
        ip("-n", relay, "addr", "add", f"{RELAY}/16", "dev", DEVICE)
        ip("-n", hosts, "addr", "add", "198.18.0.2/16", "dev", DEVICE)
        for name in (relay, hosts):
            ip("-n", name, "link", "set", DEVICE, "up")
        for net in (LIVE_NET, GONE_NET):
            ip("-n", hosts, "route", "add", "local", f"{net}.0/24", "dev", DEVICE)
        if waiting:
            with inside(relay):
                pathlib.Path(f"/proc/sys/net/ipv4/neigh/{DEVICE}/unres_qlen_bytes").write_text(str(waiting), encoding="ascii")
        yield relay, hosts
    finally:
        end_all()
        for name in made:
            subprocess.run(["ip", "netns", "del", name], check=False)


def start_relay(command, folder, name, workers):
    """A relay in this namespace, and a socket that sends to its feed."""
    settings = loopback.write_settings(f"{folder}/relay.toml", {
        "relay": RELAY, "listen": f"{RELAY}:{AMT_PORT}", "feed": f"127.0.0.1:{FEED}", "query4": RELAY, "workers": workers})
    with inside(name):
        loopback.End([*command, "relay", settings], RELAY, [AMT_PORT])
        return bound("127.0.0.1")


def member(address):
    """An endpoint that has joined the group."""
    made = Endpoint(address, (RELAY, AMT_PORT))
    made.socket.setsockopt(1, SO_RCVBUFFORCE, RECEIVE_BUFFER)
    made.ask()
    made.update([(IS_EX, GROUP, [])])
    made.settle()
    return made


# The processes that send at a rate, and still may.
SENDING = []


def paced(rate, seconds, send):
    """In a process of its own: `rate` calls a second, evenly. Its status is 0 where they were made in time."""
    child = os.fork()
    if child:
        SENDING.append(child)
        return child
    # (whatever happens here, what the parent has made is the parent's to take away)
    status = 1
    try:
        signal.signal(signal.SIGINT, signal.SIG_IGN)
        signal.signal(signal.SIGTERM, signal.SIG_DFL)
        began = time.monotonic()
        for number in range(rate * seconds):
            early = number / rate - (time.monotonic() - began)
            if early > 0.001:
                time.sleep(early)
            send(number)
        status = 0 if time.monotonic() - began < seconds + 1 else 1
    finally:
        os._exit(status)


def end_all():
    """Ends the relay, and what sends at a rate."""
    loopback.stop_all()
    while SENDING:
        child = SENDING.pop()
        os.kill(child, signal.SIGKILL)
        os.waitpid(child, 0)


def offer(sender, rate, seconds):
    """Numbered packets to the feed."""
    return paced(rate, seconds, lambda number: sender.sendto(
        packet(SOURCE, GROUP, struct.pack("!I", number) + bytes(PAYLOAD - 4)), ("127.0.0.1", FEED)))


def expect_in_time(child, what):
    status = os.waitpid(child, 0)[1]
    SENDING.remove(child)
    expect(status == 0, f"{what} were not sent in time")


def share(endpoint, count):
    """How large a share of `count` numbered packets it got."""
    got = set()
    endpoint.socket.settimeout(0.05)
    while (octets := endpoint.receive(DATA)) is not None:
        got.add(octets[30:34])
    return len(got) / count


def answered_ms(asking):
    """After how long a Request is answered, or None after 2 seconds."""
    nonce, began = random.getrandbits(32), time.monotonic()
    asking.sendto(request(nonce), (RELAY, AMT_PORT))
    while (left := began + 2 - time.monotonic()) > 0:
        asking.settimeout(left)
        try:
            octets = asking.recv(65535)
        except OSError:
            break
        if octets[:1] == bytes([QUERY]) and octets[8:12] == struct.pack("!I", nonce):
            return 1000 * (time.monotonic() - began)
    return None


def ask_for(asking, seconds):
    """A Request each 100 ms, and after how long each was answered."""
    answers, began = [], time.monotonic()
    while time.monotonic() < began + seconds:
        answers.append(answered_ms(asking))
        time.sleep(0.1)
    return answers


def summed_up(answers):
    """How many Requests had no answer, and after how many milliseconds the others did: the median and the worst."""
    times = [it for it in answers if it is not None]
    figures = f"{statistics.median(times):9.1f} {max(times):8.1f}" if times else f"{'-':>9} {'-':>8}"
    return f"{len(answers) - len(times):5} of {len(answers):2} {figures}"
