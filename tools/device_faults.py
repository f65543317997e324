"""Faults of the devices on which `amt relay` and `amt gateway` run, each once: status, line, report, and what goes on.

usage: tools/device-faults.sh [COMMAND]

COMMAND is the binary of `amt`, and crates/amt/out/amt without it. All goes over the loopback, at addresses of its own;
every run of `amt` ends by its turns or is ended. It prints a line for each fault, and ends with 1 where one wasn't
answered as it should be.

Faults that the loopback doesn't have, as a send or a random word that fails, are made by strace, which lets a system
call of a process answer an error: where there is no strace these are skipped, and so are those that want rights or a
compiler that isn't there. Each skipped one is told with its reason.
"""
import os
import pathlib
import shutil
import subprocess
import sys
import tempfile
import time

import loopback
from loopback import AMT_PORT, DATA, IS_EX, End, Endpoint, Failed, bound, counts_of, expect, packet

SHORT = "5"
# As long as an end has to be there: faults are met within a second or two.
LONG_S = 3
# A run takes some seconds at most; a busy machine and a binary with checks have more.
PATIENCE_S = 300
FEED, CONTROL, DELIVER, OTHER = 2269, 2271, 2272, 2270
SOURCE, GROUP = "203.0.113.5", "233.252.0.1"
# An address for documentation (RFC 5737): no machine has it.
FOREIGN = "192.0.2.1"
USAGE = "amt: usage: replay relay|gateway|pair, dump, vectors, load SEED N, relay FILE, gateway FILE\n"


class Skipped(Exception):
    """A fault that can't be made here, and why."""


class Bench:
    """A folder, the binary, and settings of both ends at addresses of this run."""

    def __init__(self, command, folder):
        self.command, self.folder = command, pathlib.Path(folder)
        self.address = f"127.66.{os.getpid() % 255}.1"
        self.relay_peer, self.feed_peer = (self.address, AMT_PORT), (self.address, FEED)
        self.relay_settings = {"relay": self.address, "listen": f"{self.address}:{AMT_PORT}",
                               "feed": f"{self.address}:{FEED}", "query4": self.address, "workers": 1}
        self.gateway_settings = {"family": "v4", "source": loopback.HOST, "listen": f"{self.address}:{OTHER}",
                                 "deliver": f"{self.address}:{DELIVER}", "control": f"{self.address}:{CONTROL}",
                                 "discovery": f"{self.address}:{AMT_PORT}"}
        self.made = 0
        self.idle_turn_s = loopback.idle_turn_s(command, self.file("relay"))

    def turns(self, seconds):
        """So many turns that idle ones take so long."""
        return str(int(seconds / self.idle_turn_s))

    def file(self, kind, **changes):
        settings = dict(self.relay_settings if kind == "relay" else self.gateway_settings, **changes)
        self.made += 1
        return loopback.write_settings(self.folder / f"{kind}{self.made}.toml", settings)

    def words(self, kind, turns=SHORT, **changes):
        return [*self.command, kind, self.file(kind, **changes), "--turns", turns]

    def ended(self, words, **how):
        """Status, output and errors of a run that ends by itself."""
        how = {"stdin": subprocess.DEVNULL, "stdout": subprocess.PIPE, "stderr": subprocess.PIPE, **how}
        ran = subprocess.run(words, text=True, timeout=PATIENCE_S, check=False, **how)
        return ran.returncode, ran.stdout or "", ran.stderr or ""

    def ends_with(self, words, status, line, **how):
        """Such a run ends so, and writes nothing else."""
        have = self.ended(words, **how)
        expect(have == (status, "", line), f"{have}, and not {(status, '', line)}")

    def relay(self, **changes):
        return End(self.words("relay", self.turns(LONG_S), **changes), self.address, [AMT_PORT, FEED])

    def gateway(self, **changes):
        return End(self.words("gateway", self.turns(LONG_S), **changes), self.address, [OTHER, CONTROL])

    def joined(self, host, port=0):
        """An endpoint that wants all of the group, and whose Update has been taken."""
        endpoint = Endpoint(host, self.relay_peer, port)
        endpoint.ask()
        endpoint.update([(IS_EX, GROUP, [])])
        endpoint.settle()
        return endpoint

    def feed(self, octets):
        with bound(self.address) as sender:
            sender.sendto(octets, self.feed_peer)

    def copies(self, endpoint, count, first=0):
        """Packets to the group, one after another, of which each has to come."""
        for number in range(first, first + count):
            self.feed(packet(SOURCE, GROUP, b"%d" % number))
            copy = endpoint.receive(DATA)
            expect(copy is not None and copy[2:] == packet(SOURCE, GROUP, b"%d" % number), "a copy didn't come")

    def done(self, end, **wanted):
        """An end that does all its turns and reports so."""
        status, out, err = end.wait(PATIENCE_S)
        expect((status, err) == (0, ""), f"status {status}, {err!r}")
        counts = counts_of(out)
        for name, count in {"end": "turns", **wanted}.items():
            expect(counts[name] == str(count), f"{name} {counts[name]}, and not {count}")
        return counts


def wants(host_has):
    if not host_has:
        raise Skipped("this machine lets any address be bound")


def is_foreign(address):
    try:
        bound(address).close()
    except OSError:
        return True
    return False


def a_port_of_a_relay_is_taken(bench):
    for key, port in (("listen", AMT_PORT), ("feed", FEED)):
        with bound(bench.address, port):
            bench.ends_with(bench.words("relay"), 6, "amt: link fault\n")
    return "status 6, for `listen` and for `feed`"


def a_port_of_a_gateway_is_taken(bench):
    for port in (OTHER, CONTROL):
        with bound(bench.address, port):
            bench.ends_with(bench.words("gateway"), 6, "amt: link fault\n")
    return "status 6, for `listen` and for `control`"


def an_address_is_not_ours(bench):
    wants(is_foreign(FOREIGN))
    for kind, key in (("relay", "listen"), ("relay", "feed"), ("gateway", "listen"), ("gateway", "control")):
        bench.ends_with(bench.words(kind, **{key: f"{FOREIGN}:3000"}), 6, "amt: link fault\n")
    return "status 6, for each key of both ends"


def the_output_is_full(bench):
    for kind in ("relay", "gateway"):
        with open("/dev/full", "w", encoding="ascii") as full:
            bench.ends_with(bench.words(kind), 5, "amt: write fault\n", stdout=full)
    with open("/dev/full", "w", encoding="ascii") as full:
        bench.ends_with([*bench.command, "vectors"], 5, "amt: write fault\n", stdout=full)
    return "status 5, of relay, gateway and vectors"


def the_output_is_a_closed_pipe(bench):
    for words in (bench.words("relay"), bench.words("gateway"), [*bench.command, "load", "1", "10"]):
        reader, writer = os.pipe()
        os.close(reader)
        try:
            bench.ends_with(words, 5, "amt: write fault\n", stdout=writer)
        finally:
            os.close(writer)
    return "status 5, of relay, gateway and load"


def the_errors_are_full(bench):
    with open("/dev/full", "w", encoding="ascii") as full:
        bench.ends_with([*bench.command, "jump"], 2, "", stderr=full)
        bench.ends_with([*bench.command, "relay", "/"], 4, "", stderr=full)
    return "the status is as without it"


def the_settings_cannot_be_read(bench):
    long = bench.folder / "long"
    long.write_bytes(b"#" * 16_777_217)
    for kind in ("relay", "gateway"):
        bench.ends_with([*bench.command, kind, str(bench.folder / "none")], 4, "amt: read fault\n")
        bench.ends_with([*bench.command, kind, str(bench.folder)], 4, "amt: read fault\n")
        bench.ends_with([*bench.command, kind, str(long)], 8, "amt: input too long\n")
    return "status 4 where there is no file or a folder, 8 where it has 16,777,217 octets"


def the_input_cannot_be_read(bench):
    folder = os.open(bench.folder, os.O_RDONLY)
    try:
        bench.ends_with([*bench.command, "dump"], 4, "amt: read fault\n", stdin=folder)
    finally:
        os.close(folder)
    return "status 4"


def the_feed_has_packets_of_0_and_of_65507_octets(bench):
    relay = bench.relay()
    endpoint = bench.joined(bench.address)
    bench.copies(endpoint, 1)
    bench.feed(b"")
    bench.feed(packet(SOURCE, GROUP, bytes(65_507 - 28)))
    bench.copies(endpoint, 1, first=1)
    bench.done(relay, packets=4, sent=4, unsent=0, updated=1)
    return "the run goes on, `packets 4`, and the two others are copied"


def the_link_has_datagrams_of_0_and_of_65507_octets(bench):
    relay = bench.relay()
    endpoint = bench.joined(bench.address)
    with bound(bench.address) as stranger:
        stranger.sendto(b"", bench.relay_peer)
        stranger.sendto(b"\x05" + bytes(65_506), bench.relay_peer)
    bench.copies(endpoint, 1)
    bench.done(relay, datagrams=5, packets=1, updated=1, sent=3, unsent=0)
    return "the run goes on, `datagrams 5`, and a packet is copied"


def a_gateway_is_gone(bench):
    """What is sent to a closed port comes back as an ICMP message, which Linux keeps for sockets that ask for it."""
    relay = bench.relay()
    gone, endpoint = bench.joined(bench.address), bench.joined(bench.address)
    gone.socket.close()
    bench.copies(endpoint, 5)
    counts = bench.done(relay, packets=5, updated=2, unsent=0, apart=0)
    expect(counts["sent"] == "14", f"sent {counts['sent']}, and not 14")
    return "the run goes on: 5 copies to each of the two, `unsent 0`"


def handed_on(bench, unsent, **changes):
    """Three packets that a gateway hands on, at an address where nothing takes them."""
    relay = bench.relay()
    words = bench.words("gateway", bench.turns(LONG_S), **changes)
    with open(words[-3], "a", encoding="ascii") as file:
        file.write(f'\n[[join]]\nname = "a"\ngroup = "{GROUP}"\nmode = "exclude"\nsources = []\n')
    gateway = End(words, bench.address, [OTHER, CONTROL])
    # Discovery, Request and Update take some turns.
    time.sleep(1)
    for number in range(3):
        bench.feed(packet(SOURCE, GROUP, b"%d" % number))
    bench.done(gateway, delivered=3, unsent=unsent, datagrams=5)
    bench.done(relay, packets=3, updated=1, unsent=0)


def the_receiver_of_a_gateway_is_gone(bench):
    handed_on(bench, 0)
    return "the run goes on: `delivered 3`, `unsent 0`"


def the_receiver_of_a_gateway_is_of_another_family(bench):
    handed_on(bench, 3, deliver="[::1]:2272")
    return "each send is counted, and the run goes on: `delivered 3`, `unsent 3`"


def the_control_socket_has_noise(bench):
    gateway = bench.gateway()
    with bound(bench.address) as sender:
        for line in (b"", b"jump", b"\xff\x00", b"x" * 65_507, b"close nobody\n"):
            sender.sendto(line, (bench.address, CONTROL))
    bench.done(gateway, controls=5, bad_controls=4, datagrams=0)
    return "the run goes on: `controls 5`, `bad_controls 4`; a call that is refused is no bad line"


def kill_socket(bench, port):
    """Has the kernel abort a socket: its next receiving fails. It wants rights, and a kernel that can."""
    if shutil.which("ss") is None:
        raise Skipped("there is no ss")
    words = ["ss", "-K", "-u", "-a", "src", f"{bench.address}:{port}"]
    said = subprocess.run(words, capture_output=True, text=True, check=False)
    if said.returncode or str(port) not in said.stdout:
        raise Skipped("ss can't abort a socket here")


def a_socket_is_aborted(bench):
    for start, ports in ((bench.relay, (AMT_PORT, FEED)), (bench.gateway, (OTHER, CONTROL))):
        for port in ports:
            end = start()
            try:
                kill_socket(bench, port)
                have = end.wait(PATIENCE_S)
            finally:
                end.stop()
            expect(have == (6, "", "amt: link fault\n"), f"{have} after port {port} was aborted")
    return "status 6, for each socket of both ends"


def traced(bench, kind, inject, turns="50", path=None, **changes):
    """A run in which a system call answers an error, or one about this file."""
    if shutil.which("strace") is None:
        raise Skipped("there is no strace")
    words = ["strace", "-f", "--quiet=all", "-o", trace_of(bench), "-e", f"inject={inject}"]
    words += ["-P", path] if path else []
    return [*words, *bench.words(kind, turns, **changes)]


def trace_of(bench):
    """What strace writes of the latest run: each call of the system. Errors of its own would be on standard error."""
    return bench.folder / "trace"


def expect_injected(bench, what):
    expect("(INJECTED)" in trace_of(bench).read_text(errors="replace"), f"{what}: no call answered so")


def ends_traced(bench, status, line, injects, kinds=("relay", "gateway")):
    for kind in kinds:
        for inject in injects:
            have = bench.ended(traced(bench, kind, inject))
            expect(have == (status, "", line), f"{kind}, {inject}: {have}")
            expect_injected(bench, f"{kind}, {inject}")


def goes_on_traced(bench, injects, path=None):
    for kind in ("relay", "gateway"):
        for inject in injects:
            status, out, err = bench.ended(traced(bench, kind, inject, path=path))
            expect((status, err) == (0, ""), f"{kind}, {inject}: status {status}, {err!r}")
            expect(counts_of(out)["turns"] == "50", f"{kind}, {inject}: {out}")
            expect_injected(bench, f"{kind}, {inject}")


def a_socket_cannot_be_made_or_set(bench):
    ends_traced(bench, 6, "amt: link fault\n", ["socket:error=EMFILE", "setsockopt:error=EPERM", "fcntl:error=EMFILE"])
    return "status 6, for both ends"


def a_receiving_fails(bench):
    ends_traced(bench, 6, "amt: link fault\n", ["recvfrom:error=ENOMEM:when=20", "recvfrom:error=ENOMEM:when=21",
                                                "poll:error=ENOMEM:when=20", "poll:error=ENOMEM:when=21"])
    return "status 6, for each socket of both ends, and nothing is reported"


def a_receiving_is_interrupted(bench):
    goes_on_traced(bench, ["recvfrom:error=EINTR:when=20+5", "poll:error=EINTR:when=20+5"])
    return "the run goes on, for both ends"


def sleeps_cannot_end_late(bench):
    goes_on_traced(bench, ["open,openat:error=EACCES"], "/proc/self/timerslack_ns")
    return "the run goes on, for both ends"


def a_worker_cannot_be_started(bench):
    ends_traced(bench, 6, "amt: link fault\n", ["clone,clone3:error=EAGAIN"], kinds=["relay"])
    return "status 6, before the first turn"


def no_random_word_comes(bench):
    ends_traced(bench, 10, "amt: random source fault\n", ["getrandom:error=EIO"])
    return "status 10, for both ends"


def sends_traced(bench, inject):
    """A relay with two endpoints that have a packet each time, of which some sends answer an error."""
    words = traced(bench, "relay", inject, bench.turns(LONG_S))
    relay = End(words, bench.address, [AMT_PORT, FEED])
    first, second = bench.joined(bench.address), bench.joined(bench.address)
    for number in range(3):
        bench.feed(packet(SOURCE, GROUP, b"%d" % number))
    time.sleep(0.5)
    came = 0
    for endpoint in (first, second):
        endpoint.socket.settimeout(0.3)
        while endpoint.receive(DATA) is not None:
            came += 1
    return relay, came


def a_send_fails(bench):
    # Four Queries are sent, then six copies.
    relay, came = sends_traced(bench, "sendto:error=EPERM:when=6")
    expect(came == 5, f"{came} copies came")
    bench.done(relay, packets=3, updated=2, sent=9, unsent=1)
    return "`unsent 1`, and the five other copies come"


def a_send_has_no_room_once(bench):
    for error in ("EAGAIN", "EINTR"):
        relay, came = sends_traced(bench, f"sendto:error={error}:when=6")
        expect(came == 6, f"{came} copies came after {error}")
        bench.done(relay, packets=3, updated=2, sent=10, unsent=0)
    return "it is sent again: `unsent 0`, and all copies come; so after an interrupt"


def copies_have_no_room(bench):
    # The first copy is tried twice, the second, which doesn't wait any more, once, and the third is sent.
    relay, came = sends_traced(bench, "sendto:error=EAGAIN:when=5..7")
    bench.done(relay, packets=3, updated=2, sent=8, unsent=2)
    expect(came == 4, f"{came} copies came")
    return "`unsent 2`: the first waits once, the second not, and the four other copies come"


def an_answer_has_no_room(bench):
    # strace counts the calls of each thread by itself. After two errors the first Query is lost, and the gateway asks again;
    # so is the first copy of the worker.
    for errors, unsent, copies in (("1", 0, 6), ("1..2", 2, 5)):
        relay, came = sends_traced(bench, f"sendto:error=EAGAIN:when={errors}")
        expect(came == copies, f"{came} copies came")
        bench.done(relay, packets=3, updated=2, sent=4 + copies, unsent=unsent)
    return "it is sent after a wait, or counted in `unsent`; so is a copy"


# The monotonic clock is right for a second and a half from its first reading on, and then another one.
CLOCK = """
#define _GNU_SOURCE
#include <stdlib.h>
#include <sys/syscall.h>
#include <time.h>
#include <unistd.h>
int clock_gettime(clockid_t clock, struct timespec *now) {
    static struct timespec first;
    int status = syscall(SYS_clock_gettime, clock, now);
    if (clock != CLOCK_MONOTONIC) return status;
    if (first.tv_sec == 0) first = *now;
    if ((now->tv_sec - first.tv_sec) * 1000 + (now->tv_nsec - first.tv_nsec) / 1000000 > 1500)
        now->tv_sec += atoi(getenv("CLOCK_SHIFT"));
    return status;
}
"""


def shifted(bench, seconds):
    """How many of three packets are copied to an endpoint that reported before the clock was shifted."""
    compiler = os.environ.get("CC", "cc")
    if shutil.which(compiler) is None:
        raise Skipped(f"there is no {compiler}")
    source, library = bench.folder / "clock.c", bench.folder / "clock.so"
    source.write_text(CLOCK)
    subprocess.run([compiler, "-O1", "-shared", "-fPIC", "-o", library, source], check=True, capture_output=True)
    relay = End(bench.words("relay", bench.turns(LONG_S)), bench.address, [AMT_PORT, FEED],
                env={**os.environ, "LD_PRELOAD": str(library), "CLOCK_SHIFT": str(seconds)})
    began = time.monotonic()
    endpoint = bench.joined(bench.address)
    expect(time.monotonic() < began + 1, "too much else runs on this machine")
    time.sleep(1.7)
    endpoint.socket.settimeout(0.3)
    came = 0
    for number in range(3):
        bench.feed(packet(SOURCE, GROUP, b"%d" % number))
        came += endpoint.receive(DATA) is not None
    bench.done(relay, packets=3, updated=1, unsent=0)
    return came


def the_clock_goes_back(bench):
    # Forward by an hour, so that the membership has expired: else this program doesn't reach the clock.
    if shifted(bench, 3600) != 0:
        raise Skipped("`amt` takes no time from a C library; `relay_turns.cases` of replay_cases has such a clock")
    came = shifted(bench, -3600)
    expect(came == 3, f"{came} of 3 packets were copied")
    return "the run goes on, and the membership counts; after an hour forward it has expired"


FAULTS = [
    a_port_of_a_relay_is_taken,
    a_port_of_a_gateway_is_taken,
    an_address_is_not_ours,
    the_output_is_full,
    the_output_is_a_closed_pipe,
    the_errors_are_full,
    the_settings_cannot_be_read,
    the_input_cannot_be_read,
    the_feed_has_packets_of_0_and_of_65507_octets,
    the_link_has_datagrams_of_0_and_of_65507_octets,
    a_gateway_is_gone,
    the_receiver_of_a_gateway_is_gone,
    the_receiver_of_a_gateway_is_of_another_family,
    the_control_socket_has_noise,
    a_socket_is_aborted,
    a_socket_cannot_be_made_or_set,
    a_receiving_fails,
    a_receiving_is_interrupted,
    sleeps_cannot_end_late,
    a_worker_cannot_be_started,
    no_random_word_comes,
    a_send_fails,
    a_send_has_no_room_once,
    copies_have_no_room,
    an_answer_has_no_room,
    the_clock_goes_back,
]


def tried(bench, fault):
    """The line that tells what came of a fault, and whether that is as it should be."""
    name = fault.__name__.replace("_", " ")
    try:
        return f"passed   {name}: {fault(bench)}", True
    except Skipped as reason:
        return f"skipped  {name}: {reason}", True
    except (Failed, OSError, KeyError, ValueError, subprocess.SubprocessError) as reason:
        return f"FAILED   {name}: {reason}", False


def main():
    command = loopback.command_of(sys.argv[1:])
    chosen = [fault for fault in FAULTS if not sys.argv[2:] or fault.__name__ in sys.argv[2:]]
    is_right, counts = True, {"passed": 0, "skipped": 0, "FAILED": 0}
    with tempfile.TemporaryDirectory() as folder:
        for fault in chosen:
            bench = Bench(command, folder)
            line, passed = tried(bench, fault)
            loopback.stop_all()
            counts[line.split()[0]] += 1
            is_right &= passed
            print(line, flush=True)
    print(", ".join(f"{count} {word}" for word, count in counts.items()))
    return 0 if is_right else 1


try:
    sys.exit(main())
except Failed as fault:
    sys.exit(f"device-faults: {fault}")
