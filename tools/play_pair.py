#!/usr/bin/env python3
"""Plays a script of `amt replay pair` over real sockets, and compares what both ends send with the replay.

usage: tools/play_pair.py SCRIPT [COMMAND]
       tools/play_pair.py examples/a_played_session/script crates/amt/out/amt

COMMAND is the binary of `amt`. A relay (`amt relay`) runs by the script's settings, and an `amt gateway` for each of
its gateways. This program stands between them, and is the network: it takes each datagram that an end sends, and passes
it on when, and as often as, the script has an event `up K` or `down K`. Packets (`mc`) go to the relay's feed, socket
lines to the gateway's control socket, and at a moment (`at`) it waits.

After each event it waits until the ends are quiet, and compares what they have sent and handed on since with what `amt
replay pair` writes for this event of the same script. All octets have to be the same, but for nonces and response MACs:
running ends draw nonces and secrets from the system. A nonce or MAC of the run has to stand wherever that of the replay
does, and nowhere else. At the end the counts of the reports are compared with the outcomes of the replay.

What it can't show: the running ends have a moment in each turn, and the script only some. Events that follow one moment
in the script take some time here, 40 ms each. So a script should have few of them after one `at`, and should keep its
moments half a second from whatever falls due; how late the run was is told at the end. A script with a `secret` line
can't be played. `show` is skipped, since no relay that runs is asked.

Peers are addresses of the IPv4 loopback, and the relay's address is too. It ends with 0 where all is the same, and with
1 and what differs otherwise. It needs nothing but Python.
"""
import collections
import os
import select
import signal
import socket
import subprocess
import sys
import tempfile
import time

from loopback import idle_turn_s

AMT_PORT = 2268
# What the ends listen at, beside the port of AMT, at which this program does.
RELAY_PORT, FEED_PORT, GATEWAY_PORT, CONTROL_PORT, DELIVER_PORT = 2267, 2269, 2300, 2400, 2500
KINDS = ["", "Discovery", "Advertisement", "Request", "Query", "Update", "Data", "Teardown"]
# Where the nonce and the MAC stand in a message of a type.
NONCE_AT = {1: 4, 2: 4, 3: 4, 4: 8, 5: 8, 7: 8}
MAC_AT = {4: 2, 5: 2, 7: 2}
# How long an end has for what an event makes it send, and how long it has to be quiet after that. An idle
# turn takes some 8 ms.
PATIENCE_S = 2.0
QUIET_S = 0.03
# The ends run for somewhat longer than the script.
SPARE_S = 3


class Failed(Exception):
    """What is different, or can't be played."""


class Event:
    """A line of the script, and what its replay writes: by gateway the datagrams up and down, and packets handed on."""

    def __init__(self, words):
        self.words = words
        self.up = []
        self.down = []
        self.delivered = []
        self.absent = False


class Script:
    """The settings, gateways and events of a script, with their replay."""

    def __init__(self, path, command):
        self.settings, self.gateways, self.events = {}, {}, []
        with open(path, encoding="ascii") as file:
            lines = [line.split() for line in file]
        for words in lines:
            if not words or words[0].startswith("#"):
                continue
            if words[0] == "set":
                self.settings[words[1]] = words[2]
            elif words[0] == "gateway":
                self.gateways[words[1]] = words[2:]
            elif words[0] == "secret":
                raise Failed("a running relay draws its secrets itself: no script with a secret can be played")
            else:
                self.events.append(Event(words))
        with open(path, "rb") as file:
            ran = subprocess.run([*command, "replay", "pair"], stdin=file, capture_output=True, check=False)
        if ran.returncode:
            raise Failed(f"the replay ended with {ran.returncode}: {ran.stderr.decode().strip()}")
        self.outcomes = collections.Counter()
        self.read_replay(ran.stdout.decode().splitlines())

    def name_of(self, peer):
        return next(name for name, words in self.gateways.items() if words[0] == peer)

    def read_replay(self, lines):
        who = None
        for line in lines:
            words = line.split()
            if words[0] == "=":
                event, who = self.events[int(words[1]) - 1], words[2]
                event.absent |= who == "absent"
                self.outcomes[who, words[3]] += 1
            elif words[:2] == [">", "up"]:
                event.up.append((who, int(words[2]), bytes.fromhex(words[4])))
            elif words[:2] == [">", "down"]:
                event.down.append((self.name_of(words[3]), int(words[2]), bytes.fromhex(words[4])))
            elif words[0] == "^":
                event.delivered.append((who, bytes.fromhex(words[1])))


class Network:
    """The sockets between the ends: of each gateway one to the relay, one for them all to the gateways, and where
    packets come out; and what has come from each of them since it was last asked."""

    def __init__(self, script):
        self.address = script.settings["relay"]
        self.names = list(script.gateways)
        self.near = self.bind(AMT_PORT)
        self.feed = socket.socket(socket.AF_INET, socket.SOCK_DGRAM)
        self.far, self.deliver = {}, {}
        for place, name in enumerate(self.names):
            host, port = script.gateways[name][0].split(":")
            self.far[name] = self.bind(int(port), host)
            self.deliver[name] = self.bind(DELIVER_PORT + place)
        self.came = collections.defaultdict(list)

    def bind(self, port, host=None):
        made = socket.socket(socket.AF_INET, socket.SOCK_DGRAM)
        made.bind((host or self.address, port))
        return made

    def gateway_peer(self, name):
        return (self.address, GATEWAY_PORT + self.names.index(name))

    def take(self, wait_s):
        """Takes what comes within this time, until something has come."""
        sockets = {self.near: None}
        sockets.update({made: ("down", name) for name, made in self.far.items()})
        sockets.update({made: ("packet", name) for name, made in self.deliver.items()})
        ready = select.select(list(sockets), [], [], wait_s)[0]
        for made in ready:
            octets, source = made.recvfrom(65535)
            if made is self.near:
                self.came["up", self.names[source[1] - GATEWAY_PORT]].append(octets)
            else:
                self.came[sockets[made]].append(octets)
        return bool(ready)

    def settle(self, count):
        """Waits for so many datagrams, and then until nothing more comes."""
        until = time.monotonic() + PATIENCE_S
        while time.monotonic() < until and sum(map(len, self.came.values())) < count:
            self.take(0.01)
        while self.take(QUIET_S):
            pass
        came, self.came = self.came, collections.defaultdict(list)
        return came

    def pass_up(self, name, octets):
        self.far[name].sendto(octets, (self.address, RELAY_PORT))

    def pass_down(self, name, octets):
        self.near.sendto(octets, self.gateway_peer(name))

    def control(self, name, words):
        self.feed.sendto(" ".join(words).encode() + b"\n", (self.address, CONTROL_PORT + self.names.index(name)))

    def packet(self, octets):
        self.feed.sendto(octets, (self.address, FEED_PORT))


class Labels:
    """Numbers for values of one side in the order in which they first came: two sides agree where the numbers do."""

    def __init__(self):
        self.numbers = {}

    def __getitem__(self, value):
        return self.numbers.setdefault(value, len(self.numbers))


def told(octets, labels, name):
    """A datagram with its nonce and its MAC by number: what has to be the same on both sides."""
    kind, parts = octets[0] if octets else 0, []
    for at, length in [(NONCE_AT.get(kind), 4), (MAC_AT.get(kind), 6)]:
        if at is not None:
            parts.append(labels[name, length, octets[at : at + length]])
            octets = octets[:at] + bytes(length) + octets[at + length :]
    return octets, parts


class Player:
    """Plays the events of a script, and keeps what was sent, by its number in the replay."""

    def __init__(self, script, network):
        self.script, self.network = script, network
        self.up, self.down = {}, {}
        self.ran, self.replayed = Labels(), Labels()
        self.start = time.monotonic()
        self.now = 0
        self.late = 0
        self.same = collections.Counter()

    def play(self, event):
        """Lets the event happen. A datagram that was never sent is never delivered."""
        word, words, network = event.words[0], event.words, self.network
        if word == "at":
            self.now = max(int(words[1]), self.now)
            while self.lag() < 0:
                network.take(-self.lag())
        elif word == "mc":
            network.packet(bytes.fromhex(words[1].replace("-", "")))
        elif word == "up" and not event.absent:
            network.pass_up(*self.up[int(words[1])])
        elif word == "down" and not event.absent:
            network.pass_down(*self.down[int(words[1])])
        elif word in self.script.gateways:
            network.control(word, words[1:])

    def lag(self):
        """How far the time is beyond the script's moment, in seconds."""
        return time.monotonic() - self.start - self.now / 1000

    def compare(self, event, came):
        """What came, beside the replay's. Datagrams of two gateways have no order between them."""
        for direction, wanted, kept in [("up", event.up, self.up), ("down", event.down, self.down)]:
            for name in self.network.names:
                have, want = came[direction, name], [it[1:] for it in wanted if it[0] == name]
                if len(have) != len(want):
                    raise Failed(f"{name}: {len(have)} {direction}, in the replay {len(want)}: {show(have)}")
                for octets, (number, replayed) in zip(have, want):
                    if told(octets, self.ran, name) != told(replayed, self.replayed, name):
                        raise Failed(f"{direction} {number}\n  run    {octets.hex()}\n  replay {replayed.hex()}")
                    kept[number] = (name, octets)
                    self.same[direction] += 1
        for name in self.network.names:
            have, want = came["packet", name], [it[1] for it in event.delivered if it[0] == name]
            if have != want:
                raise Failed(f"{name} hands on {show(have)}, in the replay {show(want)}")
            self.same["packets"] += len(have)

    def run(self):
        for number, event in enumerate(self.script.events, 1):
            self.play(event)
            self.late = max(self.late, self.lag())
            try:
                self.compare(event, self.network.settle(len(event.up) + len(event.down) + len(event.delivered)))
            except Failed as fault:
                text = f"event {number}, {' '.join(event.words)[:60]}, {self.lag():.3f} s after its moment"
                raise Failed(f"{text}: {fault}") from None
            print(f"{number:3} {' '.join(event.words)[:40]:40} {summary(event)}", flush=True)


def show(datagrams):
    return ", ".join(it.hex() for it in datagrams) or "nothing"


def summary(event):
    """What the event made both ends send, on one line."""
    sent = [f"up {number} {KINDS[octets[0]]}" for _, number, octets in event.up]
    sent += [f"down {number} {KINDS[octets[0]]}" for _, number, octets in event.down]
    sent += [f"{name} hands on a packet" for name, _ in event.delivered]
    return ", ".join(sent)


class Ends:
    """The running relay and gateways, and their reports."""

    def __init__(self, script, command, folder):
        self.seconds = last_moment(script) / 1000 + SPARE_S
        self.command, self.folder, self.running = command, folder, {}
        self.write_relay(script)
        self.turns = int(self.seconds / idle_turn_s(command, f"{folder}/relay.toml"))
        for place, name in enumerate(script.gateways):
            self.write_gateway(script, name, place)

    def write_relay(self, script):
        address = script.settings["relay"]
        texts = ("relay", "query4", "query6")
        lines = [f'{key} = "{value}"' if key in texts else f"{key} = {value}" for key, value in script.settings.items()]
        lines += [f'listen = "{address}:{RELAY_PORT}"', f'feed = "{address}:{FEED_PORT}"', "rotate_seconds = 1000000"]
        self.write("relay", lines)

    def write_gateway(self, script, name, place):
        address = script.settings["relay"]
        _, family, source = script.gateways[name]
        lines = [f'family = "{family}"', f'source = "{source}"', f'discovery = "{address}:{AMT_PORT}"']
        for key, port in [("listen", GATEWAY_PORT), ("control", CONTROL_PORT), ("deliver", DELIVER_PORT)]:
            lines.append(f'{key} = "{address}:{port + place}"')
        self.write(name, lines)

    def write(self, name, lines):
        with open(f"{self.folder}/{name}.toml", "w", encoding="ascii") as file:
            file.write("\n".join(lines) + "\n")

    def start(self, name, kind):
        words = [*self.command, kind, f"{self.folder}/{name}.toml", "--turns", str(self.turns)]
        self.running[name] = subprocess.Popen(words, stdout=subprocess.PIPE, text=True)

    def reports(self):
        """The counts of each end, once its turns are done."""
        found = {}
        for name, process in self.running.items():
            said = process.communicate(timeout=20 * self.seconds)[0]
            if process.returncode:
                raise Failed(f"{name} ended with {process.returncode}")
            found[name] = dict(line.split() for line in said.splitlines())
        return found

    def stop(self):
        for process in self.running.values():
            if process.poll() is None:
                process.send_signal(signal.SIGTERM)
                process.wait()


def last_moment(script):
    return max((int(event.words[1]) for event in script.events if event.words[0] == "at"), default=0)


def wanted_counts(script):
    """The counts of the reports by the outcomes of the replay; those that aren't here depend on the turns."""
    delivered = collections.Counter()
    for event in script.events:
        words = event.words
        if words[0] == "up" and not event.absent:
            delivered["relay"] += 1
        elif words[0] == "down" and not event.absent:
            delivered[next(name for it in script.events for name, number, _ in it.down if number == int(words[1]))] += 1
    downs = sum(len(event.down) for event in script.events)
    packets = sum(event.words[0] == "mc" for event in script.events)
    counts = {"relay": {"end": "turns", "datagrams": delivered["relay"], "packets": packets,
                        "updated": script.outcomes["relay", "updated"], "torn": script.outcomes["relay", "torndown"],
                        "sent": downs, "unsent": 0, "starved": 0, "late": 0, "owed": 0, "apart": 0}}
    for name in script.gateways:
        controls = sum(event.words[0] == name for event in script.events)
        counts[name] = {"end": "turns", "datagrams": delivered[name], "controls": controls, "bad_controls": 0,
                        "delivered": script.outcomes[name, "delivered"], "unsent": 0, "starved": 0}
    return counts


def compare_reports(script, reports):
    for name, counts in wanted_counts(script).items():
        for count, wanted in counts.items():
            if reports[name].get(count) != str(wanted):
                raise Failed(f"the report of {name}: {count} {reports[name].get(count)}, by the replay {wanted}")


def wait_until_bound(ends, ports):
    """Until each end listens, by the system's own list."""
    until = time.monotonic() + 10
    while time.monotonic() < until:
        with open("/proc/net/udp", encoding="ascii") as file:
            bound = {line.split()[1].split(":")[1] for line in file.readlines()[1:]}
        if all(f"{port:04X}" in bound for port in ports):
            return
        if any(process.poll() is not None for process in ends.running.values()):
            break
        time.sleep(0.02)
    raise Failed("an end doesn't listen")


def main():
    path = sys.argv[1]
    here = os.path.dirname(os.path.abspath(__file__))
    command = (sys.argv[2] if len(sys.argv) > 2 else f"{here}/../crates/amt/out/amt").split()
    script = Script(path, command)
    network = Network(script)
    with tempfile.TemporaryDirectory() as folder:
        ends = Ends(script, command, folder)
        try:
            ends.start("relay", "relay")
            for name in script.gateways:
                ends.start(name, "gateway")
            places = range(len(script.gateways))
            wait_until_bound(ends, [RELAY_PORT, FEED_PORT, *[CONTROL_PORT + place for place in places]])
            player = Player(script, network)
            player.run()
            compare_reports(script, ends.reports())
        finally:
            ends.stop()
    same = player.same
    counts = f"{same['up']} datagrams up, {same['down']} down and {same['packets']} packets handed on"
    print(f"{len(script.events)} events, {player.late:.3f} s late: {counts} are those of the replay, but for nonces and "
          "MACs, and so are the reports")


try:
    main()
except Failed as fault:
    sys.exit(f"play_pair: {fault}")
