"""Tests amt-exporter: tools/exporter.sh [COMMAND [WORD..]]

The ends are stand-ins that answer as a test says, and a real relay and gateway where COMMAND, the binary of `amt`, is given.
Where there is a `promtool` it judges the page, and where there is a `prometheus` it scrapes it and answers each query of the
board. It says of each test whether it passed, and ends with 1 where one did not.
"""
import asyncio
import contextlib
import http.client
import json
import os
import pathlib
import re
import runpy
import shutil
import signal
import socket
import subprocess
import sys
import tempfile
import threading
import time
import urllib.parse

import loopback
from loopback import AMT_PORT, HERE, IS_EX, Endpoint, Failed, bound, counts_of, expect, packet

EXPORTER, AMTCTL, EXAMPLES = str(HERE / "amt-exporter"), str(HERE / "amtctl"), HERE.parent / "examples"
ADDRESS = f"127.67.{os.getpid() % 255}.1"
FEED, CONTROL = 9000, 9003
LISTEN, DELIVER, GATEWAY_CONTROL = 40000, 9001, 9002
SOURCE, GROUP = "203.0.113.5", "233.252.0.1"
# How long something may take that comes at once. The machine may be busy.
SOON_S = 8.0
PLAIN = "turns datagrams packets updated torn sent unsent inline starved late owed published rows".split()
ANSWERED = "advertised queried updated torndown copied".split()
IGNORED = "badsource refused wrongkind badmac unlawful limit notunnel toobig notforwarded".split()
GATEWAY_PLAIN = "turns datagrams controls bad_controls delivered unsent starved".split()
EXCHANGES = "discovering requesting active idle".split()
GATEWAY_REFUSED = "taken nosocket sources report".split()
GATEWAY_IGNORED = "refused kind state sender nonce inner family body notgeneral head scope notwanted".split()
TESTS = []


class Skipped(Exception):
    """Why a test can't be made here."""


def test(function):
    TESTS.append(function)
    return function


# Ends

def counts(*more, plain=PLAIN, **numbers):
    """The lines of an answer to `counts`, with a number for each name and 0 for the others, and then more of them."""
    return "".join(f"{name} {numbers.get(name, 0)}\n" for name in plain) + "".join(f"{it}\n" for it in more)


def whole(*more, **numbers):
    """Such an answer, in one datagram."""
    return [counts(*more, **numbers) + ". 1\n"]


def shown(state):
    """An answer to `show`, in one datagram."""
    return [f"state {state}\nrelay none\ndue none\n* a 233.252.0.1 exclude\n. 1\n"]


class StandIn:
    """An end that answers the questions in order: datagrams, and pauses in seconds. The last answer is given for ever."""

    def __init__(self, *answers, address=ADDRESS):
        self.answers, self.questions = list(answers), []
        family = socket.AF_INET6 if ":" in address else socket.AF_INET
        self.socket = socket.socket(family, socket.SOCK_DGRAM)
        self.socket.bind((address, 0))
        self.port = self.socket.getsockname()[1]
        self.place = f"[{address}]:{self.port}" if ":" in address else f"{address}:{self.port}"
        threading.Thread(target=self.run, daemon=True).start()

    def run(self):
        # (closed by `close`)
        with contextlib.suppress(OSError):
            while True:
                question, peer = self.socket.recvfrom(2000)
                self.questions.append(question)
                if not question:
                    return
                answer = self.answers.pop(0) if len(self.answers) > 1 else self.answers[0]
                threading.Thread(target=self.give, args=(answer, peer), daemon=True).start()

    def give(self, answer, peer):
        for it in answer:
            if isinstance(it, float):
                time.sleep(it)
            else:
                with contextlib.suppress(OSError):
                    self.socket.sendto(it if isinstance(it, bytes) else it.encode(), peer)

    def close(self):
        # A socket in which a thread waits goes on: an empty datagram ends that.
        with socket.socket(self.socket.family, socket.SOCK_DGRAM) as it:
            it.sendto(b"", self.socket.getsockname())
        time.sleep(0.05)
        self.socket.close()


@contextlib.contextmanager
def ends_of(*answers):
    """Stand-ins, each with one answer for ever."""
    made = [StandIn(it) for it in answers]
    try:
        yield made
    finally:
        for it in made:
            it.close()


def no_port():
    """A port of the address at which nothing listens."""
    with bound(ADDRESS) as it:
        return it.getsockname()[1]


# The exporter

class Exporter:
    """amt-exporter, with these ends by their names, at a free port."""

    def __init__(self, **ends):
        words = [word for name, place in ends.items() for word in ("--end", f"{name}={place}")]
        self.process = subprocess.Popen([EXPORTER, *words, "--listen", "127.0.0.1:0"], text=True, stdin=subprocess.DEVNULL,
                                        stdout=subprocess.PIPE, stderr=subprocess.PIPE)
        ready = self.process.stdout.readline()
        match = re.fullmatch(r"ready 127\.0\.0\.1:([0-9]+)\n", ready)
        expect(match is not None, f"it isn't ready: {ready}")
        self.port = int(match[1])

    def get(self, path="/metrics", method="GET", body=None):
        """Status, headers and text."""
        connection = http.client.HTTPConnection("127.0.0.1", self.port, timeout=SOON_S)
        with contextlib.closing(connection):
            connection.request(method, path, body)
            found = connection.getresponse()
            return found.status, dict(found.getheaders()), found.read().decode()

    def samples(self):
        """The samples of the page: their values by name and labels."""
        status, headers, text = self.get()
        expect(status == 200, f"status {status}")
        expect(headers["Content-Type"] == "text/plain; version=0.0.4; charset=utf-8", headers["Content-Type"])
        return dict(line.rsplit(" ", 1) for line in text.splitlines() if not line.startswith("#"))

    def connect(self):
        made = socket.create_connection(("127.0.0.1", self.port), timeout=SOON_S)
        return made

    def raw(self, octets):
        """The status of the answer to these octets, or none."""
        with self.connect() as it:
            it.sendall(octets)
            said = b""
            with contextlib.suppress(ConnectionResetError):
                while part := it.recv(65536):
                    said += part
        return int(said.split()[1]) if said else None

    def end(self, number=signal.SIGTERM):
        """Status and lines of errors after a signal."""
        if self.process.poll() is None:
            self.process.send_signal(number)
        try:
            errors = self.process.communicate(timeout=SOON_S)[1]
        except subprocess.TimeoutExpired:
            self.process.kill()
            raise Failed("it goes on after a signal") from None
        return self.process.returncode, errors.splitlines()


@contextlib.contextmanager
def exporting(errors=None, **ends):
    """An exporter, which ends by a signal with status 0; where no lines of errors are named, any may come."""
    made = Exporter(**ends)
    try:
        yield made
        status, said = made.end()
        expect(status == 0, f"status {status}, {said}")
        expect(errors is None or said == [f"amt-exporter: {it}" for it in errors], f"other lines: {said}")
    finally:
        made.process.kill()
        made.process.wait()


def up(samples, name):
    return samples[f'amt_up{{end="{name}"}}']


def of(samples, name):
    """Samples of this end but `amt_up`."""
    return {key: value for key, value in samples.items() if f'end="{name}"' in key and not key.startswith("amt_up{")}


def expect_down(place, reason):
    """It counts as an end that doesn't answer, for this reason."""
    with exporting([f"a: {reason}"], a=place) as exporter:
        samples = exporter.samples()
        expect(up(samples, "a") == "0" and not of(samples, "a"), f"{samples}")


# The page

@test
def each_count_is_a_sample():
    numbers = {name: 100 + place for place, name in enumerate(PLAIN)}
    words = [*ANSWERED, *IGNORED, "moved", "rotated", "resized"]
    said = {word: 200 + place for place, word in enumerate(words)}
    with ends_of(whole(*(f"= {word} {number}" for word, number in said.items()), **numbers)) as [end]:
        with exporting([], a=end.place) as exporter:
            samples = exporter.samples()
        expect(end.questions == [b"counts\n"], f"questions {end.questions}")
    names = {"turns": "turns_total", "datagrams": "datagrams_total", "packets": "packets_total", "sent": "sent_total",
             "unsent": "unsent_total", "inline": "inline_packets_total", "starved": "starved_total", "late": "late_total",
             "owed": "owed", "published": "published_total", "rows": "memberships"}
    wanted = {f'amt_relay_{name}{{end="a"}}': numbers[line] for line, name in names.items()}
    wanted |= {f'amt_relay_answered_total{{end="a",kind="{word}"}}': said[word] for word in ANSWERED}
    wanted |= {f'amt_relay_ignored_total{{end="a",cause="{word}"}}': said[word] for word in IGNORED}
    wanted |= {'amt_relay_moments_total{end="a"}': said["moved"], 'amt_relay_secret_rotations_total{end="a"}': said["rotated"],
               'amt_relay_limit_changes_total{end="a"}': said["resized"], 'amt_unread_lines{end="a"}': 0}
    wanted = {name: str(number) for name, number in wanted.items()} | {'amt_up{end="a"}': "1"}
    expect(samples == wanted, f"{set(samples.items()) ^ set(wanted.items())}")


@test
def each_count_of_a_gateway_is_a_sample():
    numbers = {name: 100 + place for place, name in enumerate(GATEWAY_PLAIN)}
    words = ["quiet", "drawn", *EXCHANGES, "changed", "kept", "delivered", *(f"refused {it}" for it in GATEWAY_REFUSED),
             *(f"ignored {it}" for it in GATEWAY_IGNORED)]
    said = {word: 200 + place for place, word in enumerate(words)}
    lines = (f"= {word} {number}" for word, number in said.items())
    with contextlib.closing(StandIn(whole(*lines, plain=GATEWAY_PLAIN, **numbers), shown("active"))) as end:
        with exporting([], a=end.place) as exporter:
            samples = exporter.samples()
        expect(end.questions == [b"counts\n", b"show\n"], f"questions {end.questions}")
    names = {"controls": "lines_total", "bad_controls": "bad_lines_total"}
    names |= {line: f"{line}_total" for line in GATEWAY_PLAIN if line not in names}
    wanted = {f'amt_gateway_{name}{{end="a"}}': numbers[line] for line, name in names.items()}
    wanted |= {f'amt_gateway_exchanges_total{{end="a",kind="{word}"}}': said[word] for word in EXCHANGES}
    wanted |= {f'amt_gateway_calls_total{{end="a",kind="{word}"}}': said[word] for word in ("changed", "kept")}
    wanted |= {f'amt_gateway_refused_total{{end="a",cause="{word}"}}': said[f"refused {word}"] for word in GATEWAY_REFUSED}
    wanted |= {f'amt_gateway_ignored_total{{end="a",cause="{word}"}}': said[f"ignored {word}"] for word in GATEWAY_IGNORED}
    wanted |= {f'amt_gateway_state{{end="a",state="{word}"}}': int(word == "active") for word in EXCHANGES}
    wanted |= {'amt_gateway_quiet_moments_total{end="a"}': said["quiet"], 'amt_gateway_nonces_total{end="a"}': said["drawn"],
               'amt_unread_lines{end="a"}': 0}
    wanted = {name: str(number) for name, number in wanted.items()} | {'amt_up{end="a"}': "1"}
    expect(samples == wanted, f"{set(samples.items()) ^ set(wanted.items())}")


@test
def a_gateway_is_in_one_of_four_states():
    answers = [it for state in EXCHANGES for it in (whole(plain=GATEWAY_PLAIN), shown(state))]
    # (of an answer of several datagrams the first one has the state, and may come last, or alone)
    answers += [whole(plain=GATEWAY_PLAIN), ["* b 233.252.0.2 exclude\n. 2\n", "state idle\nrelay none\n"]]
    with contextlib.closing(StandIn(*answers)) as end, exporting([], a=end.place) as exporter:
        for wanted in [*EXCHANGES, "idle"]:
            samples = exporter.samples()
            states = {it: samples[f'amt_gateway_state{{end="a",state="{it}"}}'] for it in EXCHANGES}
            expect(states == {it: str(int(it == wanted)) for it in EXCHANGES}, f"{wanted}: {states}")


@test
def a_gateway_that_shows_no_state_is_down():
    for answer, reason in (([], "it shows no state"), ([". 1\n"], "it shows no state"), (shown("novel"), "it shows no state"),
                           (["bad word\n. 1\n"], "its answer is: bad word")):
        with contextlib.closing(StandIn(whole(plain=GATEWAY_PLAIN), answer)) as end:
            expect_down(end.place, reason)


@test
def a_relay_and_a_gateway_have_their_own_samples():
    relay, gateway = StandIn(whole(packets=3)), StandIn(whole(plain=GATEWAY_PLAIN, delivered=4), shown("idle"))
    with contextlib.closing(relay), contextlib.closing(gateway):
        with exporting([], relay=relay.place, gateway=gateway.place) as exporter:
            samples = exporter.samples()
    expect(samples['amt_relay_packets_total{end="relay"}'] == "3", f"{samples}")
    expect(samples['amt_gateway_delivered_total{end="gateway"}'] == "4", f"{samples}")
    expect(all("amt_gateway" not in it for it in of(samples, "relay")), f"{samples}")
    expect(all("amt_relay" not in it for it in of(samples, "gateway")), f"{samples}")


@test
def an_outcome_that_never_was_is_0():
    with ends_of(whole()) as [end], exporting([], a=end.place) as exporter:
        samples = exporter.samples()
        for word in IGNORED:
            expect(samples[f'amt_relay_ignored_total{{end="a",cause="{word}"}}'] == "0", word)


@test
def each_metric_is_described_once_and_right():
    three = StandIn(whole(plain=GATEWAY_PLAIN), shown("idle"))
    with ends_of(whole(), whole()) as [one, two], contextlib.closing(three):
        with exporting([], one=one.place, two=two.place, three=three.place) as exporter:
            lines = exporter.get()[2].splitlines()
    expect(any(line.startswith("amt_gateway_state{") for line in lines), "no gateway")
    described = {}
    for line in lines:
        name = re.match(r"(?:# (?:HELP|TYPE) )?([a-z_]+)", line)[1]
        if line.startswith("# HELP"):
            expect(name not in described, f"{name} comes twice")
            described[name] = None
        elif line.startswith("# TYPE"):
            described[name] = line.split()[3]
            expect((described[name] == "counter") == name.endswith("_total"), line)
        else:
            expect(name == list(described)[-1] and described[name], f"out of place: {line}")


@test
def promtool_finds_nothing():
    if not shutil.which("promtool"):
        raise Skipped("there is no promtool")
    gone = f"{ADDRESS}:{no_port()}"
    gateway = StandIn(whole("= ignored nonce 3", plain=GATEWAY_PLAIN), shown("active"))
    with ends_of(whole("= badmac 3", packets=2**64)) as [end], contextlib.closing(gateway):
        with exporting(a=end.place, b=gateway.place, gone=gone) as exporter:
            text = exporter.get()[2]
    ran = subprocess.run(["promtool", "check", "metrics"], input=text, text=True, capture_output=True, timeout=60, check=False)
    expect((ran.returncode, ran.stdout, ran.stderr) == (0, "", ""), f"{ran}")


# Answers

@test
def an_end_that_is_gone_is_down_and_the_others_are_up():
    gone = f"{ADDRESS}:{no_port()}"
    with ends_of(whole(packets=7), []) as [end, silent]:
        lines = ["gone: nothing listens there", "silent: no answer came"]
        with exporting(lines, a=end.place, gone=gone, silent=silent.place) as exporter:
            for _ in range(2):
                samples = exporter.samples()
                expect([up(samples, it) for it in ("a", "gone", "silent")] == ["1", "0", "0"], f"{samples}")
                expect(samples['amt_relay_packets_total{end="a"}'] == "7", "another number")
                expect(not of(samples, "gone") and not of(samples, "silent"), f"{samples}")


@test
def ends_are_asked_at_once():
    silent = {f"silent{number}": [] for number in range(12)}
    with ends_of(*silent.values()) as made:
        with exporting(**dict(zip(silent, (it.place for it in made)))) as exporter:
            began = time.monotonic()
            samples = exporter.samples()
            took = time.monotonic() - began
            expect(all(up(samples, it) == "0" for it in silent), f"{samples}")
            expect(0.9 < took < 4, f"it took {took:.1f} s")


@test
def an_end_comes_back_with_counts_that_began_again():
    end = StandIn(whole(packets=900), [], whole(packets=3))
    with contextlib.closing(end), exporting(["a: no answer came", "a: it answers"], a=end.place) as exporter:
        seen = [exporter.samples().get('amt_relay_packets_total{end="a"}') for _ in range(3)]
        expect(seen == ["900", None, "3"], f"{seen}")


@test
def two_ends_of_both_families_have_their_own_numbers():
    with contextlib.closing(StandIn(whole(rows=5), address="::1")) as one, ends_of(whole(rows=6)) as [two]:
        with exporting([], **{"six-1.example": one.place, "four_2": two.place}) as exporter:
            samples = exporter.samples()
    expect(samples['amt_relay_memberships{end="six-1.example"}'] == "5", f"{samples}")
    expect(samples['amt_relay_memberships{end="four_2"}'] == "6", f"{samples}")


@test
def an_end_that_answers_twice_is_taken_once():
    first, second = whole(packets=1) * 2, whole(packets=2) * 2
    with contextlib.closing(StandIn(first, second)) as end, exporting([], a=end.place) as exporter:
        seen = [exporter.samples()['amt_relay_packets_total{end="a"}'] for _ in range(2)]
        expect(seen == ["1", "2"], f"{seen}")


def parts(number, more=()):
    """An answer in three datagrams, of which the last says this number."""
    lines = counts(packets=4).splitlines(keepends=True)
    return ["".join(lines[:5]), "".join(lines[5:9]), "".join(lines[9:]) + f". {number}\n", *more]


@test
def an_answer_of_several_datagrams_is_put_together():
    one, two, last = parts(3)
    for answer in ([one, two, last], [last, one, two], [one, 0.2, last, 0.2, two], [one, two, last, one, two, last]):
        with ends_of(answer) as [end], exporting([], a=end.place) as exporter:
            samples = exporter.samples()
            expect(samples['amt_relay_packets_total{end="a"}'] == "4", f"{answer}")


@test
def an_answer_that_lost_a_datagram_counts_as_none():
    one, two, last = parts(3)
    for answer, reason in (([one, last], "2 of 3"), ([last], "1 of 3"), ([one, two], "2 of more")):
        with ends_of(answer) as [end]:
            expect_down(end.place, f"of its answer {reason} datagrams came")
    with ends_of([one, two, parts(2)[2]]) as [end]:
        expect_down(end.place, "its answer has more datagrams than it says")


@test
def a_late_answer_is_not_taken_for_a_new_one():
    end = StandIn([1.3, *whole(packets=1)], [0.6, *whole(packets=2)])
    with contextlib.closing(end), exporting(["a: no answer came", "a: it answers"], a=end.place) as exporter:
        expect(up(exporter.samples(), "a") == "0", "an answer after 1.3 s")
        # (the late one comes while this one is waited for)
        expect(exporter.samples()['amt_relay_packets_total{end="a"}'] == "2", "the late answer")


@test
def an_answer_of_another_is_not_taken():
    asked = bound(ADDRESS, wait_s=SOON_S)
    with asked, bound(ADDRESS) as stranger:
        def answer():
            peer = asked.recvfrom(2000)[1]
            stranger.sendto(whole(packets=1)[0].encode(), peer)
        threading.Thread(target=answer, daemon=True).start()
        expect_down(f"{ADDRESS}:{asked.getsockname()[1]}", "no answer came")


@test
def an_answer_that_is_no_counts_is_none():
    right = counts()
    malformed = [b"", "turns 1", right + ". 1", right + "\n. 1\n", right + "turns 1\n. 1\n",
                 right + "= badmac 1\n= badmac 1\n. 1\n", right + "= badmac -1\n. 1\n", right + "= badmac\n. 1\n",
                 right + "= badmac 1.5\n. 1\n", right + f"= badmac {10 ** 20}\n. 1\n", right + ". 1\n= badmac 1\n. 1\n",
                 right.encode() + b"= badmac \xff\n. 1\n", right + "= badmac \u0661\n. 1\n", bytes(1400),
                 right + "= ignored nonce 1 1\n. 1\n", right + "= ignored 1 nonce\n. 1\n", right + "ignored nonce 1\n. 1\n"]
    for it in malformed:
        with ends_of([it]) as [end]:
            expect_down(end.place, "its answer is malformed")
    for it in ("\n", right, right + ". 1\n\n", right + ".1\n", right + ". one\n"):
        with ends_of([it]) as [end]:
            expect_down(end.place, "of its answer 1 of more datagrams came")
    for answer, reason in ((["bad word\n. 1\n"], "its answer is: bad word"), ([". 1\n"], "counts are missing in its answer"),
                           ([right.replace("owed 0\n", "") + ". 1\n"], "counts are missing in its answer"),
                           ([right + ". 0\n"], "its answer has more datagrams than it says"),
                           ([f"= a{'b' * it} 1\n" for it in range(70)], "its answer has more datagrams than it says"),
                           ([right + ". 2\n"] * 2, "its answer is malformed"),
                           ([right, right + ". 2\n"], "its answer is malformed")):
        with ends_of(answer) as [end]:
            expect_down(end.place, reason)


@test
def lines_of_a_later_version_are_counted():
    with ends_of(whole("= novel 3", "brims 4", packets=2)) as [end], exporting([], a=end.place) as exporter:
        samples = exporter.samples()
        expect(samples['amt_unread_lines{end="a"}'] == "2" and samples['amt_relay_packets_total{end="a"}'] == "2", f"{samples}")


# HTTP

@test
def nothing_but_the_page_and_its_index_is_served():
    with ends_of(whole()) as [end], exporting([], a=end.place) as exporter:
        status, headers, text = exporter.get("/")
        expect(status == 200 and headers["Content-Type"].startswith("text/html") and '"/metrics"' in text, text)
        for path in ("/metrics/", "/metric", "//", "/favicon.ico", "/../metrics", "/%6detrics"):
            expect(exporter.get(path)[0] == 404, path)
        for method in ("HEAD", "POST", "PUT", "DELETE", "get"):
            status, headers, _ = exporter.get(method=method)
            expect(status == 405 and headers["Allow"] == "GET", method)
        expect(exporter.get("/metrics?name=amt_up")[0] == 200, "with a query")
        expect(len(end.questions) == 1, f"it was asked {len(end.questions)} times")


@test
def what_is_no_request_is_refused():
    with ends_of(whole()) as [end], exporting([], a=end.place) as exporter:
        rows = [(b"GET /metrics HTTP/1.0\r\n\r\n", 200), (b"GET / HTTP/1.1\r\nHost: a\r\n\r\n", 200), (b"GET /\r\n\r\n", 400),
                (b"\r\n\r\n", 400), (b"GET  / HTTP/1.1\r\n\r\n", 400), (b"GET / HTTP/2.0\r\n\r\n", 400),
                (b"GET /\xff HTTP/1.1\r\n\r\n", 400), (b"\x16\x03\x01\x00\r\n\r\n", 400),
                (b"GET / HTTP/1.1\r\nA: " + b"a" * 9000 + b"\r\n\r\n", 431), (b"a" * 9000, 431)]
        for octets, status in rows:
            have = exporter.raw(octets)
            # (of a head that isn't read to its end the system may take the answer back)
            expect(have == status or (status == 431 and have is None), f"{octets[:40]}: status {have}")
        expect(exporter.get()[0] == 200, "it goes on")


@test
def no_body_is_read():
    with ends_of(whole()) as [end], exporting([], a=end.place) as exporter:
        with exporter.connect() as it:
            it.sendall(b"GET / HTTP/1.1\r\nContent-Length: 1000000\r\n\r\n")
            expect(it.recv(100).startswith(b"HTTP/1.1 200 "), "it waits for a body")


@test
def a_slow_client_is_closed_and_holds_up_nobody():
    with ends_of(whole()) as [end], exporting([], a=end.place) as exporter, exporter.connect() as slow:
        began, said = time.monotonic(), b""
        slow.settimeout(0.3)
        while time.monotonic() - began < SOON_S:
            try:
                slow.sendall(b"G")
                said = slow.recv(100)
                break
            except (TimeoutError, socket.timeout):
                expect(exporter.get()[0] == 200, "another client")
            except ConnectionError:
                break
        took = time.monotonic() - began
        expect(2.5 < took < SOON_S and (not said or b" 408 " in said), f"after {took:.1f} s: {said}")


class LongPage:
    """An exporter whose page is longer than what sockets hold."""

    async def page(self):
        return "#" * 8_000_000


@test
def a_client_that_takes_no_answer_is_closed():
    # (over the loopback the system takes all of a true page at once)
    program = runpy.run_path(EXPORTER, run_name="amt_exporter")
    client, connection = socket.socketpair()
    with client:
        connection.setblocking(False)
        client.sendall(b"GET /metrics HTTP/1.1\r\n\r\n")
        began = time.monotonic()
        asyncio.run(program["serve_connection"](connection, LongPage()))
        took, said = time.monotonic() - began, b""
        expect(2.5 < took < SOON_S, f"after {took:.1f} s")
        while part := client.recv(65536):
            said += part
        expect(b" 200 OK" in said[:20] and len(said) < 8_000_000, f"{len(said)} octets")


@test
def a_client_that_breaks_off_ends_nothing():
    with ends_of([0.2, *whole()]) as [end], exporting([], a=end.place) as exporter:
        for octets in (b"", b"GET /me", b"GET /metrics HTTP/1.1\r\n\r\n") * 10:
            with exporter.connect() as it:
                it.sendall(octets)
        expect(exporter.get()[0] == 200, "another client")


@test
def at_most_16_connections_are_served_and_the_others_wait():
    with ends_of(whole()) as [end], exporting([], a=end.place) as exporter, contextlib.ExitStack() as held:
        for _ in range(16):
            held.enter_context(exporter.connect())
        time.sleep(0.3)
        began = time.monotonic()
        descriptors = len(os.listdir(f"/proc/{exporter.process.pid}/fd"))
        waiting = [held.enter_context(exporter.connect()) for _ in range(16)]
        time.sleep(0.3)
        expect(len(os.listdir(f"/proc/{exporter.process.pid}/fd")) == descriptors, "it took more connections")
        for it in waiting:
            it.sendall(b"GET /metrics HTTP/1.1\r\n\r\n")
        for it in waiting:
            expect(b" 200 OK" in it.recv(100), "one that waited")
        took = time.monotonic() - began
        expect(2 < took < SOON_S, f"after {took:.1f} s")


@test
def many_clients_all_get_their_page_and_the_ends_few_questions():
    with ends_of([0.1, *whole(packets=7)]) as [end], exporting([], a=end.place) as exporter:
        found = []
        threads = [threading.Thread(target=lambda: found.append(exporter.samples()['amt_relay_packets_total{end="a"}']))
                   for _ in range(60)]
        for it in threads:
            it.start()
        for it in threads:
            it.join()
        expect(found == ["7"] * 60, f"{len(found)} pages, {set(found)}")
        expect(len(end.questions) < 30, f"{len(end.questions)} questions")


# Start and end

@test
def a_signal_ends_it_with_status_0():
    with ends_of([], whole()) as [silent, end]:
        for number in (signal.SIGTERM, signal.SIGINT):
            made = Exporter(a=end.place)
            expect(made.end(number) == (0, []), "when it is idle")
            # While it asks, with connections open that said something, nothing, or half of it.
            made = Exporter(a=silent.place)
            with made.connect() as one, made.connect() as two, made.connect():
                one.sendall(b"GET /metrics HTTP/1.1\r\n\r\n")
                two.sendall(b"GET ")
                time.sleep(0.4)
                expect(made.end(number) == (0, []), "while it asks")


@test
def wrong_arguments_are_one_line_and_status_2():
    right = ["--end", "a=127.0.0.1:9003"]
    rows = [[], ["--end"], ["--end", "127.0.0.1:9003"], ["--end", "=127.0.0.1:9003"], ["--end", "a=127.0.0.1"],
            ["--end", "a=localhost:9003"], ["--end", "a=::1:9003"], ["--end", "a=[127.0.0.1]:9003"], ["--end", "a=[::1]"],
            ["--end", "a=127.0.0.1:0"], ["--end", "a=127.0.0.1:65536"], ["--end", "a=127.0.0.1:+5"],
            ["--end", 'a"=127.0.0.1:5'], ["--end", "a b=127.0.0.1:5"], ["--end", f"{'a' * 65}=127.0.0.1:5"],
            [*right, *right], [*right, "more"],
            [*right, "--nothing"], [*right, "--list", "127.0.0.1:0"], [*right, "--listen", "9464"],
            [*right, "--listen", "127.0.0.1:65536"], [word for it in range(65) for word in ("--end", f"a{it}=127.0.0.1:5")]]
    for words in rows:
        ran = subprocess.run([EXPORTER, *words], text=True, capture_output=True, timeout=60, check=False)
        lines = ran.stderr.splitlines()
        expect(ran.returncode == 2 and not ran.stdout and len(lines) == 1, f"{words[:6]}: {ran}")
        expect(lines[0].startswith("amt-exporter: "), lines[0])


@test
def an_address_that_is_taken_is_one_line_and_status_1():
    with socket.create_server(("127.0.0.1", 0)) as taken:
        for place in (f"127.0.0.1:{taken.getsockname()[1]}", "192.0.2.1:9464"):
            ran = subprocess.run([EXPORTER, "--end", "a=127.0.0.1:5", "--listen", place], text=True, capture_output=True,
                                 timeout=60, check=False)
            expect(ran.returncode == 1 and re.fullmatch("amt-exporter: .+\n", ran.stderr) and not ran.stdout, f"{ran}")


@test
def help_is_printed():
    ran = subprocess.run([EXPORTER, "--help"], text=True, capture_output=True, timeout=60, check=False)
    expect(ran.returncode == 0 and "Exit status" in ran.stdout and not ran.stderr, f"{ran}")


# Prometheus

class Prometheus:
    """A server of the settings of examples/metrics, which scrapes this exporter each second, until `close`."""

    def __init__(self, exporter, folder):
        with socket.create_server(("127.0.0.1", 0)) as free:
            self.port = free.getsockname()[1]
        settings = (EXAMPLES / "metrics" / "prometheus.yml").read_text()
        expect("127.0.0.1:9464" in settings and "15s" in settings, "other settings")
        path = pathlib.Path(folder) / "prometheus.yml"
        path.write_text(settings.replace("127.0.0.1:9464", f"127.0.0.1:{exporter.port}").replace("15s", "1s"))
        self.process = subprocess.Popen(["prometheus", f"--config.file={path}", f"--storage.tsdb.path={folder}/data",
                                         f"--web.listen-address=127.0.0.1:{self.port}"],
                                        stdin=subprocess.DEVNULL, stdout=subprocess.DEVNULL, stderr=subprocess.DEVNULL)

    def get(self, path, **words):
        """What its API answers."""
        connection = http.client.HTTPConnection("127.0.0.1", self.port, timeout=SOON_S)
        with contextlib.closing(connection):
            connection.request("GET", f"/api/v1/{path}?{urllib.parse.urlencode(words)}")
            said = json.loads(connection.getresponse().read())
        expect(said["status"] == "success", f"{words}: {said}")
        return said["data"]

    def wait(self, query):
        """Until the query has an answer."""
        until = time.monotonic() + 60
        while time.monotonic() < until:
            with contextlib.suppress(OSError, http.client.HTTPException, ValueError):
                if self.get("query", query=query)["result"]:
                    return
            time.sleep(0.5)
        raise Failed(f"no answer to {query}")

    def close(self):
        self.process.terminate()
        self.process.wait()


def queries_of(board):
    """Each query of the board by its panel, as Grafana would ask it for all ends."""
    for panel in board["panels"]:
        for it in panel["targets"]:
            yield panel["title"], it["expr"].replace("$__rate_interval", "30s").replace("$end", ".*")


@test
def a_prometheus_answers_each_query_of_the_board():
    if not shutil.which("prometheus"):
        raise Skipped("there is no prometheus")
    board = json.loads((EXAMPLES / "metrics" / "board.json").read_text())
    rising = [whole(*(f"= {it} {number}" for it in ANSWERED + IGNORED), **{it: 3 * number for it in PLAIN})
              for number in range(1, 200)]
    words = [*(f"refused {it}" for it in GATEWAY_REFUSED), *(f"ignored {it}" for it in GATEWAY_IGNORED)]
    of_gateway = [it for number in range(1, 200)
                  for it in (whole(*(f"= {it} {number}" for it in words), plain=GATEWAY_PLAIN,
                                   **{it: 3 * number for it in GATEWAY_PLAIN}), shown("active"))]
    with contextlib.ExitStack() as held:
        relay = held.enter_context(contextlib.closing(StandIn(*rising)))
        gateway = held.enter_context(contextlib.closing(StandIn(*of_gateway)))
        exporter = held.enter_context(exporting(a=relay.place, b=gateway.place, gone=f"{ADDRESS}:{no_port()}"))
        folder = held.enter_context(tempfile.TemporaryDirectory())
        server = held.enter_context(contextlib.closing(Prometheus(exporter, folder)))
        server.wait("count_over_time(amt_relay_packets_total[1m]) >= 6")
        expect(server.get("label/end/values") == ["a", "b", "gone"], "other ends")
        expect(len(list(queries_of(board))) >= 16, "few queries")
        for title, query in queries_of(board):
            result = server.get("query", query=query)["result"]
            values = {it["metric"]["end"]: float(it["value"][1]) for it in result}
            wanted = {"a", "b", "gone"} if title == "Up" else {"b"} if "amt_gateway" in query else {"a"}
            expect(set(values) == wanted, f"{title}: {query}: {result}")
            expect(all(values[it] > 0 for it in wanted - {"gone"}), f"{title}: {query}: {result}")


# A real relay

@contextlib.contextmanager
def relay_of(command, folder):
    settings = {"relay": ADDRESS, "listen": f"{ADDRESS}:{AMT_PORT}", "feed": f"{ADDRESS}:{FEED}", "query4": ADDRESS,
                "control": f"{ADDRESS}:{CONTROL}", "workers": 1}
    path = loopback.write_settings(pathlib.Path(folder) / "relay.toml", settings)
    made = loopback.End([*command, "relay", path], ADDRESS, [AMT_PORT, FEED, CONTROL])
    try:
        yield made
    finally:
        made.stop()


def session(feed_packets):
    """Two endpoints join, one of them with a bad MAC too, and this number of packets goes to both."""
    relay = ADDRESS, AMT_PORT
    members = [Endpoint(ADDRESS, relay) for _ in range(2)]
    for it in members:
        it.ask()
        it.update([(IS_EX, GROUP, [])])
        it.settle()
    good = members[0].proof
    members[0].proof = bytes(6) + good[6:]
    members[0].update([(IS_EX, GROUP, [])])
    members[0].settle()
    with bound(ADDRESS) as feed:
        for _ in range(feed_packets):
            feed.sendto(packet(SOURCE, GROUP, b"text"), (ADDRESS, FEED))
    for it in members:
        for _ in range(feed_packets):
            expect(it.receive(loopback.DATA) is not None, "a copy is missing")
        it.socket.close()


def stop_line(unit, port, control):
    """What an end's unit runs to stop it, with this control socket for that port, and with this amtctl."""
    line = re.search(r"^ExecStop=-/bin/sh -c '(.*)'$", (EXAMPLES / "systemd" / f"{unit}.service").read_text(), re.M)
    asks = f"/usr/local/bin/amtctl 127.0.0.1:{port} "
    expect(line is not None and asks in line[1], "another ExecStop")
    return line[1].replace("$$", "$").replace(asks, f"{AMTCTL} {ADDRESS}:{control} ")


def stopped(end, line):
    """The report of an end after what its unit runs: with that written the line ends, and not before."""
    subprocess.run(["sh", "-c", line], env=dict(os.environ, MAINPID=str(end.process.pid)), timeout=60, check=False)
    status = end.process.poll()
    expect(status == 0, f"status {status}")
    return counts_of(end.process.communicate(timeout=SOON_S)[0])


def real_relay_is_counted_and_stopped(command):
    place = f"{ADDRESS}:{CONTROL}"
    with tempfile.TemporaryDirectory() as folder, relay_of(command, folder) as relay:
        with exporting(["relay: nothing listens there"], relay=place) as exporter:
            session(5)
            samples = exporter.samples()
            wanted = {"packets_total": "5", "memberships": "2", "owed": "0", "starved_total": "0", "unsent_total": "0"}
            for name, number in wanted.items():
                expect(samples[f'amt_relay_{name}{{end="relay"}}'] == number, f"{name}: {samples}")
            answered = {it: int(samples[f'amt_relay_answered_total{{end="relay",kind="{it}"}}']) for it in ANSWERED}
            ignored = {it: int(samples[f'amt_relay_ignored_total{{end="relay",cause="{it}"}}']) for it in IGNORED}
            expect(answered["updated"] == 2 and answered["copied"] == 5 and answered["queried"] >= 5, f"{answered}")
            expect({it for it, number in ignored.items() if number} == {"badmac"}, f"{ignored}")
            datagrams = int(samples['amt_relay_datagrams_total{end="relay"}'])
            expect(sum(answered.values()) + sum(ignored.values()) == datagrams + 5, f"{samples}")
            expect(samples['amt_unread_lines{end="relay"}'] == "0", "lines that it doesn't know")
            by_hand = subprocess.run([AMTCTL, place, "counts"], text=True, capture_output=True, timeout=60, check=True).stdout
            for line in by_hand.splitlines():
                expect(re.match("(= )?[a-z]+ [0-9]+$", line), line)
            report = stopped(relay, stop_line("amt-relay", 9003, CONTROL))
            expect(report["packets"] == "5", f"{report}")
            expect(up(exporter.samples(), "relay") == "0", "it has ended")
    # Where there is no process of the unit any more, another one's socket is left alone.
    with tempfile.TemporaryDirectory() as folder, relay_of(command, folder) as relay:
        line = stop_line("amt-relay", 9003, CONTROL)
        subprocess.run(["sh", "-c", line], env={"PATH": os.environ["PATH"]}, timeout=60, check=False)
        time.sleep(0.3)
        expect(relay.process.poll() is None, "another relay was stopped")


# A real gateway

@contextlib.contextmanager
def gateway_of(command, folder):
    settings = {"family": "v4", "source": loopback.HOST, "listen": f"{ADDRESS}:{LISTEN}", "deliver": f"{ADDRESS}:{DELIVER}",
                "control": f"{ADDRESS}:{GATEWAY_CONTROL}", "discovery": f"{ADDRESS}:{AMT_PORT}"}
    path = loopback.write_settings(pathlib.Path(folder) / "gateway.toml", settings)
    made = loopback.End([*command, "gateway", path], ADDRESS, [LISTEN, GATEWAY_CONTROL])
    try:
        yield made
    finally:
        made.stop()


def wait_for(exporter, sample, value):
    """The samples, once one has this value."""
    until = time.monotonic() + SOON_S
    while (samples := exporter.samples()).get(sample) != value:
        expect(time.monotonic() < until, f"{sample}: {samples}")
        time.sleep(0.1)
    return samples


def real_gateway_is_counted_and_stopped(command):
    asked = f"{ADDRESS}:{GATEWAY_CONTROL}"
    with contextlib.ExitStack() as held:
        folder = held.enter_context(tempfile.TemporaryDirectory())
        held.enter_context(relay_of(command, folder))
        gateway = held.enter_context(gateway_of(command, folder))
        host = held.enter_context(bound(ADDRESS, DELIVER))
        sender = held.enter_context(bound(ADDRESS))
        places = {"relay": f"{ADDRESS}:{CONTROL}", "gateway": asked}
        exporter = held.enter_context(exporting(["gateway: nothing listens there"], **places))
        wait_for(exporter, 'amt_gateway_state{end="gateway",state="idle"}', "1")
        for line in (f"open a {GROUP} exclude", f"open a {GROUP} exclude", "jump"):
            sender.sendto(line.encode(), (ADDRESS, GATEWAY_CONTROL))
        wait_for(exporter, 'amt_relay_memberships{end="relay"}', "1")
        for _ in range(5):
            sender.sendto(packet(SOURCE, GROUP, b"text"), (ADDRESS, FEED))
        samples = wait_for(exporter, 'amt_gateway_delivered_total{end="gateway"}', "5")
        wanted = {'state{end="gateway",state="active"}': "1", 'state{end="gateway",state="idle"}': "0",
                  'refused_total{end="gateway",cause="taken"}': "1", 'bad_lines_total{end="gateway"}': "1",
                  'exchanges_total{end="gateway",kind="active"}': "1", 'unsent_total{end="gateway"}': "0"}
        for name, value in wanted.items():
            expect(samples[f"amt_gateway_{name}"] == value, f"{name}: {samples}")
        expect(samples['amt_unread_lines{end="gateway"}'] == "0", "lines that it doesn't know")
        for _ in range(5):
            expect(host.recv(2000).endswith(b"text"), "a packet is missing")
        by_hand = subprocess.run([AMTCTL, asked, "show"], text=True, capture_output=True, timeout=60, check=True).stdout
        expect(re.fullmatch(f"state active\nrelay {ADDRESS}:{AMT_PORT}\ndue [0-9]+\n\\* a {GROUP} exclude\n", by_hand), by_hand)
        expect(stopped(gateway, stop_line("amt-gateway", 9002, GATEWAY_CONTROL))["delivered"] == "5", "another report")
        # The relay heard that the group is left.
        wait_for(exporter, 'amt_relay_memberships{end="relay"}', "0")
        expect(up(exporter.samples(), "gateway") == "0", "it has ended")


def tests(words):
    """The tests with one of these words in their names, by those."""
    command, names = (words[0] if words else "-"), words[1:]
    found = {it.__name__: it for it in TESTS}
    if command != "-":
        found["a_real_relay_is_counted_and_stopped"] = lambda: real_relay_is_counted_and_stopped(loopback.command_of([command]))
        found["a_real_gateway_is_counted_and_stopped"] = (
            lambda: real_gateway_is_counted_and_stopped(loopback.command_of([command])))
    return {name: it for name, it in found.items() if not names or any(word in name for word in names)}


def main(words):
    passed = failed = 0
    for name, it in tests(words).items():
        try:
            it()
            passed, said = passed + 1, "passed  "
        except Skipped as why:
            said = f"skipped  {why}: "
        except (Failed, OSError, LookupError, http.client.HTTPException, subprocess.SubprocessError) as why:
            failed, said = failed + 1, f"FAILED  {str(why)[:600]}: "
        print(said + name.replace("_", " "), flush=True)
    print(f"{passed} passed, {failed} failed")
    return 1 if failed else 0


if __name__ == "__main__":
    sys.exit(main(sys.argv[1:]))
