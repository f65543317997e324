"""A running relay and gateway that are asked by lines, over the loopback: tools/asked.sh [COMMAND]

Each line is sent as an operator would, also in bursts, by askers that are gone before the answer, and without end. It
says of each test whether it passed, prints what a flood and a large table cost, and ends with 1 where a test failed.
"""
import contextlib
import os
import re
import sys
import tempfile
import threading
import time

import loopback
from loopback import AMT_PORT, IS_EX, Endpoint, Failed, bound, counts_of, expect, packet

ADDRESS = f"127.68.{os.getpid() % 255}.1"
PEER = f"127.68.{os.getpid() % 255}.2"
FEED, CONTROL, LISTEN, DELIVER = 9000, 9003, 40000, 9001
GATEWAY_CONTROL = 9002
SOURCE, GROUP = "203.0.113.5", "233.252.0.1"
# How long an answer may take that comes at once. The machine may be busy.
SOON_S = 8.0
FLOOD_S, PACKETS_A_SECOND = 3, 500
GROUPS_OF_ONE, ENDPOINTS = 60, 160
BAD = {
    "relay": {"": "word", "x": "word", "counts 1": "count", "stop leave": "count", "show x": "peer", "show 1 2": "count"},
    "gateway": {
        "": "word", "x": "word", "counts 1": "count", "stop at once": "word", "stop leave now": "count", "show x": "count",
        "open": "count", "open a 10.0.0.1 exclude": "group",
    },
}
TESTS = []


def test(function):
    TESTS.append(function)
    return function


class Asker:
    """A socket from which lines are sent to one control socket."""

    def __init__(self, port, wait_s=SOON_S):
        self.socket = bound(PEER, wait_s=wait_s)
        self.to = (ADDRESS, port)

    def send(self, line):
        self.socket.sendto(line.encode(), self.to)

    def answer(self):
        """The text of the next answer, without its last line; None where none comes."""
        text, count = "", 0
        while True:
            try:
                part = self.socket.recv(65535)
            except (TimeoutError, BlockingIOError):
                return None
            expect(len(part) <= 1400, f"a datagram of {len(part)} octets")
            text, count = text + part.decode("ascii"), count + 1
            last = re.search(r"(?:^|\n)\. (\d+)\n$", text)
            if last:
                expect(int(last[1]) == count, f"{count} datagrams and not {last[1]}")
                return text[: text.rindex(". ")]

    def ask(self, line):
        self.send(line)
        answer = self.answer()
        expect(answer is not None, f"no answer to {line!r}")
        return answer


def counted(asker):
    """The answer to `counts`: its numbers, and those of outcomes by their words."""
    lines = asker.ask("counts").splitlines()
    plain = counts_of("\n".join(line for line in lines if not line.startswith("= ")))
    words = {line[2:].rpartition(" ")[0]: int(line.rpartition(" ")[2]) for line in lines if line.startswith("= ")}
    return {name: int(value) for name, value in plain.items()}, words


@contextlib.contextmanager
def running(command, kind, *more, turns=None, report=0):
    """An end with a control socket, for as long as the block."""
    with tempfile.TemporaryDirectory() as folder:
        path = os.path.join(folder, f"{kind}.toml")
        if kind == "relay":
            settings = {"relay": ADDRESS, "listen": f"{ADDRESS}:{AMT_PORT}", "feed": f"{ADDRESS}:{FEED}",
                        "query4": ADDRESS, "control": f"{ADDRESS}:{CONTROL}"}
            ports = [AMT_PORT, FEED, CONTROL]
        else:
            settings = {"family": "v4", "source": "198.51.100.7", "listen": f"{ADDRESS}:{LISTEN}",
                        "discovery": f"{ADDRESS}:{AMT_PORT}", "deliver": f"{ADDRESS}:{DELIVER}",
                        "control": f"{ADDRESS}:{GATEWAY_CONTROL}"}
            ports = [LISTEN, GATEWAY_CONTROL]
        settings["report_seconds"] = report
        loopback.write_settings(path, settings)
        end = loopback.End([*command, kind, path, *(["--turns", str(turns)] if turns else []), *more], ADDRESS, ports)
        try:
            yield end
        finally:
            end.stop()


def port_of(kind):
    return CONTROL if kind == "relay" else GATEWAY_CONTROL


def until(holds, what):
    """Waits for it."""
    end = time.monotonic() + SOON_S
    while not holds():
        expect(time.monotonic() < end, what)
        time.sleep(0.05)


def is_refused(kind, asker):
    """Each bad line is answered by its reason, and what looks like an answer by nothing."""
    for line, reason in BAD[kind].items():
        answer = asker.ask(line)
        expect(answer == f"bad {reason}\n", f"{line!r}: {answer!r}")
    quiet = Asker(port_of(kind), wait_s=0.5)
    for line in ("bad word", ". 1"):
        quiet.send(line)
        expect(quiet.answer() is None, f"{line!r} is answered")


def ends_by(asker, end, line):
    """The run ends by this line, with its report."""
    expect(asker.ask(line) == "", f"{line}: it has a text")
    status, out, err = end.wait(SOON_S)
    expect(status == 0 and out.startswith("end turns\n"), f"{line}: status {status}, {out!r}, {err!r}")
    return {name: int(value) for name, value in counts_of(out.split("\n", 1)[1]).items()}


@test
def a_relay_answers_each_line(command):
    with running(command, "relay") as end:
        asker = Asker(CONTROL)
        numbers, words = counted(asker)
        expect(set(words) <= {"moved"}, f"outcomes before anything came: {words}")
        member = Endpoint(PEER, (ADDRESS, AMT_PORT))
        member.ask()
        member.update([(IS_EX, GROUP, [])])
        member.settle()
        here = f"{PEER}:{member.socket.getsockname()[1]}"
        row = f"* {here} {GROUP} exclude"
        expect(asker.ask("show").startswith(row), "show")
        expect(asker.ask(f"show {here}") == asker.ask("show"), "show of one endpoint")
        expect(asker.ask(f"show {PEER}:1") == "", "show of nobody")
        is_refused("relay", asker)
        numbers, words = counted(asker)
        expect(numbers["rows"] == 1 and numbers["updated"] == 1 and numbers["datagrams"] == 3, str(numbers))
        expect(words["queried"] == 2 and words["updated"] == 1, str(words))
        report = ends_by(asker, end, "stop")
        expect(report["updated"] == 1 and report["starved"] == 0, str(report))


@test
def a_gateway_answers_each_line(command):
    with running(command, "relay") as relay, running(command, "gateway") as end:
        asker, of_relay = Asker(GATEWAY_CONTROL), Asker(CONTROL)
        expect(asker.ask("show").startswith("state idle\nrelay none\n"), "show of an idle gateway")
        asker.send(f"open news {GROUP} exclude")
        until(lambda: "state active\n" in asker.ask("show"), "it doesn't become active")
        expect(f"* news {GROUP} exclude" in asker.ask("show"), "its socket isn't shown")
        expect(f"relay {ADDRESS}:{AMT_PORT}\n" in asker.ask("show"), "its relay isn't shown")
        until(lambda: of_relay.ask("show") != "", "the relay has no membership")
        is_refused("gateway", asker)
        numbers, words = counted(asker)
        expect(numbers["bad_controls"] == len(BAD["gateway"]) + 2, str(numbers))
        expect(words["active"] == 1 and words["discovering"] >= 1, str(words))
        ends_by(asker, end, "stop leave")
        until(lambda: of_relay.ask("show") == "", "it didn't leave")
        ends_by(of_relay, relay, "stop")


@test
def both_ends_write_what_has_changed(command):
    """Each second a line of the counts that have changed goes to standard error; where none has, nothing does."""
    with running(command, "relay", report=1) as relay, running(command, "gateway", report=1) as gateway:
        member = Endpoint(PEER, (ADDRESS, AMT_PORT))
        member.ask()
        member.update([(IS_EX, GROUP, [])])
        member.settle()
        time.sleep(4.5)
        for end, port, most, told in ((relay, CONTROL, 3, "updated 1"), (gateway, GATEWAY_CONTROL, 1, "delivered 0")):
            expect(Asker(port).ask("stop") == "", "stop")
            status, _out, err = end.wait(SOON_S)
            lines = err.splitlines()
            whole = all(re.fullmatch(r"amt: [1-9]\d* s:( ([a-z_]+ )+\d+)+", line) for line in lines)
            expect(status == 0 and whole and 1 <= len(lines) <= most and told in err, f"status {status}, {err!r}")


@test
def askers_that_are_gone_change_nothing(command):
    with running(command, "relay") as end:
        for _ in range(20):
            gone = Asker(CONTROL)
            gone.send("counts")
            gone.socket.close()
        one, other = Asker(CONTROL), Asker(CONTROL)
        one.send("show")
        other.send("x")
        expect(other.answer() == "bad word\n" and one.answer() == "", "each has its own answer")
        ends_by(one, end, "stop")


@test
def a_stop_amid_a_burst_ends_the_run(command):
    for kind in ("relay", "gateway"):
        with running(command, kind) as end:
            asker = Asker(port_of(kind))
            for line in ["counts"] * 30 + ["stop"] + ["counts"] * 30:
                asker.send(line)
            status, out, _ = end.wait(SOON_S)
            expect(status == 0 and out.startswith("end turns\n"), f"{kind}: status {status}")
            answers = 0
            asker.socket.setblocking(False)
            while asker.answer() is not None:
                answers += 1
            expect(31 <= answers <= 61, f"{kind}: {answers} answers")


def share_of(command, floods):
    """Which share of the packets a member gets, and how many turns a second there are, while lines come without end."""
    with running(command, "relay") as end:
        member, asker = Endpoint(PEER, (ADDRESS, AMT_PORT)), Asker(CONTROL)
        member.ask()
        member.update([(IS_EX, GROUP, [])])
        member.settle()
        going, sent = threading.Event(), [0]

        def flood():
            flooding = bound(PEER)
            while not going.is_set():
                flooding.sendto(b"counts", (ADDRESS, CONTROL))
                sent[0] += 1

        thread = threading.Thread(target=flood, daemon=True)
        before, began = counted(asker)[0]["turns"], time.monotonic()
        if floods:
            thread.start()
        feeding, got = bound(PEER), 0
        member.socket.setblocking(False)
        for number in range(FLOOD_S * PACKETS_A_SECOND):
            while time.monotonic() < began + number / PACKETS_A_SECOND:
                time.sleep(0.0005)
            feeding.sendto(packet(SOURCE, GROUP, b"%d" % number), (ADDRESS, FEED))
            while member.receive(loopback.DATA):
                got += 1
        going.set()
        spent = time.monotonic() - began
        time.sleep(0.3)
        while member.receive(loopback.DATA):
            got += 1
        until(lambda: Asker(CONTROL, wait_s=1.0).ask("counts"), "it doesn't answer any more")
        after = counted(Asker(CONTROL))[0]["turns"]
        end.stop()
        return got / (FLOOD_S * PACKETS_A_SECOND), (after - before) / spent, sent[0] / spent


@test
def a_flood_of_lines_leaves_the_packets(command):
    for floods in (False, True):
        share, turns, lines = share_of(command, floods)
        print(f"     {lines:9.0f} lines a second: {100 * share:5.1f} percent of the packets, {turns:6.0f} turns a second")
        expect(share > 0.99, f"only {100 * share:.1f} percent")


@test
def a_large_table_is_counted(command):
    with running(command, "relay", "--workers", "0"):
        asker = Asker(CONTROL)
        for endpoints in (0, ENDPOINTS):
            for number in range(endpoints):
                member = Endpoint(PEER, (ADDRESS, AMT_PORT), port=20_000 + number)
                member.ask()
                member.update([(IS_EX, f"239.2.0.{group}", []) for group in range(1, GROUPS_OF_ONE + 1)])
                member.settle()
                member.socket.close()
            began = time.monotonic()
            tries = 50
            for _ in range(tries):
                numbers = counted(asker)[0]
            print(f"     {numbers['rows']:6} memberships: counts take {1000 * (time.monotonic() - began) / tries:.1f} ms")
            expect(numbers["rows"] == endpoints * GROUPS_OF_ONE, str(numbers))


def main():
    command, failed = loopback.command_of(sys.argv[1:2]), 0
    for one in TESTS:
        try:
            one(command)
            print(f"ok   {one.__name__}")
        except Failed as error:
            failed += 1
            print(f"FAIL {one.__name__}: {error}")
        finally:
            loopback.stop_all()
    print(f"{len(TESTS) - failed} passed, {failed} failed")
    return 1 if failed else 0


if __name__ == "__main__":
    sys.exit(main())
