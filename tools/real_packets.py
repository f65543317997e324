"""Tests amt-feed, amt-deliver and amt-join: tools/real-packets.sh [WORD..]

It needs root, and no namespace is left. It says of each test whether it passed, and ends with 1 where one did not.
"""
import contextlib
import os
import pathlib
import re
import shutil
import signal
import struct
import subprocess
import sys
import tempfile
import time

from loopback import Failed, bound, expect, ipv4
from namespaces import ip
from real_lan import (CONTROL, DELIVER, DEVICE, FEED, GROUP, GROUP6, HERE, Host, Lan, NEAR_IP, NEAR_IP6, NOBODY, OTHER, PORT,
                      SOON_S, SOURCE, SOURCE2, SOURCE6, TESTS, Tool, control_of, delivering, expect_sound, feed_of, feeding,
                      finish, hears, nothing_more, receive, running, sending, sockets_in, sound, test, udp, wire_of)

# All three

STARTS = {"amt-feed": ["--interface", DEVICE, "--group", GROUP, "--to", f"127.0.0.1:{FEED}"],
          "amt-deliver": ["--interface", DEVICE, "--listen", f"127.0.0.1:{DELIVER}"],
          "amt-join": ["--interface", DEVICE, "--family", "v4", "--control", f"127.0.0.1:{CONTROL}"]}


def refused(lan, name, words, status, **how):
    """It ends at once with this status and one line; the line."""
    made = Tool(lan, name, words, **how)
    try:
        ended, errors = made.ended()
    finally:
        made.kill()
    expect(ended == status, f"{name} {words}: status {ended}, wanted {status}, {errors}")
    expect(len(errors) == 1 and errors[0].startswith(f"{name}: ") and not made.lines, f"{name} {words}: {errors} {made.lines}")
    return errors[0]


def but(name, *words):
    """The words of a right start, with these in the place of those that have the same names."""
    made = list(STARTS[name])
    for key, value in zip(words[::2], words[1::2]):
        if key in made:
            made[made.index(key) + 1] = value
        else:
            made += [key, value]
    return made


@test
def wrong_arguments_are_one_line_and_status_2(lan):
    for name, start in STARTS.items():
        for place in range(0, len(start), 2):
            refused(lan, name, start[:place] + start[place + 2:], 2)
        for words in (["--nothing"], ["--report", "0"], ["--inter", DEVICE], ["more"]):
            refused(lan, name, start + words, 2)
    for words in (["--group", "203.0.113.1"], ["--group", "224.0.0.9"], ["--group", "ff02::9"], ["--source", "2001:db8::1"],
                  ["--source", GROUP], ["--longest", "19"], ["--to", "127.0.0.1"], ["--to", "localhost:9000"],
                  ["--to", "::1:9000"]):
        refused(lan, "amt-feed", but("amt-feed", *words), 2)
    for words in (["--tun", "amt1"], ["--listen", "127.0.0.1:65536"], ["--not-from", "198.51.100.1/24"], ["--interface", "a/b"]):
        refused(lan, "amt-deliver", but("amt-deliver", *words), 2)
    for words in (["--family", "v5"], ["--only", "ff00::/8"], ["--query-seconds", "128"], ["--query-source", "fe80::1"],
                  ["--expire", "-1"], ["--control", "127.0.0.1:0"]):
        refused(lan, "amt-join", but("amt-join", *words), 2)


@test
def help_is_printed(lan):
    for name in STARTS:
        made = Tool(lan, name, ["--help"])
        status, errors = made.ended()
        expect(status == 0 and not errors and any("Exit status" in it for it in made.lines), f"{name}: {status} {errors}")


@test
def an_interface_that_is_not_there_is_one_line_and_status_1(lan):
    for name in STARTS:
        line = refused(lan, name, but(name, "--interface", "lan9"), 1)
        expect("lan9" in line, line)
    for name in ("amt-deliver", "amt-join"):
        refused(lan, name, but(name, "--interface", "lo"), 1)


@test
def missing_rights_are_one_line_and_status_1(lan):
    how = {"user": NOBODY, "group": NOBODY, "extra_groups": []}
    for name, start in STARTS.items():
        line = refused(lan, name, start, 1, **how)
        expect("CAP_NET_RAW" in line, line)
    line = refused(lan, "amt-deliver", ["--listen", f"127.0.0.1:{DELIVER}", "--tun", "amt1"], 1, **how)
    expect("CAP_NET_ADMIN" in line, line)


@test
def no_right_is_left_once_it_is_ready(lan):
    lent = ["setpriv", f"--reuid={NOBODY}", f"--regid={NOBODY}", "--clear-groups", "--inh-caps=+net_raw",
            "--ambient-caps=+net_raw"]
    for name, start in STARTS.items():
        for prefix in ([], lent):
            with running(lan, name, *start, prefix=prefix) as tool:
                status = pathlib.Path(f"/proc/{tool.process.pid}/status").read_text(encoding="ascii")
                expect(re.search(r"^Uid:\s(65534\s?){4}$", status, re.M), f"{name}: another user")
                for which in ("CapPrm", "CapEff", "CapAmb"):
                    expect(re.search(rf"^{which}:\s0+$", status, re.M), f"{name}: {which} isn't empty")
                expect(tool.end()[0] == 0, f"{name}: another status")
    refused(lan, "amt-feed", but("amt-feed", "--user", "no_such_user"), 1)


@test
def a_signal_ends_it_with_status_0_and_the_counts(lan):
    for name, start in STARTS.items():
        for number in (signal.SIGTERM, signal.SIGINT):
            with running(lan, name, *start) as tool:
                status, errors = tool.end(number)
                expect(status == 0 and not errors, f"{name}: status {status}, {errors}")
                expect(len(tool.counts()) > 4, f"{name}: {tool.lines}")


@test
def the_counts_are_printed_at_an_interval(lan):
    for name, start in STARTS.items():
        with running(lan, name, *start, "--report", "1") as tool:
            until = time.monotonic() + 8
            while sum(" 0 " in it for it in tool.lines) < 2:
                tool.read(0.2)
                expect(time.monotonic() < until, f"{name}: {tool.lines}")


@test
def an_interface_that_goes_ends_it_with_status_1(lan):
    for name, start in STARTS.items():
        with running(lan, name, *start) as tool:
            lan.unlink()
            try:
                status, errors = tool.ended()
            finally:
                lan.link()
            expect(status == 1 and len(errors) == 1, f"{name}: status {status}, {errors}")


# amt-feed

@test
def a_feed_gets_the_packets_of_its_group_as_they_came(lan):
    with feed_of(lan) as feed, wire_of(lan) as wire, feeding(lan, "--group", GROUP, "--group", GROUP6) as tool:
        # (the last one is shorter than a frame may be, so that it is filled up)
        sent = [udp(SOURCE, GROUP, b"one"), udp(SOURCE6, GROUP6, b"two"), udp(SOURCE2, GROUP, bytes(1472)),
                ipv4(99, 1, SOURCE, GROUP, b"")]
        for it in (udp(SOURCE, OTHER, b"other"), udp(SOURCE6, "ff3e::8000:2", b"other"), *sent[:3], sent[3] + bytes(26)):
            wire.send(it)
        # (which family comes first is open)
        got = receive(feed, 4)
        expect(sorted(got) == sorted(sent), f"got {got}")
        nothing_more(feed)
        finish(tool, passed=4, lost=0, unsent=0, long=0, bad=0)


@test
def a_feed_gets_the_sources_that_it_wants(lan):
    with feed_of(lan) as feed, wire_of(lan) as wire:
        with feeding(lan, "--group", GROUP, "--group", OTHER, "--group", GROUP6, "--source", SOURCE, "--source", SOURCE2) as tool:
            filters = sockets_in(lan.near, lambda: pathlib.Path("/proc/thread-self/net/mcfilter").read_text(encoding="ascii"))
            for group in ("0xe9fc0001", "0xe9fc0002"):
                for source in ("0xcb007105", "0xcb007106"):
                    expect(re.search(f"{group} {source}", filters), f"the kernel hasn't joined {group} {source}: {filters}")
            sent = [udp(SOURCE, GROUP, b"1"), udp(SOURCE2, OTHER, b"2"), udp(SOURCE6, GROUP6, b"3")]
            for it in (sent[0], udp("203.0.113.7", GROUP, b"no"), sent[1], sent[2]):
                wire.send(it)
            expect(sorted(receive(feed, 3)) == sorted(sent), "other packets came")
            nothing_more(feed)
            finish(tool, passed=3)
        filters = sockets_in(lan.near, lambda: pathlib.Path("/proc/thread-self/net/mcfilter").read_text(encoding="ascii"))
        expect("0xe9fc0001" not in filters, "the kernel hasn't left the groups")


@test
def packets_of_a_real_sender_have_right_checksums(lan):
    with feed_of(lan) as feed, feeding(lan, "--group", GROUP, "--group", GROUP6) as tool:
        for group in (GROUP, GROUP6):
            with sending(lan.far, group) as sender:
                for size in (1, 100, 1001):
                    sender.sendto(bytes(range(256)) * 4 if size > 1000 else bytes(size), (group, PORT))
            for it in receive(feed, 3):
                expect_sound(it)
        finish(tool, passed=6)


@test
def fragments_are_passed_as_they_come(lan):
    text = os.urandom(4000)
    with feed_of(lan) as feed, feeding(lan, "--group", GROUP) as tool, sending(lan.far, GROUP) as sender:
        sender.sendto(text, (GROUP, PORT))
        got = receive(feed, 3)
        places = [struct.unpack_from("!H", it, 6)[0] & 0x3FFF for it in got]
        expect(places == [0x2000, 0x2000 + 185, 370], f"other fragments: {places}")
        expect(b"".join(it[20:] for it in got)[8:] == text, "another text")
        finish(tool, passed=3)


@test
def a_packet_that_is_too_long_is_counted(lan):
    with feed_of(lan) as feed, wire_of(lan) as wire, feeding(lan, "--group", GROUP, "--longest", "1000") as tool:
        short, long = udp(SOURCE, GROUP, bytes(972)), udp(SOURCE, GROUP, bytes(973))
        for it in (long, short):
            wire.send(it)
        expect(receive(feed, 1) == [short], "another packet")
        finish(tool, passed=1, long=1)


@test
def a_packet_that_is_cut_is_counted(lan):
    with feed_of(lan) as feed, wire_of(lan) as wire, feeding(lan, "--group", GROUP) as tool:
        whole = udp(SOURCE, GROUP, bytes(100))
        for it in (whole[:-1], whole):
            wire.send(it)
        expect(receive(feed, 1) == [whole], "another packet")
        finish(tool, passed=1, bad=1)


@test
def what_the_host_itself_sends_is_passed_where_that_is_wanted(lan):
    for words, wanted in (((), 0), (("--also-own",), 2)):
        with feed_of(lan) as feed, wire_of(lan) as wire, feeding(lan, "--group", GROUP, "--group", GROUP6, *words) as tool:
            for group in (GROUP, GROUP6):
                with sending(lan.near, group) as sender:
                    sender.sendto(b"own", (group, PORT))
            wire.send(udp(SOURCE, GROUP, b"end"))
            got = receive(feed, wanted + 1)
            # (which family comes first is open)
            expect(len(got) == wanted + 1 and udp(SOURCE, GROUP, b"end") in got, f"{words}: {got}")
            for it in got:
                expect_sound(it)
            finish(tool, passed=wanted + 1)


@test
def a_feed_that_is_gone_is_counted_and_may_come_back(lan):
    with wire_of(lan) as wire, feeding(lan, "--group", GROUP, "--report", "1") as tool:
        for _ in range(10):
            wire.send(udp(SOURCE, GROUP, b"nobody"))
        until = time.monotonic() + SOON_S
        while not tool.lines[-1].startswith("passed 0 lost 0 unsent 10 "):
            tool.read(0.2)
            expect(time.monotonic() < until, tool.lines[-1])
        with feed_of(lan) as feed:
            wire.send(udp(SOURCE, GROUP, b"back"))
            expect(receive(feed, 1) == [udp(SOURCE, GROUP, b"back")], "nothing came")
        finish(tool, passed=1, unsent=10)


@test
def a_feed_goes_on_when_its_interface_was_down(lan):
    with feed_of(lan) as feed, feeding(lan, "--group", GROUP) as tool:
        for state in ("down", "up"):
            ip("-n", lan.near, "link", "set", DEVICE, state)
            time.sleep(0.3)
        ip("-n", lan.near, "addr", "add", NEAR_IP6 + "/64", "dev", DEVICE)
        with wire_of(lan) as wire:
            wire.send(udp(SOURCE, GROUP, b"up"))
            expect(receive(feed, 1) == [udp(SOURCE, GROUP, b"up")], "nothing came")
        finish(tool, passed=1)


@test
def a_filter_takes_many_groups_and_sources(lan):
    groups = [f"233.252.{place // 200}.{1 + place % 200}" for place in range(210)]
    groups += [f"ff3e::8000:{place:x}" for place in range(1, 40)]
    sources = ["203.0.113.1", "203.0.113.2"] + [f"2001:db8:1::{place:x}" for place in range(1, 12)]
    words = [word for it in groups for word in ("--group", it)] + [word for it in sources for word in ("--source", it)]
    with feed_of(lan) as feed, wire_of(lan) as wire, feeding(lan, *words) as tool:
        sent = [udp(sources[1], groups[0], b"first"), udp(sources[0], groups[209], b"last"),
                udp(sources[2], groups[210], b"first"), udp(sources[-1], groups[-1], b"last")]
        for it in (udp("203.0.113.3", groups[0], b"no"), udp("2001:db8:1::c", groups[-1], b"no"), *sent):
            wire.send(it)
        expect(sorted(receive(feed, 4)) == sorted(sent), "other packets came")
        nothing_more(feed)
        finish(tool, passed=4)


# amt-deliver

@contextlib.contextmanager
def gateway_of(lan):
    """A socket that sends to amt-deliver, as a gateway does."""
    with sockets_in(lan.near, lambda: bound("127.0.0.1")) as made:
        yield lambda packet: made.sendto(packet, ("127.0.0.1", DELIVER))


@test
def hosts_get_the_packets_by_their_own_kernels(lan):
    with delivering(lan) as tool, gateway_of(lan) as deliver:
        hosts = [Host(lan, GROUP), Host(lan, GROUP6), Host(lan, OTHER, SOURCE2)]
        for place in range(20):
            deliver(udp(SOURCE, GROUP, b"v4 %d" % place))
            deliver(udp(SOURCE6, GROUP6, b"v6 %d" % place))
            deliver(udp(SOURCE2 if place % 2 else SOURCE, OTHER, b"of %d" % place))
        expect(hosts[0].receive(20) == [b"v4 %d" % place for place in range(20)], "IPv4: other packets")
        expect(hosts[1].receive(20) == [b"v6 %d" % place for place in range(20)], "IPv6: other packets")
        expect(hosts[2].receive(10) == [b"of %d" % place for place in range(1, 20, 2)], "of a source: other packets")
        for it in hosts:
            nothing_more(it.socket, 0.1)
            it.close()
        finish(tool, sent=60, lost=0, unsent=0, long=0, bad=0, scope=0, ttl=0, loop=0)


@test
def a_packet_goes_out_as_it_came_in_a_frame_to_its_group(lan):
    fragment = ipv4(17, 9, SOURCE, "239.129.2.3", bytes(64))
    fragment = fragment[:6] + b"\x20\x08\0\0" + fragment[10:]
    fragment = fragment[:8] + bytes([9, 17, 0, 0]) + fragment[12:]
    fragment = fragment[:10] + sound(fragment[:20]) + fragment[12:]
    sent = [udp(SOURCE, GROUP, b"one"), fragment, udp(SOURCE6, GROUP6, b"two"), udp(SOURCE, GROUP, bytes(1472))]
    with wire_of(lan) as wire, delivering(lan) as tool, gateway_of(lan) as deliver:
        for it in sent:
            deliver(it)
        last = sent[-1]
        frames = [it for it in wire.frames(SOON_S, lambda it: it[14:] == last) if it[14:] in sent]
        expect([it[14:] for it in frames] == sent, f"other packets: {frames}")
        links = [it[:6].hex() for it in frames]
        expect(links == ["01005e7c0001", "01005e010203", "333380000001", "01005e7c0001"], f"other link addresses: {links}")
        finish(tool, sent=4)


@test
def packets_that_no_router_forwards_are_refused_and_counted(lan):
    good = udp(SOURCE, GROUP, b"good")
    cases = {
        "ttl": [udp(SOURCE, GROUP, b"x", 1), udp(SOURCE, GROUP, b"x", 0), udp(SOURCE6, GROUP6, b"x", 1)],
        "scope": [udp(SOURCE, "224.0.0.251", b"x"), udp(SOURCE, "192.0.2.9", b"x"), udp(SOURCE6, "ff02::9", b"x"),
                  udp(SOURCE6, "2001:db8::9", b"x")],
        "bad": [b"", b"\x45", good[:-1], good + b"\0", good[:10] + b"\0\0" + good[12:], b"\x44" + good[1:], b"\x55" + good[1:],
                udp(SOURCE6, GROUP6, b"x")[:-1], udp(SOURCE6, GROUP6, b"x") + b"x", bytes(100)],
        "long": [udp(SOURCE, GROUP, bytes(1473)), udp(SOURCE6, GROUP6, bytes(60000))],
    }
    with wire_of(lan) as wire, delivering(lan) as tool, gateway_of(lan) as deliver:
        for packets in cases.values():
            for it in packets:
                deliver(it)
        deliver(good)
        frames = [it for it in wire.frames(SOON_S, lambda it: it[14:] == good) if it[0] & 1 and it[6:12] != bytes(6)]
        came = [it for it in frames if it[14:] == good or it[14:] in sum(cases.values(), [])]
        expect([it[14:] for it in came] == [good], f"{came}")
        finish(tool, sent=1, loop=0, **{name: len(packets) for name, packets in cases.items()})


@test
def packets_from_where_they_go_are_loops(lan):
    words = ("--interface", DEVICE, "--not-from", "192.0.2.0/24", "--not-from", "2001:db8:9::/48")
    with wire_of(lan) as wire, delivering(lan, *words) as tool:
        with gateway_of(lan) as deliver:
            for source in ("198.51.100.77", NEAR_IP, "192.0.2.255", "127.0.0.1", "169.254.1.1", "0.0.0.0", "240.0.0.1"):
                deliver(udp(source, GROUP, b"loop"))
            for source in ("2001:db8:3::77", "2001:db8:9:9::9", "fe80::1", "::", "::1", "ff3e::1"):
                deliver(udp(source, GROUP6, b"loop"))
            # A network that the interface gets while it runs.
            deliver(udp("203.0.113.200", GROUP, b"before"))
            frames = wire.frames(SOON_S, lambda it: b"before" in it)
            expect(frames and frames[-1][14:] == udp("203.0.113.200", GROUP, b"before"), "nothing came")
            ip("-n", lan.near, "addr", "add", "203.0.113.129/25", "dev", DEVICE)
            time.sleep(0.5)
            deliver(udp("203.0.113.200", GROUP, b"after"))
            deliver(udp(SOURCE, GROUP, b"end"))
            frames = wire.frames(SOON_S, lambda it: it[14:] == udp(SOURCE, GROUP, b"end"))
            ip("-n", lan.near, "addr", "del", "203.0.113.129/25", "dev", DEVICE)
        expect(not any(b"loop" in it or b"after" in it for it in frames), f"{frames}")
        finish(tool, sent=2, loop=14)


@test
def a_ttl_is_lowered_where_that_is_wanted(lan):
    with wire_of(lan) as wire, delivering(lan, "--interface", DEVICE, "--lower-ttl") as tool, gateway_of(lan) as deliver:
        for it in (udp(SOURCE, GROUP, b"one", 2), udp(SOURCE6, GROUP6, b"two", 255), udp(SOURCE, GROUP, b"no", 1)):
            deliver(it)
        wanted = [udp(SOURCE, GROUP, b"one", 1), udp(SOURCE6, GROUP6, b"two", 254)]
        frames = wire.frames(SOON_S, lambda it: it[14:] == wanted[1])
        expect([it[14:] for it in frames if it[14:] in wanted] == wanted, f"{frames}")
        finish(tool, sent=2, ttl=1)


@test
def programs_of_the_host_join_at_a_tun_device(lan):
    with delivering(lan, "--tun", "amt1") as tool, gateway_of(lan) as deliver:
        hosts = [Host(lan, it, where=lan.near, device="amt1") for it in (GROUP, GROUP6)]
        for place in range(5):
            deliver(udp(SOURCE, GROUP, b"v4 %d" % place))
            deliver(udp(SOURCE6, GROUP6, b"v6 %d" % place))
        for it, name in zip(hosts, ("v4", "v6")):
            expect(it.receive(5) == [b"%s %d" % (name.encode(), place) for place in range(5)], f"{name}: other packets")
            it.close()
        finish(tool, sent=10, unsent=0)
    expect("amt1" not in ip("-n", lan.near, "link"), "the device is left")


@test
def a_host_that_checks_the_way_back_needs_a_route_there(lan):
    lan.write(lan.far, f"ipv4/conf/{DEVICE}/rp_filter", "1")
    try:
        with delivering(lan) as tool, gateway_of(lan) as deliver:
            host = Host(lan, GROUP)
            deliver(udp(SOURCE, GROUP, b"no route"))
            nothing_more(host.socket, 1)
            ip("-n", lan.far, "route", "add", "default", "via", NEAR_IP)
            deliver(udp(SOURCE, GROUP, b"a route"))
            expect(host.receive(1) == [b"a route"], "nothing came")
            host.close()
            finish(tool, sent=2)
    finally:
        subprocess.run(["ip", "-n", lan.far, "route", "del", "default"], check=False, stderr=subprocess.DEVNULL)
        lan.write(lan.far, f"ipv4/conf/{DEVICE}/rp_filter", "0")


@test
def programs_of_the_host_join_at_the_other_end_of_a_veth_pair(lan):
    ip("-n", lan.near, "link", "add", "lan1", "type", "veth", "peer", "name", "host1")
    try:
        ip("-n", lan.near, "addr", "add", "198.51.101.1/24", "dev", "host1")
        for it in ("lan1", "host1"):
            ip("-n", lan.near, "link", "set", it, "up")
        words = ("--interface", "lan1", "--family", "v4", "--control", f"127.0.0.1:{CONTROL}")
        with control_of(lan) as control, running(lan, "amt-join", *words):
            hears(control, "leave")
            with delivering(lan, "--interface", "lan1") as tool, gateway_of(lan) as deliver:
                host = Host(lan, GROUP, SOURCE, where=lan.near, device="host1")
                hears(control, f"open 233_252_0_1 {GROUP} include {SOURCE}")
                deliver(udp(SOURCE, GROUP, b"to itself"))
                expect(host.receive(1) == [b"to itself"], "nothing came")
                host.close()
                hears(control, "close 233_252_0_1")
                finish(tool, sent=1)
    finally:
        ip("-n", lan.near, "link", "del", "lan1")


@test
def an_interface_that_is_down_is_counted_and_may_come_up(lan):
    with wire_of(lan) as wire, delivering(lan) as tool, gateway_of(lan) as deliver:
        ip("-n", lan.near, "link", "set", DEVICE, "down")
        deliver(udp(SOURCE, GROUP, b"down"))
        time.sleep(0.5)
        ip("-n", lan.near, "link", "set", DEVICE, "up")
        ip("-n", lan.near, "addr", "add", NEAR_IP6 + "/64", "dev", DEVICE)
        time.sleep(0.5)
        deliver(udp(SOURCE, GROUP, b"up"))
        frames = wire.frames(SOON_S, lambda it: it[14:] == udp(SOURCE, GROUP, b"up"))
        expect(frames and frames[-1][14:] == udp(SOURCE, GROUP, b"up"), "nothing came")
        finish(tool, sent=1, unsent=1)


# The tests of amt-join come last.
import real_joins  # noqa: E402, F401


def chosen(words):
    return [it for it in TESTS if not words or any(word in it.__name__ for word in words)]


def run_all(lan, words):
    failed = 0
    for it in chosen(words):
        try:
            it(lan)
            said = "passed "
        except (Failed, OSError, IndexError) as why:
            failed, said = failed + 1, f"FAILED  {str(why)[:400]}:"
        print(said, it.__name__.replace("_", " "), flush=True)
    print(f"{len(chosen(words)) - failed} passed, {failed} failed")
    return failed


def main():
    if os.geteuid() != 0:
        print("real-packets: it needs root, for network namespaces", file=sys.stderr)
        return 1
    with tempfile.TemporaryDirectory() as folder:
        os.chmod(folder, 0o755)
        for name in STARTS:
            shutil.copy(HERE / name, folder)
        lan = Lan(folder)
        try:
            lan.make()
            return 1 if run_all(lan, sys.argv[1:]) else 0
        finally:
            lan.remove()


if __name__ == "__main__":
    sys.exit(main())
