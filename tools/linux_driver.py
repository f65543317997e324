#!/usr/bin/env python3
"""This relay with Linux's own gateway, and this gateway with Linux's own relay. tools/linux-driver.sh runs it in a guest.

usage: python3 linux_driver.py stock|fixed [COMMAND]

It needs root and a kernel with the module `amt`, whose flags are where the driver has them (stock) or where RFC 7450 has them
(fixed). In one network namespace is an end of this program, in another the driver's. COMMAND is the binary of `amt`.

A row is an end of the driver, a family and whether this end knows of the driver. Nothing passes, or all that is tried does: any
source, listed sources, EXCLUDE, leaving and, at a gateway of Linux, what comes after a membership's time. It ends with 0 where
each row is as it should be.
"""
import contextlib
import pathlib
import subprocess
import sys
import tempfile
import time

from loopback import AMT_PORT, End, Failed, HERE, bound, command_of, expect, stop_all, write_settings
from namespaces import inside, ip
from real_lan import (CONTROL, DELIVER, DEVICE, FAR_IP, FAR_IP6, FEED, GROUP, GROUP6, Host, Lan, MCAST_BLOCK_SOURCE, NEAR_IP,
                      NEAR_IP6, PORT, SOURCE, SOURCE2, SOURCE6, SOURCE7, receive, sending, sockets_in, udp)

TUNNEL = "amt0"
# A membership lasts for 2 * 4 + 1 seconds without a report.
QUERY_SECONDS, RESPONSE_TENTHS, LIFETIME_S = 4, 10, 9
# Linux's gateway looks for a relay each 5 seconds, and a guest's processor may be emulated.
SOON_S, LATE_S = 4.0, 20.0
SOURCES = {GROUP: (SOURCE, SOURCE2), GROUP6: (SOURCE6, SOURCE7)}
# Where nothing passes, by what the driver's flags are: at a gateway and at a relay of Linux, by group and setting.
NOTHING = {"stock": {("gateway", GROUP, False), ("gateway", GROUP6, False), ("relay", GROUP6, False)},
           "fixed": {("relay", GROUP6, True)}}


def asked(lan, line, tries=5):
    """What this end's control answers. An answer may be lost, or late at first."""
    for _ in range(tries):
        with inside(lan.near):
            ran = subprocess.run([str(HERE / "amtctl"), f"127.0.0.1:{CONTROL}", line], capture_output=True, text=True)
        if ran.returncode == 0:
            return ran.stdout.splitlines()
    raise Failed(ran.stderr.strip())


def waits_for(what, holds, wait_s=LATE_S):
    until = time.monotonic() + wait_s
    while not holds():
        expect(time.monotonic() < until, f"waited in vain: {what}")
        time.sleep(0.2)


def passes(send, host, wait_s=SOON_S):
    """Whether one of the numbered texts that are sent comes, and none comes twice."""
    until, number = time.monotonic() + wait_s, 0
    while time.monotonic() < until:
        number += 1
        send(str(number).encode())
        came = [it for it in receive(host, 2, 0.5) if it.endswith(str(number).encode())]
        expect(len(came) < 2, "a packet came twice")
        if came:
            return True
    return False


@contextlib.contextmanager
def driver(lan, *words):
    """The driver's device in the far namespace."""
    ip("-n", lan.far, "link", "add", TUNNEL, "type", "amt", *words, "local", FAR_IP, "dev", DEVICE)
    try:
        lan.write(lan.far, f"ipv4/conf/{TUNNEL}/rp_filter", "0")
        ip("-n", lan.far, "link", "set", TUNNEL, "up")
        yield
    finally:
        ip("-n", lan.far, "link", "del", TUNNEL)


@contextlib.contextmanager
def end_of(lan, command, kind, address, port, **settings):
    """An end of this program in the near namespace, which answers."""
    path = write_settings(f"{lan.folder}/{kind}.toml", {"control": f"127.0.0.1:{CONTROL}", **settings})
    try:
        with inside(lan.near):
            End([*command, kind, path], address, [port])
        asked(lan, "counts")
        yield
    finally:
        stop_all()


def rows(lan):
    return [it for it in asked(lan, "show") if it.startswith("* ")]


def at_a_gateway_of_linux(lan, command, group, setting):
    """Whether packets of this relay's feed pass to a host whose device is the driver's."""
    one, two = SOURCES[group]
    relay = {"relay": NEAR_IP, "listen": f"{NEAR_IP}:{AMT_PORT}", "feed": f"127.0.0.1:{FEED}", "query4": NEAR_IP,
             "query_seconds": QUERY_SECONDS, "response_tenths": RESPONSE_TENTHS, "linux_gateways": setting}
    with end_of(lan, command, "relay", NEAR_IP, AMT_PORT, **relay), driver(lan, "mode", "gateway", "discovery", NEAR_IP), \
         sockets_in(lan.near, lambda: bound("127.0.0.1")) as feed:
        def sent_by(source):
            return lambda text: feed.sendto(udp(source, group, text), ("127.0.0.1", FEED))

        waits_for("a Request", lambda: any(it.startswith("= queried") for it in asked(lan, "counts")))
        host = Host(lan, group, where=lan.far, device=TUNNEL)
        if not passes(sent_by(one), host.socket, LATE_S):
            host.close()
            return False
        host.option(MCAST_BLOCK_SOURCE, one)
        waits_for("EXCLUDE", lambda: any(it.endswith(f" exclude {one}") for it in rows(lan)))
        expect(not passes(sent_by(one), host.socket, 1) and passes(sent_by(two), host.socket), "EXCLUDE isn't obeyed")
        host.close()
        waits_for("leaving", lambda: not rows(lan))
        host = Host(lan, group, one, where=lan.far, device=TUNNEL)
        expect(passes(sent_by(one), host.socket, LATE_S) and not passes(sent_by(two), host.socket, 1), "INCLUDE isn't obeyed")
        time.sleep(2 * LIFETIME_S)
        expect(passes(sent_by(one), host.socket), "nothing passes after a membership's time")
        host.close()
        waits_for("leaving", lambda: not rows(lan))
        return True


def at_a_relay_of_linux(lan, command, group, setting):
    """Whether packets that the driver's relay is given pass to this gateway's host."""
    family, source, sender_ip = ("v6", NEAR_IP6, FAR_IP6) if ":" in group else ("v4", NEAR_IP, FAR_IP)
    gateway = {"family": family, "source": source, "listen": f"{NEAR_IP}:40000", "discovery": f"{FAR_IP}:{AMT_PORT}",
               "deliver": f"127.0.0.1:{DELIVER}", "linux_relay": setting}
    with driver(lan, "mode", "relay"), sockets_in(lan.near, lambda: bound("127.0.0.1", DELIVER)) as host, \
         sockets_in(lan.near, lambda: bound("127.0.0.1")) as control, sending(lan.far, group, device=TUNNEL) as sender, \
         end_of(lan, command, "gateway", NEAR_IP, 40000, **gateway):
        def does(line):
            control.sendto(line.encode(), ("127.0.0.1", CONTROL))

        def send(text):
            sender.sendto(text, (group, PORT))

        sender.bind((sender_ip, 0))
        does(f"open news {group} exclude")
        if not passes(send, host, LATE_S):
            return False
        for text, wanted in ((f"exclude {sender_ip}", False), (f"include {sender_ip}", True),
                             (f"include {SOURCES[group][1]}", False), ("exclude", True)):
            does(f"change news {text}")
            time.sleep(1)
            expect(passes(send, host, SOON_S if wanted else 1) == wanted, f"{text} isn't obeyed")
        does("close news")
        time.sleep(1)
        expect(not passes(send, host, 1), "leaving isn't obeyed")
        return True


def is_as_it_should(lan, command, kind, end, group, setting):
    """One row: tries it and prints it."""
    tried = {"gateway": at_a_gateway_of_linux, "relay": at_a_relay_of_linux}[end]
    wanted = (end, group, setting) not in NOTHING[kind]
    try:
        passed = tried(lan, command, group, setting)
        said, good = ("all passes" if passed else "nothing passes"), passed == wanted
    except Failed as it:
        said, good = str(it), False
    print(f"{kind}: Linux's {end}, {group:12}, setting {str(setting).lower():5}: {said}{'' if good else ': WRONG'}", flush=True)
    return good


def main():
    kind, command = sys.argv[1], command_of(sys.argv[2:])
    pathlib.Path("/run/netns").mkdir(exist_ok=True)
    with tempfile.TemporaryDirectory() as folder:
        lan = Lan(folder)
        try:
            lan.make()
            good = [is_as_it_should(lan, command, kind, end, group, setting)
                    for end in ("gateway", "relay") for group in SOURCES for setting in (False, True)]
        finally:
            lan.remove()
    print(f"{good.count(True)} passed, {good.count(False)} failed")
    return 0 if all(good) else 1


if __name__ == "__main__":
    sys.exit(main())
