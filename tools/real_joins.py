"""The tests of amt-join, which tools/real-packets.sh runs."""
import struct
import time

from loopback import IS_EX, IS_IN, TO_IN, expect
from real_lan import (GROUP, GROUP6, Host, MCAST_BLOCK_SOURCE, OTHER, SOON_S, SOURCE, SOURCE2, SOURCE6, SOURCE7, control_of,
                      finish, hears, igmp, joining, mld, nothing_more, packed, receive, report3, report6, test, wire_of)

# The names of the sockets of the first group, of the second one, and of the one of IPv6.
NAME, NAME2, NAME6 = "233_252_0_1", "233_252_0_2", "ff3e0000000000000000000080000001"

@test
def a_gateway_joins_what_the_hosts_join(lan):
    cases = (("v4", GROUP, NAME, SOURCE, SOURCE2), ("v6", GROUP6, NAME6, SOURCE6, SOURCE7))
    for family, group, name, one, two in cases:
        with control_of(lan) as control, joining(lan, family) as tool:
            hears(control, "leave")
            first = Host(lan, group, one)
            hears(control, f"open {name} {group} include {one}")
            second = Host(lan, group, two)
            hears(control, f"change {name} include {one} {two}")
            first.close()
            hears(control, f"change {name} include {two}")
            first = Host(lan, group)
            hears(control, f"change {name} exclude")
            second.close()
            first.option(MCAST_BLOCK_SOURCE, one)
            hears(control, f"change {name} exclude {one}")
            first.close()
            hears(control, f"close {name}")
            nothing_more(control)
            finish(tool, lines=8, unsent=0, bad=0, full=0)
            hears(control, "leave")


@test
def hosts_are_asked_for_what_they_joined_before(lan):
    for family, group, name in (("v4", GROUP, NAME), ("v6", GROUP6, NAME6)):
        host = Host(lan, group)
        # Its report and the second one have gone by the time that it is asked.
        time.sleep(2.5)
        with control_of(lan) as control, joining(lan, family, "--query-seconds", "2", "--expire", "6") as tool:
            hears(control, "leave", f"open {name} {group} exclude")
            # It goes on answering, so that nothing expires.
            nothing_more(control, 9)
            host.close()
            hears(control, f"close {name}")
            expect(finish(tool, unsent=0)["queries"] >= 4, "too few queries")


@test
def what_several_hosts_want_is_merged(lan):
    with control_of(lan) as control, wire_of(lan) as wire, joining(lan, "v4", "--no-query") as tool:
        hears(control, "leave")
        wire.send(report3("198.51.100.10", [(IS_IN, GROUP, [SOURCE, SOURCE2])]), b"\2\0\0\0\0\x10")
        hears(control, f"open {NAME} {GROUP} include {SOURCE} {SOURCE2}")
        wire.send(report3("198.51.100.11", [(IS_EX, GROUP, [SOURCE, "203.0.113.9"])]), b"\2\0\0\0\0\x11")
        hears(control, f"change {NAME} exclude 203.0.113.9")
        wire.send(report3("198.51.100.10", [(TO_IN, GROUP, [])]), b"\2\0\0\0\0\x10")
        hears(control, f"change {NAME} exclude {SOURCE} 203.0.113.9")
        wire.send(report3("198.51.100.12", [(IS_EX, GROUP, [SOURCE])]), b"\2\0\0\0\0\x12")
        hears(control, f"change {NAME} exclude {SOURCE}")
        # Two hosts that have no address yet differ by their link addresses.
        for last in (0x11, 0x12):
            wire.send(report3(f"198.51.100.{last}", [(TO_IN, GROUP, [])]), bytes([2, 0, 0, 0, 0, last]))
        for link in (b"\2\0\0\0\0\x13", b"\2\0\0\0\0\x14"):
            wire.send(report3("0.0.0.0", [(IS_EX, OTHER, [])]), link)
        hears(control, f"open {NAME2} 233.252.0.2 exclude")
        wire.send(report3("0.0.0.0", [(TO_IN, OTHER, [])]), b"\2\0\0\0\0\x13")
        nothing_more(control)
        wire.send(report3("198.51.100.14", [(TO_IN, OTHER, [])]), b"\2\0\0\0\0\x14")
        hears(control, f"close {NAME2}")
        finish(tool, bad=0)


@test
def what_is_not_heard_of_any_more_expires(lan):
    with control_of(lan) as control, wire_of(lan) as wire, joining(lan, "v6", "--no-query", "--expire", "3"):
        hears(control, "leave")
        wire.send(report6("fe80::10", [(IS_IN, GROUP6, [SOURCE6])]), b"\2\0\0\0\0\x10")
        hears(control, f"open {NAME6} {GROUP6} include {SOURCE6}")
        began = time.monotonic()
        time.sleep(1.5)
        wire.send(report6("fe80::10", [(IS_IN, GROUP6, [SOURCE6])]), b"\2\0\0\0\0\x10")
        hears(control, f"close {NAME6}", wait_s=12)
        expect(time.monotonic() - began > 4.4, f"after {time.monotonic() - began} s")


@test
def hosts_of_older_versions_are_asked_before_their_group_is_left(lan):
    leave4 = igmp("198.51.100.10", "224.0.0.2", bytes([0x17, 0, 0, 0]) + packed(GROUP))
    leave6 = mld("fe80::10", "ff02::2", bytes([0x84]) + bytes(7) + packed(GROUP6))
    cases = (("v4", GROUP, NAME, "ipv4/conf/lan0/force_igmp_version", "2", leave4),
             ("v6", GROUP6, NAME6, "ipv6/conf/lan0/force_mld_version", "1", leave6))
    for family, group, name, setting, version, leave in cases:
        lan.write(lan.far, setting, version)
        try:
            with control_of(lan) as control, wire_of(lan) as wire, joining(lan, family):
                hears(control, "leave")
                host = Host(lan, group)
                hears(control, f"open {name} {group} exclude")
                # Another one leaves: this one answers, and keeps the group.
                wire.send(leave, b"\2\0\0\0\0\x10")
                nothing_more(control, 4.5)
                host.close()
                began = time.monotonic()
                hears(control, f"close {name}", wait_s=8)
                expect(time.monotonic() - began > 1.5, "it was left at once")
        finally:
            lan.write(lan.far, setting, "0")


@test
def without_queries_those_of_another_router_count(lan):
    with control_of(lan) as control, wire_of(lan) as wire, joining(lan, "v4", "--no-query") as tool:
        hears(control, "leave")
        wire.send(igmp("198.51.100.10", GROUP, bytes([0x16, 0, 0, 0]) + packed(GROUP)))
        hears(control, f"open {NAME} {GROUP} exclude")
        wire.send(igmp("198.51.100.10", "224.0.0.2", bytes([0x17, 0, 0, 0]) + packed(GROUP)))
        nothing_more(control, 3.5)
        wire.send(igmp("198.51.100.3", GROUP, bytes([0x11, 10, 0, 0]) + packed(GROUP)))
        hears(control, f"close {NAME}", wait_s=8)
        finish(tool, queries=0)


@test
def reports_that_are_malformed_or_of_no_host_of_the_link_are_counted(lan):
    def cut(kind, records, sources, group):
        """A report of fewer records, or of fewer sources, than it says."""
        return struct.pack("!BBHHHBBH", kind, 0, 0, 0, records, 2, 0, sources) + packed(group)

    host, all_routers = "198.51.100.10", "224.0.0.22"
    good, good6 = report3(host, [(IS_EX, GROUP, [])]), report6("fe80::9", [(IS_EX, GROUP6, [])])
    for family, bad in (("v4", [report3(host, [(IS_EX, GROUP, [])], ttl=2), good[:-1] + b"\7", good[:-4],
                                igmp(host, all_routers, cut(0x22, 2, 0, GROUP)), igmp(host, all_routers, cut(0x22, 1, 9, GROUP))]),
                        ("v6", [report6("2001:db8:3::9", [(IS_EX, GROUP6, [])]), good6[:-1] + b"\7",
                                mld("fe80::9", "ff02::16", cut(0x8F, 1, 1, GROUP6))])):
        with control_of(lan) as control, wire_of(lan) as wire, joining(lan, family, "--no-query") as tool:
            hears(control, "leave")
            for it in bad:
                wire.send(it)
            # Groups of the link's own scope, and records of a kind that is none, say nothing.
            wire.send(report3("198.51.100.10", [(IS_EX, "224.0.0.251", []), (9, OTHER, [])]) if family == "v4" else
                      report6("fe80::9", [(IS_EX, "ff02::fb", []), (9, GROUP6, [])]))
            nothing_more(control, 1)
            # (the kernel of the LAN's host may report its own groups)
            counts = finish(tool, bad=len(bad))
            expect(counts["reports"] >= 1, f"{counts}")


@test
def more_sources_and_groups_than_a_gateway_takes_are_left_out(lan):
    sources = [f"203.0.113.{place}" for place in range(1, 41)]
    groups = [f"233.252.1.{place}" for place in range(1, 180)]
    with control_of(lan) as control, wire_of(lan) as wire, joining(lan, "v4", "--no-query") as tool:
        hears(control, "leave")
        wire.send(report3("198.51.100.10", [(IS_IN, GROUP, sources[:32])]))
        hears(control, f"open {NAME} {GROUP} include {' '.join(sources[:32])}")
        wire.send(report3("198.51.100.10", [(IS_IN, GROUP, sources[:33])]))
        hears(control, f"change {NAME} exclude")
        wire.send(report3("198.51.100.10", [(IS_EX, GROUP, sources)]))
        nothing_more(control)
        # 8 octets of head and 8 for each of 174 groups are 1,400.
        for place in range(0, 179, 30):
            wire.send(report3("198.51.100.10", [(IS_EX, it, []) for it in groups[place:place + 30]]))
        heard = [it.decode().split()[2] for it in receive(control, 173)]
        expect(sorted(heard) == sorted(groups[:30 * 5] + groups[150:173]), f"{len(heard)} groups were opened")
        nothing_more(control, 1.5)
        # As one is left another has its place.
        wire.send(report3("198.51.100.10", [(TO_IN, GROUP, [])]))
        hears(control, f"close {NAME}")
        expect(receive(control, 1)[0].startswith(b"open 233_252_1_17"), "none has its place")
        finish(tool, full=6)


@test
def only_the_wanted_groups_are_joined(lan):
    only = ("--only", "232.0.0.0/8", "--only", "233.252.0.2/32")
    with control_of(lan) as control, wire_of(lan) as wire, joining(lan, "v4", "--no-query", *only):
        hears(control, "leave")
        wire.send(report3("198.51.100.10", [(IS_EX, GROUP, []), (IS_IN, "232.1.2.3", [SOURCE]), (IS_EX, OTHER, [])]))
        hears(control, f"open 232_1_2_3 232.1.2.3 include {SOURCE}", f"open {NAME2} {OTHER} exclude")
        nothing_more(control)


@test
def a_gateway_that_was_gone_gets_all_again(lan):
    with wire_of(lan) as wire, joining(lan, "v4", "--no-query", "--repeat", "4") as tool:
        wire.send(report3("198.51.100.10", [(IS_EX, GROUP, [])]))
        wire.send(report3("198.51.100.10", [(IS_IN, OTHER, [SOURCE])]))
        time.sleep(1.5)
        again = [f"open {NAME} {GROUP} exclude", f"change {NAME} exclude", f"open {NAME2} {OTHER} include {SOURCE}",
                 f"change {NAME2} include {SOURCE}"]
        with control_of(lan) as control:
            heard = [it.decode() for it in receive(control, 5)]
            expect("leave" in heard and heard[heard.index("leave") + 1:] == again[:4 - heard.index("leave")], f"heard {heard}")
            receive(control, 5, 1.5)
            # Started anew meanwhile, it hears all again, too.
            hears(control, *again, wait_s=9)
        status, errors = tool.end()
        expect(status == 0 and not errors, f"status {status}, {errors}")
        expect(any(it.startswith("nobody listens at") for it in tool.lines), f"{tool.lines}")
        expect(any(it.startswith("somebody listens again") for it in tool.lines), f"{tool.lines}")


@test
def with_keep_nothing_is_left_at_the_end(lan):
    with control_of(lan) as control, wire_of(lan) as wire, joining(lan, "v4", "--no-query", "--keep", "--expire", "3") as tool:
        wire.send(report3("198.51.100.10", [(IS_EX, GROUP, [])]))
        hears(control, f"open {NAME} {GROUP} exclude")
        time.sleep(1.5)
        wire.send(report3("198.51.100.10", [(IS_EX, GROUP, [])]))
        # After as long as a report counts, what no host reported is left.
        hears(control, "leave", f"open {NAME} {GROUP} exclude", f"change {NAME} exclude")
        finish(tool)
        nothing_more(control)


@test
def queries_have_the_source_that_is_given(lan):
    for family, source, kind in (("v4", "198.51.100.99", 0x11), ("v6", "fe80::99", 0x82)):
        with wire_of(lan) as wire, joining(lan, family, "--query-source", source):
            at = 14 + (24 if family == "v4" else 48)
            frames = wire.frames(SOON_S, lambda it: len(it) > at and it[at] == kind)
            query = frames[-1][14:]
            expect(query[12:16] == packed(source) if family == "v4" else query[8:24] == packed(source), f"{query.hex()}")
            wanted = "1164ec1e00000000027d0000" if family == "v4" else None
            expect(wanted is None or query[24:].hex() == wanted, f"{query.hex()}")
