"""Scripts of many live tunnel endpoints for replay.sh, to standard output.

usage: python3 bench/mixed.py joins ENDPOINTS             settings, and a join of each endpoint
       python3 bench/mixed.py updates ENDPOINTS COUNT     the same, and so many renewals
       python3 bench/mixed.py packets ENDPOINTS COUNT     the same, and so many packets, each copied once
       python3 bench/mixed.py moments ENDPOINTS COUNT     the same, and so many moments, at which nothing expires
       python3 bench/mixed.py expiry ENDPOINTS            the same, and a moment at which all have expired
       python3 bench/mixed.py receivers ENDPOINTS COUNT   the same, a join of 1,000 of them to one group more,
                                                          and so many packets to that group
       python3 bench/mixed.py mixed ENDPOINTS OCTETS      the same, and Requests, renewals and packets in
                                                          turn, up to so many octets of script
       python3 bench/mixed.py shared ENDPOINTS COUNT      settings, a join of each endpoint to one group with 64
                                                          sources that are nobody else's, and so many reports of
                                                          which each changes one of them

There are at most 65,536 endpoints; of `shared` more than 20,000 don't fit a script of 16 MiB. Each has a group of its own,
but in `shared`; every other one is joined in MLDv2.
The response MACs are of a secret of 32 zero octets.
"""
import hashlib
import hmac
import itertools
import sys

SETTINGS = ["set relay 192.0.2.1", "set endpoints 65536", "set groups 4", "set sources 64"]
NONCE = bytes.fromhex("0a0b0c0d")
LINK = bytes.fromhex("fe800000000000000000000000000002")
ROUTERS = bytes.fromhex("ff020000000000000000000000000016")


def checksum(octets):
    """The Internet checksum (RFC 1071) of an even number of octets."""
    total = int.from_bytes(octets, "big") % 65535
    return (65535 - total).to_bytes(2, "big")


def peer(index):
    return f"10.0.{index >> 8}.{index & 255}:5000"


def group4(index):
    return (0xef010000 + index).to_bytes(4, "big")


def group6(index):
    return bytes.fromhex("ff3e") + index.to_bytes(14, "big")


def report4(group, kind=4, sources=b""):
    body = bytes.fromhex("000000000001%02x00%04x" % (kind, len(sources) // 4)) + group4(group) + sources
    body = b"\x22\0" + checksum(b"\x22\0" + body) + body[2:]
    front = bytes.fromhex("46c0%04x000000000102" % (24 + len(body)))
    back = bytes.fromhex("0a000002" "e0000016" "94040000")
    return front + checksum(front + back) + back + body


def report6(group):
    body = bytes.fromhex("000000000001" "04000000") + group6(group)
    pseudo = LINK + ROUTERS + bytes.fromhex("%08x" "0000003a" % (2 + len(body)))
    body = b"\x8f\0" + checksum(pseudo + b"\x8f\0" + body) + body[2:]
    front = bytes.fromhex("60000000%04x0001" % (8 + len(body)))
    return front + LINK + ROUTERS + bytes.fromhex("3a00050200000100") + body


def own_sources(index, turn):
    """64 sources that are this endpoint's alone; in each turn one of them is another."""
    return b"".join((0x0b000000 + 128 * index + many).to_bytes(4, "big") for many in range(turn % 64, turn % 64 + 64))


def update(index, group=None, turn=None):
    group = index if group is None else group
    address = bytes(12) + (0x0a000000 + index).to_bytes(4, "big")
    mac = hmac.new(bytes(32), address + (5000).to_bytes(2, "big") + NONCE, hashlib.sha256).digest()[:6]
    inner = report6(group) if group % 2 else report4(group) if turn is None else report4(group, 1, own_sources(index, turn))
    return f"dg {peer(index)} {(bytes([5, 0]) + mac + NONCE + inner).hex()}"


def request(index):
    return f"dg {peer(index)} 03{index % 2:02x}0000{NONCE.hex()}"


def packet(index):
    if index % 2:
        head = bytes.fromhex("60000000001c1104" "20010db8000000000000000000000009") + group6(index)
        return "mc " + (head + bytes(28)).hex()
    front = bytes.fromhex("45000030000000000411")
    back = bytes.fromhex("c6336409") + group4(index)
    return "mc " + (front + checksum(front + back) + back + bytes(28)).hex()


def main():
    kind, endpoints = sys.argv[1], int(sys.argv[2])
    # A stride by which the endpoints come in no order.
    drawn = (step * 7919 % endpoints for step in itertools.count())
    lines = SETTINGS + [update(index) for index in range(endpoints if kind != "shared" else 0)]
    if kind == "shared":
        lines += [update(index, 0, 0) for index in range(endpoints)]
        lines += [update(next(drawn), 0, 1 + many // endpoints) for many in range(int(sys.argv[3]))]
    elif kind == "receivers":
        # A group that is nobody's own, joined by endpoints that stand far apart.
        shared = 65536
        lines += [update(many * endpoints // 1000, shared) for many in range(1000)]
        lines += [packet(shared)] * int(sys.argv[3])
    elif kind == "moments":
        lines += [f"at {moment}" for moment in range(1, int(sys.argv[3]) + 1)]
    elif kind == "expiry":
        lines.append("at 260000")
    elif kind in ("updates", "packets"):
        line = update if kind == "updates" else packet
        lines += [line(next(drawn)) for _ in range(int(sys.argv[3]))]
    elif kind == "mixed":
        left = int(sys.argv[3]) - sum(len(line) + 1 for line in lines)
        for line in itertools.cycle([request, update, packet]):
            lines.append(line(next(drawn)))
            left -= len(lines[-1]) + 1
            if left < 0:
                lines.pop()
                break
    print("\n".join(lines))


if __name__ == "__main__":
    main()
