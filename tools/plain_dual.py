"""Judges `amt replay dual` and `amt replay pair` by a plain model of both ends, over random scripts or over cases.

usage: tools/plain-dual.sh AMT [SCRIPTS [SEED]]
       tools/plain-dual.sh cases [FILE..]

The model is plain_ends.py. A random script has one gateway or two, of both families each or of one, whose sockets open,
change and close, and a network that loses, repeats, delays and reorders what the ends send; packets of both families,
secrets, and moments before, at and after what falls due. Some have a line that is bad, or two. With `cases` no program is
run: the cases of either replay in these files, and without a file in those of crates/replay_cases/data, have to want
what the model writes. It prints the first script or case that differs, and ends with status 1 then.
"""
import pathlib
import random
import re
import subprocess
import sys
from collections import Counter

import plain_ends

DATA = pathlib.Path(__file__).resolve().parent.parent / "crates/replay_cases/data"
GROUPS = {"v4": ["239.1.1.1", "239.1.1.2", "232.1.1.1"], "v6": ["ff3e::1", "ff3e::2", "ff0e::5"]}
SOURCES = {"v4": ["198.51.100.9", "198.51.100.8", "203.0.113.1"], "v6": ["2001:db8::9", "2001:db8::8", "2001:db8:1::"]}
NAMES = ["v6", "v4", "limits", "a_gateway"]
SOCKETS = ["a", "b", "c", "d"]
PEERS = ["198.51.100.7:5000", "198.51.100.7:5001", "198.51.100.8:5000", "[2001:db8::7]:5000", "[2001:db8::7]:5001",
         "192.0.2.1:2268", "[::1]:5000"]

# Fields of lines that may be bad: any one, and those of a line that adds a gateway, or makes a socket call.
FIELDS = ["v4", "v6", "v5", "g", "open", "leave", "exclude", "both", "up", "at", "set", "gateway", "239.1.1.1", "ff3e::1", "x",
          "007", "-", "true", "\u00e4"]
ADDRESSES4, ADDRESSES6 = ["10.0.0.3", "10.0.0.3", "fe80::3", "x"], ["fe80::3", "fe80::3", "10.0.0.3", "x"]
ADDED = [["gateway"], ["g", "v6", "h", "h", "h", "H", "at"], ["198.51.100.9:5", "198.51.100.9:5", *PEERS, "x"]]
GATEWAY_LINE = {"dual": [*ADDED, ADDRESSES4, ADDRESSES6], "pair": [*ADDED, ["v4", "v4", "v6", "v5"], ADDRESSES4]}
CALLED = [["open"], ["a", "b", "A"], ["239.1.1.1", "ff3e::1", "224.0.0.5", "x"], ["include", "exclude", "both"],
          ["198.51.100.9", "2001:db8::9", "x"]]
CALL_LINE = {"dual": [["g", "g", "v6"], ["v4", "v6"], *CALLED], "pair": [["g", "g", "v6"], *CALLED]}


def unescaped(text):
    """Octets with the escapes of a case's line."""
    def repeated(found):
        first, last, what = found[1], found[2], unescaped(found[3]).decode("latin-1")
        if last is None:
            return what * int(first)
        return "".join(what.replace("\\#", str(it)) for it in range(int(first), int(last) + 1))
    text = re.sub(r"\\\{(\d+)(?:-(\d+))? ((?:[^{}\\]|\\.)*)\}", repeated, text.encode("utf-8").decode("latin-1"))
    marks = {"\\n": "\n", "\\r": "\r", "\\t": "\t"}
    return re.sub(r"\\(?:x(..)|[nrt])", lambda it: chr(int(it[1], 16)) if it[1] else marks[it[0]], text).encode("latin-1")


class Case:
    """The lines of a case that speak of a replay: what is read, and what is wanted."""

    def __init__(self, lines):
        self.command, self.octets, self.out, self.err, self.texts, self.status, self.is_plain = "", b"", "", "", [], 0, True
        for line in lines:
            mark, _, rest = line.partition(" ")
            if mark == "$":
                self.command = rest
            elif mark == "<":
                self.octets += rest.encode() + b"\n"
            elif mark == "<\\":
                self.octets += unescaped(rest)
            elif mark == ">":
                self.out += rest + "\n"
            elif mark == "!":
                self.err += rest + "\n"
            elif mark == "~":
                self.texts.append(rest)
            elif mark == "?":
                self.status = int(rest)
            elif mark not in ("", "//"):
                self.is_plain = False

    def compared(self, out):
        return "".join(it for it in out.splitlines(True) if not self.texts or any(text in it for text in self.texts))


def cases_of(path):
    """The names and the cases of a file, with the lines before the first one in each."""
    head, *blocks = re.split(r"\n# ", path.read_text())
    for block in blocks:
        name, *lines = block.split("\n")
        yield name, Case(head.split("\n") + lines)


def judge_cases(paths):
    count = 0
    for path in paths:
        for name, case in cases_of(path):
            found = re.fullmatch("amt replay (pair|dual)", case.command)
            if not found or not case.is_plain or len(case.octets) > 2**24:
                continue
            status, out, err = plain_ends.replay(found[1], case.octets)
            have = status, case.compared(out), err
            if have != (case.status, case.out, case.err):
                print(f"{path.name}: {name}: the model differs")
                show_difference(case.out + case.err, case.compared(out) + err)
                return 1
            count += 1
    print(f"{count} cases of both ends want what the model writes")
    return 0


def show_difference(wanted, have):
    for one, other in zip(wanted.split("\n"), have.split("\n")):
        if one != other:
            print(f"  wanted {one}\n  have   {other}")
            return
    print(f"  wanted {wanted.count(chr(10))} lines, have {have.count(chr(10))}")


class Random:
    """A random script, whose events are chosen by what the model has sent so far."""

    def __init__(self, dice, kind):
        self.dice, self.kind, self.lines = dice, kind, ["set relay 192.0.2.1"]
        if dice.random() < 0.3:
            self.lines.append("set query4 192.0.2.1")
        if dice.random() < 0.2:
            self.lines.append("set secrets 1")
        if dice.random() < 0.2:
            self.lines.append(f"set groups {dice.randrange(1, 3)}")
        if dice.random() < 0.3:
            self.lines.append(f"set linux_gateways {dice.choice(['true', 'true', 'false'])}")
        self.machines = []
        gateways = dice.choice([1, 2])
        for name, peer in zip(["g", *dice.sample(NAMES, gateways - 1)], dice.sample(PEERS, gateways)):
            self.add_gateway(name, peer)
        self.ends = plain_ends.Ends(plain_ends.Script(kind, "\n".join(self.lines).encode()))
        self.now, self.coming = 0, []

    def add_gateway(self, name, peer):
        sources = {"v4": "10.0.0.2", "v6": "fe80::2"}
        if self.kind == "dual":
            self.lines.append(f"gateway {name} {peer} {sources['v4']} {sources['v6']}")
            self.machines += [(f"{name} {it}", it) for it in ("v4", "v6")]
        else:
            family = self.dice.choice(["v4", "v6"])
            self.lines.append(f"gateway {name} {peer} {family} {sources[family]}")
            self.machines.append((name, family))

    def say(self, line):
        """A line of the script. Of what the ends send for it the network keeps most."""
        self.lines.append(line)
        for text in self.ends.take(line.split()):
            if text[0] == ">" and self.dice.random() < 0.9:
                self.coming.append(" ".join(text.split()[1:3]))

    def delivery(self):
        """The datagram that has waited longest, mostly; or another one, one again, or one that was never sent."""
        dice, coming = self.dice, self.coming
        if not coming or dice.random() < 0.1:
            way, sent = dice.choice([("up", self.ends.ups), ("down", self.ends.downs)])
            return f"{way} {dice.randrange(len(sent) + 2)}"
        return coming.pop(0 if dice.random() < 0.8 else dice.randrange(len(coming)))

    def call(self):
        dice = self.dice
        who, family = dice.choice(self.machines)
        sources = " ".join(dice.sample(SOURCES[family], dice.randrange(3)))
        mode = dice.choice(["include", "exclude", "exclude"])
        what = dice.choice(["open", "open", "open", "change", "close", "leave"])
        if what == "open":
            text = f"open {dice.choice(SOCKETS)} {dice.choice(GROUPS[family])} {mode} {sources}"
        elif what == "change":
            text = f"change {dice.choice(SOCKETS)} {mode} {sources}"
        else:
            text = f"close {dice.choice(SOCKETS)}" if what == "close" or dice.random() < 0.7 else "leave"
        return f"{who} {text}".strip()

    def packet(self):
        family = self.dice.choice(["v4", "v6"])
        source, group = (plain_ends.address_in(self.dice.choice(it[family])) for it in (SOURCES, GROUPS))
        if family == "v4":
            return "mc " + plain_ends.filled(bytes.fromhex("450000140000000004110000") + source + group, 10).hex()
        return f"mc 6000000000001140{(source + group).hex()}"

    def moment(self):
        dice = self.dice
        dues = [it.gateway.due for it in self.ends.members if it.gateway.due > self.now]
        later = dice.choice([1, 500, 30_000, 60_000, 260_000, 320_000])
        self.now = max(0, dice.choice([*dues, *(it - 1 for it in dues), self.now + later]))
        return f"at {self.now}"

    def add(self):
        what = self.dice.random()
        if what < 0.6:
            self.say(self.delivery())
        elif what < 0.75:
            self.say(self.call())
        elif what < 0.85:
            self.say(self.packet())
        elif what < 0.92:
            self.say(self.moment())
        elif what < 0.93:
            self.say(f"secret {self.dice.choice(['11', '22']) * 32}")
        else:
            self.say("show")

    def spoil(self):
        """A line or two that may be bad: a field is left out, put in or exchanged, or the line is another one."""
        dice = self.dice
        for _ in range(dice.choice([1, 1, 2])):
            at, what = dice.randrange(len(self.lines)), dice.randrange(6)
            if what > 3:
                fields = (GATEWAY_LINE if what == 4 else CALL_LINE)[self.kind]
                self.lines.insert(self.settings(), " ".join(map(dice.choice, fields)))
                continue
            words = self.lines[at].split(" ")
            place = dice.randrange(len(words))
            if what == 0:
                del words[place]
            elif what == 1:
                words.insert(place, dice.choice(FIELDS))
            elif what == 2:
                words[place] = dice.choice(FIELDS)
            else:
                words = dice.choice(self.lines).split(" ")
            self.lines[at] = " ".join(words)

    def settings(self):
        """How many lines come before the events."""
        return sum(it.startswith(("set ", "gateway ")) for it in self.lines)


def judge_random(amt, count, seed):
    met = Counter()
    for number in range(seed, seed + count):
        dice = random.Random(number)
        kind = "dual" if number % 3 else "pair"
        script = Random(dice, kind)
        for _ in range(dice.randrange(5, 120)):
            script.add()
        if dice.random() < 0.3:
            script.spoil()
        octets = "".join(f"{it}\n" for it in script.lines).encode()
        wanted = plain_ends.replay(kind, octets)
        ran = subprocess.run([*amt.split(), "replay", kind], input=octets, capture_output=True, check=False)
        have = ran.returncode, ran.stdout.decode(), ran.stderr.decode()
        if have != wanted:
            print("\n".join(script.lines))
            print(f"script {number}, replay {kind}: status {have[0]}, wanted {wanted[0]}")
            show_difference(wanted[1] + wanted[2], have[1] + have[2])
            return 1
        met.update(outcomes(wanted))
    print(f"{count} scripts agree; outcomes: " + ", ".join(f"{it} {many}" for it, many in sorted(met.items())))
    return 0


def outcomes(text):
    """What came of each step, without its numbers and names; or the reason for which a script is none."""
    if text[0]:
        return [text[2].split()[-1]]
    found = re.findall(r"^= \d+ (?:relay |rows|absent|\w+ (?:v[46] )?)(ignored \w+|refused \w+|limit \w+|\w*)", text[1], re.M)
    return [it or "show or absent" for it in found]


def main():
    words = sys.argv[1:]
    if not words or "--help" in words:
        sys.exit(__doc__)
    if words[0] == "cases":
        return judge_cases([pathlib.Path(it) for it in words[1:]] or sorted(DATA.glob("*.cases")))
    return judge_random(words[0], int(words[1]) if words[1:] else 300, int(words[2]) if words[2:] else 1)


if __name__ == "__main__":
    sys.exit(main())
