"""Refuses each allocation of a session in turn, one a run, and checks what the run comes to.

usage: tools/refuse-memory.sh [FIRST [LAST [STRIDE [SESSION..]]]]
       tools/refuse-memory.sh                      all of the first three sessions
       tools/refuse-memory.sh 1 500 25 relay       each 25th allocation of the running relay

The sessions are:
    pair     `amt replay pair` over tools/refuse_memory/session, both ends on a schedule
    dual     `amt replay dual` over tools/refuse_memory/dual_session, a gateway of both families that joins a group in each
    relay    `amt relay` over devices in memory: three turns with two workers, an Update in the first, a packet in the
             second
    inline   the same with no worker, which isn't run where no session is named
Input, output, errors, files and devices are in memory. It proves nothing, and works on a copy of the repository, where
it builds the tests of tools/refuse_memory/sessions.rt.in by `rt try --test`.

rt refuses one allocation of a process, by its number, and builds anew each time it is called. So one build has a test
for each N, which makes 1,000 - N allocations first, and allocation 1,000 is refused. N counts from the first allocation
of the test; the first some of them make its devices, and tests in which they are refused are told as such. LAST has to
be past the last allocation of each session: 500 is, and is the default. The build takes some two minutes of a processor,
and a test some tenths of a second.

A run has to come to one of these, after which nothing is as it shouldn't be:
    7            status 7, its line, and a beginning of the output, which is empty for a relay
    5            status 5, its line, and a beginning of the output: the sink in memory got no memory
    6            status 6, its line, and no output: no thread could be made
    starved, late, owed, unsent
                 status 0 and a report in which this is above 0, and the rest is what the events that are left make
    enough       status 0, the output, and the copies, as with enough memory
    none         as `enough`, and there was no allocation of this number
Memory ends a relay only before its first turn. So where each allocation is refused, some runs of it have `starved`
above 0, and some `late`. It ends with 1, and the first run that comes to something else, where one does.
"""
import collections
import pathlib
import re
import shutil
import signal
import subprocess
import sys
import tempfile

HERE = pathlib.Path(__file__).resolve().parent
REPOSITORY = HERE.parent
NAME = "refuse_memory"
# The crate that has the same devices and makes the same calls: what it stands on is what the program needs.
LIKE = "replay_cases"
REFUSED = 1_000
# The tests take some tenths of a second each, and more on a busy machine.
LONGEST_S = 3600
# The command of each session, for how many workers it has links out, and its script where it is a replay.
SESSIONS = {
    "pair": ("replay pair", 0, "session"),
    "dual": ("replay dual", 0, "dual_session"),
    "relay": ("relay F --turns 3 --workers 2", 2, None),
    "inline": ("relay F --turns 3 --workers 0", 1, None),
}
LINES = {7: "amt: out of memory;", 5: "amt: write fault;", 6: "amt: link fault;"}
KINDS = ["before the session", "7", "5", "6", "starved", "late", "owed", "unsent", "enough", "none"]


class Failed(Exception):
    """A run that comes to something that it mustn't."""


class Run:
    """What a test told of its session, and of the same session with enough memory."""

    LINE = re.compile(r"refused ([01]) status (\d+) output (\w+) kept (\d+) (\d+) of (\d+) err(.*?)( report.*)?")

    def __init__(self, text):
        self.is_padded = text is not None
        if self.is_padded:
            told = self.LINE.fullmatch(text)
            if told is None:
                raise Failed("nothing that is known")
            self.is_refused, self.status, self.output = told[1] == "1", int(told[2]), told[3]
            self.kept, self.strange, self.wanted = int(told[4]), int(told[5]), int(told[6])
            self.err = told[7].strip()
            out, _, enough = (told[8] or "").partition(" enough")
            self.counts, self.enough = counts_in(out), counts_in(enough)


def counts_in(text):
    return dict(re.findall(r"(\w+) (\w+);", text))


def expect(holds, what):
    if not holds:
        raise Failed(what)


def check_report(run):
    """The report of a run in which memory refused something, and that went on: one allocation of it was refused."""
    expect(list(run.counts) == list(run.enough) and run.counts["end"] == "turns", "no report")
    counts, whole = ({key: int(value) for key, value in it.items() if key != "end"} for it in (run.counts, run.enough))
    expect(counts["turns"] == whole["turns"] and counts["torn"] == 0, "other turns")
    expect(counts["starved"] + counts["late"] + counts["unsent"] <= 1, "more than one refusal")
    expect(counts["apart"] == 0, "a view is apart")
    # A publishing that is refused is made good by the next one, unless it was the last.
    expect(counts["owed"] == 0 or counts["late"] == 1, "entries are owed, and no publishing was refused")
    # Each turn and each accepted Update has an entry. An event that is refused has none and isn't counted.
    entries = counts["published"] + counts["owed"]
    events = entries - counts["updated"] + counts["datagrams"] + counts["packets"]
    wanted = whole["published"] - whole["updated"] + whole["datagrams"] + whole["packets"]
    expect(events == wanted - counts["starved"], f"{events} events")
    # An Update that was taken is accepted, and a packet that was taken is copied to its endpoint.
    expect(counts["updated"] == counts["datagrams"], "an Update that isn't accepted")
    copies = counts["sent"] + counts["unsent"]
    expect(copies == counts["datagrams"] * counts["packets"], "other copies")
    expect(run.kept in (counts["sent"], copies), "sends that aren't the report's")


def kind_of(run):
    """Which of the lawful results the run has."""
    if not run.is_padded:
        return "before the session"
    expect(run.strange == 0, "a send that isn't the copy")
    if run.status in LINES:
        expect(run.is_refused, "nothing was refused")
        expect(run.err == LINES[run.status], "another line")
        expect(run.output == "none" or run.output == "part" and run.status != 6, "other output")
        expect(run.output == "none" or not run.enough or run.status == 5, "a report")
        return str(run.status)
    expect(run.status == 0, "another status")
    expect(run.err == "", "a line with status 0")
    if run.output == "whole" and run.kept == run.wanted:
        return "enough" if run.is_refused else "none"
    expect(run.is_refused, "nothing was refused")
    above = [name for name in ("starved", "late", "owed", "unsent") if run.counts.get(name, "0") != "0"]
    expect(above, "other output, and a report that tells of no refusal")
    check_report(run)
    return above[0]


def lines_for_copy():
    """The lines of crates.txt with the program's."""
    text = (REPOSITORY / "crates.txt").read_text()
    uses = re.search(rf"^{LIKE}\b[^:]*:(.*)$", text, re.M)[1]
    return f"{text}\n{NAME}:{uses}\n"


def tests_of(numbers, sessions):
    """A test for each run."""
    lines = ["use crate::sessions::{Session, tell};", "use std::alloc::AllocError;", ""]
    for session in sessions:
        words, slots, file = SESSIONS[session]
        script = (HERE / NAME / file).read_text(encoding="ascii").replace("\n", "\\n\\\n") if file else ""
        fields = f'words: "{words}", input: "{script}", slots: {slots}'
        lines.append(f"const {session.upper()}: Session<'static> = Session {{ {fields} }};")
    for session in sessions:
        for number in numbers:
            lines += ["", "#[test]", f"fn {session}_{number}(rt: HostRuntime) -> Result<(), AllocError> {{",
                      f"    tell(&rt, rt.alloc(), &{session.upper()}, {REFUSED - number})", "}"]
    return "\n".join(lines) + "\n"


def copy_all(top, numbers, sessions):
    """The crates, and one with the tests."""
    (top / "crates.txt").write_text(lines_for_copy())
    shutil.copy(REPOSITORY / "HANDLES", top)
    for crate in (REPOSITORY / "crates").iterdir():
        for part in ("src", "specs", "proofs"):
            if (crate / part).is_dir():
                shutil.copytree(crate / part, top / "crates" / crate.name / part)
    source = top / "crates" / NAME / "src"
    source.mkdir(parents=True)
    (source / "lib.rt").write_text("#![tactic(auto)]\n#[cfg(test)] mod each;\n#[cfg(test)] mod sessions;\n")
    (source / "each.rt").write_text(tests_of(numbers, sessions))
    shutil.copy(HERE / NAME / "sessions.rt.in", source / "sessions.rt")


def runs_of(numbers, sessions):
    """What each test told, by session and number: a line, or nothing where its devices got no memory."""
    with tempfile.TemporaryDirectory() as folder:
        top = pathlib.Path(folder)
        copy_all(top, numbers, sessions)
        words = ["rt", "try", "--test", "--fail-alloc", str(REFUSED), "--seconds", str(LONGEST_S)]
        how = {"stdout": subprocess.PIPE, "stderr": subprocess.STDOUT, "text": True, "check": False}
        said = subprocess.run(words, cwd=top / "crates" / NAME, **how).stdout
    found = {}
    for name, ended, told in re.findall(r"^test each::(\w+) \.\.\. (\w+).*\n((?:    .*\n)*)", said, re.M):
        lines = [line.strip() for line in told.splitlines()]
        session, _, number = name.rpartition("_")
        texts = [line for line in lines if line.startswith("refused ")]
        if ended == "ok" and len(texts) == 1:
            found[session, int(number)] = texts[0]
        elif "Error: AllocError" in lines and not texts:
            found[session, int(number)] = None
        else:
            found[session, int(number)] = f"{ended} {lines}"
    missing = [f"{session}_{number}" for session in sessions for number in numbers if (session, number) not in found]
    if missing:
        sys.exit(f"{said[-4000:]}\nrefuse-memory: nothing of the test {missing[0]}")
    return found


def tell(session, numbers, texts, is_whole):
    """The tally of a session, after each of its runs is checked."""
    tally = collections.Counter()
    for number in numbers:
        try:
            tally[kind_of(Run(texts[session, number]))] += 1
        except Failed as fault:
            sys.exit(f"{texts[session, number]}\nrefuse-memory: {session}, allocation {number}: {fault}")
    if texts[session, numbers[-1]] is None or not tally["none"]:
        sys.exit(f"refuse-memory: {session} has more allocations than {numbers[-1]}: give a greater LAST")
    refused = len(numbers) - tally["before the session"] - tally["none"]
    kinds = ", ".join(f"{kind} {tally[kind]}" for kind in KINDS if tally[kind])
    print(f"{session}: {refused} allocations refused; {kinds}", flush=True)
    if is_whole and SESSIONS[session][2] is None:
        missing = [kind for kind in ("starved", "late") if not tally[kind]]
        if missing:
            sys.exit(f"refuse-memory: {session}: no run with {' or '.join(missing)} above 0")


def main():
    signal.signal(signal.SIGTERM, lambda number, _: sys.exit(128 + number))
    words = sys.argv[1:]
    if "--help" in words:
        print(__doc__)
        return
    first, last, stride = [int(word) for word in words[:3]] + [1, 500, 1][len(words[:3]):]
    sessions = words[3:] or ["pair", "dual", "relay"]
    # The last run shows what there is with enough memory.
    numbers = sorted({*range(first, last + 1, stride), last})
    if not all(session in SESSIONS for session in sessions) or not 0 < first <= last < REFUSED:
        sys.exit(__doc__)
    texts = runs_of(numbers, sessions)
    for session in sessions:
        tell(session, numbers, texts, stride == 1)


main()
