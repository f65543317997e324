"""What the published copies of a membership table cost beside the table: time of an entry, of a reading, and memory.

usage: python3 bench/published.py [ROWS [ROUNDS [PROGRAM]]]

It copies the program below bench/published into a folder of its own, proves and builds it there over the repository's
proved crates, which takes some minutes, and leaves it as bench/out/published; where that file is given as PROGRAM,
nothing is built. `rt lib` first proves those of the crates that aren't built yet, which takes longer, and then they
are kept. The files of the program end in `.in`, since the gate takes sources only in the crates of the repository.

Each endpoint has one group of its own, there are 4 views, and nothing expires. A round takes 16,384 entries, and reads
as often through a view and of the table, in the same run. An entry is accepted by a table as in a relay, and then goes
from `ready` to a reading by a view that was told of it; the views take turns. Times are of the processor, and the least
of all rounds, so that other work on the machine disturbs them little. The clock is read at each entry, and what that
takes is taken off. Memory is what is resident after all rows, without what was before the first, the least of some
runs; the copies' is that of a relay without that of its table. All of it is one thread: what a publishing waits for
readings isn't measured.
"""
import os
import pathlib
import shutil
import subprocess
import sys
import tempfile

HERE = pathlib.Path(__file__).resolve().parent
REPOSITORY = HERE.parent
NAME = "published_bench"
USES = ["amt_values", "source_filter", "endpoint_membership", "published_table"]
VIEWS = 4
COUNT = 16384
# Of an entry, of two readings of both kinds: each has one target.
READINGS = 5


def crate_lines():
    """The lines of crates.txt, and what each crate there uses."""
    lines = {}
    for line in (REPOSITORY / "crates.txt").read_text().splitlines():
        line = line.partition("#")[0].strip()
        if line:
            lines[line.replace(":", " ").split()[0]] = line
    return lines, {name: line.partition(":")[2].split() for name, line in lines.items()}


def lines_needed():
    """The lines of the crates that the program stands on, and what it and they use of the kit's."""
    lines, uses = crate_lines()
    names, libraries, left = [], [], list(USES)
    while left:
        name = left.pop()
        if name not in lines:
            libraries.append(name)
        elif name not in names:
            names.append(name)
            left += uses[name]
    return {name: lines[name] for name in names}, sorted(set(libraries))


def run_quietly(command, folder):
    """Runs a command, and shows what it printed only where it fails."""
    ran = subprocess.run(command, cwd=folder, stdout=subprocess.PIPE, stderr=subprocess.STDOUT, text=True)
    if ran.returncode:
        sys.exit(ran.stdout + f"{' '.join(command)} failed")


def copy_program(crate):
    """The program's own files, without the ending by which the gate passes them over."""
    for source in sorted((HERE / "published").rglob("*.in")):
        target = crate / source.relative_to(HERE / "published").with_suffix("")
        target.parent.mkdir(parents=True, exist_ok=True)
        shutil.copy(source, target)


def build(top):
    """The program, proved and built below this folder."""
    lines, libraries = lines_needed()
    print("building; proves what isn't yet of " + ", ".join(sorted(lines)), file=sys.stderr, flush=True)
    for name in USES:
        run_quietly(["rt", "lib", "--jobs", "2"], REPOSITORY / "crates" / name)
    for name in lines:
        for part in ["src", "specs", "proofs", "out/rlib"]:
            source = REPOSITORY / "crates" / name / part
            if source.exists():
                shutil.copytree(source, top / "crates" / name / part)
    used = " ".join([*lines, *libraries])
    (top / "crates.txt").write_text("\n".join([*lines.values(), f"{NAME}: {used}", ""]))
    shutil.copy(REPOSITORY / "HANDLES", top)
    crate = top / "crates" / NAME
    copy_program(crate)
    run_quietly(["rt", "run", "--jobs", "2", "--", "table", "1"], crate)
    (HERE / "out").mkdir(exist_ok=True)
    return shutil.copy(crate / "out" / NAME, HERE / "out" / "published")


def output_lines(program, *words):
    words = [str(program), *map(str, words)]
    return subprocess.run(words, check=True, capture_output=True, text=True).stdout.split("\n")[:-1]


def times(program, rows, rounds):
    """Microseconds of the table's `accept`, of an entry, and of a reading through a view, of the table and of the clock."""
    lines = output_lines(program, "time", rows, VIEWS, rounds, COUNT)
    found = [list(map(int, line.split()[1:])) for line in lines]
    if len(found) != rounds or any(each[-1] != READINGS * COUNT for each in found):
        sys.exit("a reading had not its one target, so nothing was measured")
    accept, entry, view, table, clock = (min(column) / COUNT / 1000 for column in list(zip(*found))[:-1])
    return accept - clock, entry - clock, view, table, clock


def memory(program, *words):
    """KB that are resident after all rows, without those before the first."""
    before, after = [int(line.split()[1]) for line in output_lines(program, *words)]
    return after - before


def load():
    return " ".join(f"{each:.1f}" for each in os.getloadavg())


def show(what, number, unit, asked=None):
    line = f"{what:<46} {number:>9.2f} {unit:<6}"
    if asked:
        line += f" {asked:>6} {'yes' if number <= asked else 'NO'}"
    print(line.rstrip())


def main():
    rows = int(sys.argv[1]) if len(sys.argv) > 1 else 65536
    rounds = int(sys.argv[2]) if len(sys.argv) > 2 else 15
    if len(sys.argv) > 3:
        program = sys.argv[3]
    else:
        with tempfile.TemporaryDirectory(prefix="published-bench-") as top:
            program = build(pathlib.Path(top))
    before = load()
    accept, entry, view, table, clock = times(program, rows, rounds)
    one = min(memory(program, "table", rows) for _ in range(3))
    both = min(memory(program, "copies", rows, VIEWS) for _ in range(3)) - one
    print(f"{rows} rows, {VIEWS} views, {os.cpu_count()} processors; load {before} before, {load()} after")
    print(f"{'':<46} {'is':>9} {'':<6} {'asked':>6} met")
    show("an entry, from `ready` to a reading by a view", entry, "us", 60)
    show("  the table's own `accept` of it, beside that", accept, "us")
    show("  taken off both, a reading of the clock", clock, "us")
    show("a reading through a view", view, "us")
    show("a reading of the table", table, "us")
    show("  more through a view", view - table, "us", 3)
    show("resident of both copies", both / 1024, "MiB")
    show("resident of the table", one / 1024, "MiB")
    show("  times as much for both copies", both / one, "", 2.2)


if __name__ == "__main__":
    main()
