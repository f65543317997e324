"""What a run of the gate costs, in processor seconds by crate.

usage: tools/gate-cost.sh [--anew | CRATE ..]

A kit whose `rt ci` takes no words proves all from nothing each time: there --anew says nothing new, and a CRATE is refused.
The gate runs one checker process a task. This reads the processor time of each from /proc, five times a
second, so the last fifth of a second of each process is missed; the sum of all that the gate waited for,
which the system keeps, stands below the table. The gate's own output goes to standard output as it comes.
"""
import os
import re
import resource
import subprocess
import sys
import threading
import time

TICKS = os.sysconf("SC_CLK_TCK")
KINDS = ("proof", "tests", "seed", "edits", "other")


def words_of(pid):
    with open(f"/proc/{pid}/cmdline", "rb") as it:
        return it.read().decode(errors="replace").split("\0")


def stat_of(pid):
    """The parent, and the processor seconds so far, of a process."""
    with open(f"/proc/{pid}/stat", encoding="utf-8") as it:
        fields = it.read().rpartition(")")[2].split()
    return int(fields[1]), (int(fields[11]) + int(fields[12])) / TICKS


def after(words, name):
    return words[words.index(name) + 1] if name in words[:-1] else ""


def task_of(words, folder):
    """The crate, the kind of task and the number of the edit, of a checker's words and the folder that it runs in."""
    crate, over = after(words, "--crate-name"), after(words, "--incremental")
    if words[1] == "check" and ("rt-edits-" in over or "/rt-edit-" in folder):
        end = os.path.basename(over)
        if end == "seed":
            return crate, "seed", None
        # (a kit that tries a crate's edits one after another has one folder for them all, and the first pays the seed)
        return crate, "edits", int(end) if end.isdigit() else None
    if "--test" in words or after(words, "-o").endswith("_tests.o"):
        return crate, "tests", None
    return crate, ("proof" if crate else "other"), None


class Watch(threading.Thread):
    """Keeps, for each checker below this process, its task, its start, and its seconds."""

    def __init__(self):
        super().__init__(daemon=True)
        self.seen, self.tried, self.ended = {}, {}, threading.Event()

    def look(self):
        parents, seconds = {}, {}
        for name in os.listdir("/proc"):
            if name.isdigit():
                try:
                    parents[int(name)], seconds[int(name)] = stat_of(name)
                except (OSError, ValueError, IndexError):
                    pass
        for pid in parents:
            above = pid
            while above in parents and above != os.getpid():
                above = parents[above]
            if above != os.getpid() or pid == os.getpid():
                continue
            try:
                words, folder = words_of(pid), os.readlink(f"/proc/{pid}/cwd")
            except OSError:
                continue
            if len(words) > 1 and os.path.basename(words[0]) == "rattle":
                task = self.seen[pid][0] if pid in self.seen else self.numbered(*task_of(words, folder), pid, parents)
                self.seen[pid] = task, seconds[pid]

    def numbered(self, crate, kind, number, pid, parents):
        """The task, with the number of its edit where the kit gives none: they are tried in their order."""
        if kind != "edits" or number is not None:
            return crate, kind, number
        if parents[pid] in self.seen:
            return self.seen[parents[pid]][0]
        self.tried[crate] = self.tried.get(crate, -1) + 1
        return crate, kind, self.tried[crate]

    def run(self):
        while not self.ended.wait(0.2):
            self.look()


def edits_of(crate):
    folder = f"crates/{crate}/must-fail"
    return sorted(it for it in os.listdir(folder) if it.endswith(".edit")) if os.path.isdir(folder) else []


def dependencies():
    with open("crates.txt", encoding="utf-8") as it:
        lines = [line.partition("#")[0].partition(":") for line in it]
    return {name.split()[0]: below.split() for name, _, below in lines if name.strip()}


def longest_chain(seconds):
    """The dearest chain of crates that can't run side by side: their proofs, and the tests of the last."""
    below, best = dependencies(), {}

    def proofs(crate):
        if crate not in best:
            chains = [proofs(it) for it in below[crate] if it in below]
            cost, chain = max(chains, default=(0, []))
            best[crate] = cost + seconds.get((crate, "proof"), 0), [*chain, crate]
        return best[crate]

    return max(((cost + seconds.get((crate, "tests"), 0), chain) for crate in below for cost, chain in [proofs(crate)]), default=(0, []))


def table(watch):
    seconds, edits = {}, {}
    for (crate, kind, number), used in watch.seen.values():
        seconds[crate, kind] = seconds.get((crate, kind), 0) + used
        if kind == "edits":
            edits[crate, number] = edits.get((crate, number), 0) + used
    crates = sorted({crate for crate, _ in seconds}, key=lambda it: -sum(seconds.get((it, kind), 0) for kind in KINDS))
    print(f"\n{'crate':<22}{'proof':>8}{'tests':>8}{'seed':>8}{'edits':>8}{'(count, mean)':>16}{'sum':>8}")
    for crate in crates:
        parts = [seconds.get((crate, kind), 0) for kind in KINDS]
        count = sum(it == crate and number < len(edits_of(crate)) for it, number in edits)
        mean = f"({count}, {parts[3] / count:.0f})" if count else ""
        print(f"{crate or 'other':<22}{parts[0]:>8.0f}{parts[1]:>8.0f}{parts[2]:>8.0f}{parts[3]:>8.0f}{mean:>16}{sum(parts):>8.0f}")
    parts = [sum(seconds.get((crate, kind), 0) for crate in crates) for kind in KINDS]
    print(f"{'all':<22}{parts[0]:>8.0f}{parts[1]:>8.0f}{parts[2]:>8.0f}{parts[3]:>8.0f}{f'({len(edits)})':>16}{sum(parts):>8.0f}")
    name = lambda crate, number: "as it stands, after its edits" if number >= len(edits_of(crate)) else edits_of(crate)[number][:-5]
    tasks = [(used, f"{crate}: {kind}") for (crate, kind), used in seconds.items() if kind in ("proof", "tests", "seed")]
    tasks += [(used, f"{crate}: {name(crate, number)}") for (crate, number), used in edits.items()]
    print("\nthe dearest ten")
    for used, what in sorted(tasks, reverse=True)[:10]:
        print(f"{used:>8.0f}  {what}")
    past = sorted(((used, f"{crate}/{name(crate, number)}") for (crate, number), used in edits.items() if used > 25), reverse=True)
    print("\nedits past 25 s (the first of a crate may pay its seed): " + ", ".join(f"{what} {used:.0f}" for used, what in past))
    cost, chain = longest_chain(seconds)
    print(f"\nthe longest chain of proofs: {cost:.0f} s, {' '.join(chain)} (and the last one's tests)")
    return sum(parts)


def main():
    watch, began, words = Watch(), time.monotonic(), sys.argv[1:]
    # (where the environment has CI, some kits print no help)
    told = subprocess.run("rt ci --help 2>&1", shell=True, capture_output=True, text=True, env={**os.environ, "CI": ""}).stdout
    if words == ["--anew"] and "--anew" not in told:
        words = []
    watch.start()
    status = subprocess.run(["rt", "ci", *words]).returncode
    took = time.monotonic() - began
    watch.ended.set()
    watch.join()
    used = resource.getrusage(resource.RUSAGE_CHILDREN)
    seen = table(watch)
    whole = used.ru_utime + used.ru_stime
    print(f"the whole: {whole:.0f} processor seconds (of which {seen:.0f} by the checkers above), {took / 60:.1f} minutes on {len(os.sched_getaffinity(0))} processors;"
          f" on two processors {whole / 120:.0f} minutes at least; the largest process took {used.ru_maxrss / 1048576:.1f} GiB")
    return status


if __name__ == "__main__":
    sys.exit(main())
