"""Tries the wrong bodies of the crates on a copy of the repository: the prover must refuse each.

usage: tools/wrong-bodies.sh [--anew] [--times] [--gate] [CRATE ..]
       tools/wrong-bodies.sh --due [--gate] [CRATE ..]

A wrong body is an edit of a crate's sources, a file `crates/NAME/must-fail/X.edit` (which `rt ci` tries too) or
`crates/NAME/wrong/X.edit` (which only this tries). Without CRATEs all are tried; with --gate those of must-fail/ alone.

The crates are proved first (tools/build.py). Each edit is then checked over what that left, so it costs what the edit
opens and not a proof of its crate. A function is proved from its own body and the contracts of others, so edits in the
bodies of different functions are checked in one go: each is refused there if the prover refuses the very function that it
changes. An edit of anything else, and one that isn't refused so, is checked by itself, and if it isn't refused then, once
more from nothing. Functions of which one calls the other, by whatever way, don't go together: where what it calls has no
proof, a function waits. After that the crate is checked as it stands, over all that the edits left: where it isn't proved, they are
tried again, each by itself and from nothing.

It prints each wrong body that isn't refused, or that can't be applied or read; with --times each is checked by itself, and
what it took is printed besides.
What was refused is noted in tools/refused.txt by a sum of the kit's logic, the edit, its crate's sources and what these can see
of the crates below (tools/seen.py), and isn't tried again while these stay the same; with --anew it is. The file is committed
with the sources, so that a try on another machine, or in an earlier session, isn't lost. --due tries nothing, and prints what
isn't noted so. The last line is `N refused, M not`, and the status is 1 where M isn't 0.
"""
import fcntl
import hashlib
import os
import re
import shutil
import subprocess
import sys
import threading
import time

import build
import seen

ROOT = build.ROOT
NOTES = f"{ROOT}/tools/refused.txt"
NOTES_HEAD = "# The wrong bodies that the prover refused, each with a sum of logic, sources and edit. tools/wrong-bodies.sh writes this.\n"
LANES = f"{ROOT}/.git/wrong-lanes-{os.getpid()}"
PARTS = ("src", "specs", "proofs")
# The kit's logic, by its sum. Kits of one logic may still search differently: before a release all are tried with --anew.
LOGIC = subprocess.run(["rt", "version"], capture_output=True, check=True).stdout.partition(b" logic ")[2].strip()
# Is one more whenever this tool takes something else for a refusal: what was noted before counts no more then.
RULE = 3
# The most edits of a crate that are checked in one go, and how many a lane tries before it checks the crate as it stands.
AT_ONCE, BETWEEN = 12, 16
FUNCTION_NAME = re.compile(r"\bfn (\w+)")
# What the checker says of a text that it can't read, where a wrong body is to be read and refused.
UNREAD = re.compile(r"is not in scope|has no field|is no name|operand is missing|expected the end|cannot continue")
# What it says of a body that is no Rust at all, which no prover has judged.
NO_RUST = re.compile(r"error\[E\d{4}\].*|.*the borrow checker does not cover this function.*")
# An error in a text of ours: its place, the declaration that it is in, where it names one, and what it says.
ERROR = re.compile(r"(?:\./)?((?:src|specs)/\S+?):(\d+):\d+: error: (?:(`[^`]*`): )?(.*)")
# A goal of ours that is left, and its place; a function some of whose own goals are left, and not one that waits for another.
GOAL = re.compile(r"(?:note|error): (?:\./)?(src/\S+?):(\d+):\d+: it is not proved")
UNPROVED = re.compile(r"fn (\S+): no proof: expected [^;]*; `search` did not prove ")
CALL = re.compile(r"\b(\w+)(?:::<[^()]*>)?\(")
STALE = re.compile(r"the kept work of \S+ cannot be used")


def edits_of(crate, parts=("must-fail", "wrong")):
    found = []
    for part in parts:
        folder = f"{ROOT}/crates/{crate}/{part}"
        if os.path.isdir(folder):
            found += [f"{folder}/{it}" for it in sorted(os.listdir(folder)) if it.endswith(".edit")]
    return found


def text_of(path):
    with open(path, encoding="utf-8") as it:
        return it.read()


def files_of(crate):
    for part in PARTS:
        for at, folders, names in os.walk(f"{ROOT}/crates/{crate}/{part}"):
            folders.sort()
            for it in sorted(names):
                yield f"{at}/{it}"


def sum_of(crate, direct):
    """A sum of the kit's logic, of what counts as a refusal, of the crate's sources, and of what they can see of those below."""
    whole = hashlib.sha256(LOGIC + str(RULE).encode())
    names = {crate, *build.below(crate, direct)}
    lines = text_of(f"{ROOT}/crates.txt").split("\n")
    whole.update(repr([line for line in lines if names & set(line.partition(":")[0].split()[:1])]).encode())
    files = [path for it in sorted(names) for path in files_of(it)]
    for path, text in seen.of_files(crate, files):
        whole.update(repr((os.path.relpath(path, ROOT), text)).encode())
    return whole.hexdigest()


def changed_by(edit, crate):
    """The texts of the files that the edit changes, by their paths in the crate, or why it can't be applied."""
    path, old, texts = "", None, {}
    for line in text_of(edit).split("\n"):
        word, _, rest = line.partition(": ") if not line.startswith("new:") else ("new", "", line[4:].removeprefix(" "))
        if word == "file":
            path = rest.strip()
            if not path.startswith(tuple(f"{it}/" for it in PARTS)) or not os.path.isfile(f"{ROOT}/crates/{crate}/{path}"):
                return None, f"there is no file {path}"
            texts.setdefault(path, text_of(f"{ROOT}/crates/{crate}/{path}"))
        elif word == "old":
            old = rest
        elif word == "new":
            if not old or texts.get(path, "").count(old) != 1:
                return None, f"the text to change doesn't stand once in {path or 'any file'}"
            if old == rest:
                return None, "it changes nothing"
            texts[path], old = texts[path].replace(old, rest), None
    return (texts, None) if texts else (None, "it changes nothing")


def span_of(text, first):
    """Where the function's body begins, and its last line; that line alone, where no function begins there."""
    return next(((body, last) for at, body, last in seen.functions_of(text) if at == first), (first, first))


def name_in(text, path, first, crate):
    """What the prover may call the function at this line: none, where the file has another of its name."""
    named = {at: FUNCTION_NAME.search(text.split("\n")[at - 1])[1] for at, _, _ in seen.functions_of(text)}
    name, module = named.get(first), "::".join([crate, *path.removeprefix("src/").removesuffix(".rt").split("/")])
    if list(named.values()).count(name) != 1:
        return set()
    kinds = re.findall(r"^(?:impl|pub trait|trait)\b[^{;]*?(\w+)(?:<[^{;]*>)?\s*\{", text, re.M)
    return {f"{module}::{name}", *(f"{module}::{kind}::{name}" for kind in kinds)}


def place_of(edit, crate):
    """The file, and the first line of the function, in whose body all lines stand that the edit changes; None if there is none."""
    texts, why = changed_by(edit, crate)
    if why or len(texts) != 1:
        return None
    [(path, new)] = texts.items()
    text = text_of(f"{ROOT}/crates/{crate}/{path}")
    before, after = text.split("\n"), new.split("\n")
    changed = [at for at, (old, it) in enumerate(zip(before, after), 1) if old != it]
    if len(before) != len(after):
        return None
    return next(((path, first) for first, body, last in seen.functions_of(text) if all(body < at < last for at in changed)), None)


def calls_in(crate, edits):
    """For each function of a crate, by its file and first line, those that it may call, by whatever way: all of the names in its
    body, as it stands and as the edits make it."""
    names_in, named = {}, {}
    for file in files_of(crate):
        path, lines = os.path.relpath(file, f"{ROOT}/crates/{crate}"), text_of(file).split("\n")
        for first, body, last in seen.functions_of("\n".join(lines)) if path.endswith(".rt") else ():
            names_in[path, first] = set(CALL.findall("\n".join(lines[body - 1:last])))
            named.setdefault(FUNCTION_NAME.search(lines[first - 1])[1], set()).add((path, first))
    for edit in edits:
        place = place_of(edit, crate)
        if place:
            path, first = place
            body, last = span_of(text_of(f"{ROOT}/crates/{crate}/{path}"), first)
            lines = changed_by(edit, crate)[0][path].split("\n")
            names_in[place] |= set(CALL.findall("\n".join(lines[body - 1:last])))
    direct = {place: set().union(*(named.get(it, ()) for it in names)) for place, names in names_in.items()}
    reached = {}
    for place in direct:
        reached[place], left = set(), [place]
        while left:
            new = direct[left.pop()] - reached[place]
            reached[place] |= new
            left += new
    return reached


def errors_in(said):
    """The errors that the checker found in our texts, and the first of them that says a text can't be read."""
    errors = [it for it in map(ERROR.match, said.split("\n")) if it]
    return errors, next((it for it in errors if not it[3] or UNREAD.search(re.sub(r"`[^`]*`", "", it[4]))), None)


def is_not_proved(said):
    return next((it for it in reversed(said.split("\n")) if it.startswith("logic=")), "").startswith("logic=not-proved")


class Lane:
    """A copy of what one crate reads, in which its edits are checked one after another."""

    def __init__(self, number, direct):
        self.folder, self.direct, self.crate = f"{LANES}/{number}", direct, None
        os.makedirs(f"{self.folder}/crates")

    def take(self, crate):
        shutil.rmtree(f"{self.folder}/crates/{self.crate}", ignore_errors=True)
        shutil.rmtree(f"{self.folder}/crates/{crate}", ignore_errors=True)
        self.crate, self.here = crate, f"{self.folder}/crates/{crate}"
        build.lay(self.folder, crate, self.direct)
        self.keep()

    def keep(self):
        """Lays what the proved crate left anew."""
        shutil.rmtree(f"{self.here}/out", ignore_errors=True)
        subprocess.run(["cp", "-a", "--reflink=auto", f"{ROOT}/crates/{self.crate}/out", f"{self.here}/out"], check=True)

    def check(self, texts, anew=False):
        """The status, what was said, and the processor seconds, of a check with these texts in place of the crate's."""
        if anew:
            shutil.rmtree(f"{self.here}/out/incremental", ignore_errors=True)
        for path, text in texts.items():
            with open(f"{self.here}/{path}", "w", encoding="utf-8") as it:
                it.write(text)
        with open(f"{self.folder}/said", "w+", encoding="utf-8", errors="replace") as said:
            ran = subprocess.Popen([*build.RT, "check", "--jobs", "1"], cwd=self.here, env={**os.environ, "RT_ALONE": "1"},
                                   stdin=subprocess.DEVNULL, stdout=said, stderr=said)
            _, status, used = os.wait4(ran.pid, 0)
            ran.returncode = os.waitstatus_to_exitcode(status)
            said.seek(0)
            text = said.read()
        for path in texts:
            shutil.copyfile(f"{ROOT}/crates/{self.crate}/{path}", f"{self.here}/{path}")
        return ran.returncode, text, used.ru_utime + used.ru_stime

    def together(self, edits):
        """Those of these edits, each in a function of its own, whose functions the prover refuses, and the processor seconds."""
        texts, places = {}, {edit: place_of(edit, self.crate) for edit in edits}
        for edit, (path, first) in places.items():
            text = texts.get(path) or text_of(f"{ROOT}/crates/{self.crate}/{path}")
            lines, new = text.split("\n"), changed_by(edit, self.crate)[0][path].split("\n")
            body, last = span_of(text, first)
            lines[body:last] = new[body:last]
            texts[path] = "\n".join(lines)
        status, said, used = self.check(texts)
        errors, unread = errors_in(said)
        if status != 1 or unread or NO_RUST.search(said) or STALE.search(said) or not is_not_proved(said):
            return set(), used
        lines = said.split("\n")
        hits = {(it[1], int(it[2])) for it in [*errors, *filter(None, map(GOAL.match, lines))]}
        unproved = {it[1] for it in map(UNPROVED.match, lines) if it}
        refused = set()
        for edit, (path, first) in places.items():
            _, last = span_of(texts[path], first)
            if any(file == path and first <= at <= last for file, at in hits) or name_in(texts[path], path, first, self.crate) & unproved:
                refused.add(edit)
        return refused, used

    def verdict(self, edit, anew=False):
        """Whether the prover refuses the edit, why not, and the processor seconds."""
        texts, why = changed_by(edit, self.crate)
        if why:
            return False, f"BAD EDIT: {why}", 0
        status, said, used = self.check(texts, anew)
        errors, unread = errors_in(said)
        if unread:
            return False, f"BAD EDIT: the prover can't read it: {unread[0][:160]}", used
        if no_rust := NO_RUST.search(said):
            return False, f"BAD EDIT: it is no Rust: {no_rust[0].strip()[:160]}", used
        if STALE.search(said):
            return False, "NOT TRIED: the kept work of a library could not be used", used
        if status < 0 or status > 128:
            return False, f"NOT TRIED: its check ended with {status}", used
        if status == 1 and is_not_proved(said):
            return True, "", used
        if status == 0:
            return False, "NOT REFUSED: the crate is still proved", used
        first = " / ".join([it[0] for it in errors[:1]] or said.split("\n")[:3])
        return False, f"BAD EDIT: it didn't reach the prover: {first[:300]}", used


class Run:
    """What is to be tried, and what was found, by all lanes."""

    def __init__(self, left, direct, known, times):
        self.left, self.direct, self.known, self.times = left, direct, known, times
        self.sums = {crate: sum_of(crate, direct) for crate in left}
        self.places = {edit: place_of(edit, crate) for crate, edits in left.items() for edit in edits}
        self.calls = {crate: calls_in(crate, edits) for crate, edits in left.items()}
        # (functions that reach as many others seldom call one another)
        for crate, edits in left.items():
            edits.sort(key=lambda it: len(self.calls[crate].get(self.places[it], ())))
        self.refused, self.bad, self.lock = 0, [], threading.Lock()

    def next_crate(self):
        with self.lock:
            crates = [it for it in self.left if self.left[it]]
            return max(crates, key=lambda it: len(self.left[it]), default=None)

    def next_edits(self, crate):
        """Takes edits of functions of which none calls another, and at most one of something else."""
        with self.lock:
            taken, calls = {}, self.calls[crate]
            for edit in self.left[crate]:
                place = self.places[edit]
                meets = any(place in calls.get(it, ()) or it in calls.get(place, ()) for it in taken)
                if len(taken) < AT_ONCE and not meets:
                    taken.setdefault(place, edit)
            self.left[crate] = [it for it in self.left[crate] if it not in taken.values()]
            return list(taken.values())

    def tell(self, crate, edit, used, why):
        name = f"{crate}/{os.path.basename(edit)[:-5]}"
        if not why and self.sums[crate] != sum_of(crate, self.direct):
            why = "NOT TRIED: a source of its crate was changed meanwhile"
        with self.lock:
            if why:
                self.bad.append(name)
                print(f"{name}: {why}", flush=True)
                return
            self.refused += 1
            if self.times:
                print(f"{name}: refused after {used:.0f} processor seconds", flush=True)
            note(name, self.key(crate, edit))

    def key(self, crate, edit):
        return hashlib.sha256((self.sums[crate] + text_of(edit)).encode()).hexdigest()[:32]

    def tried(self, lane, edits):
        """Each edit with the processor seconds that it took, and why it isn't refused."""
        together = [] if self.times else [it for it in edits if self.places[it]]
        refused, used = lane.together(together) if len(together) > 1 else (set(), 0)
        found = [(it, used / len(together), "") for it in edits if it in refused]
        for edit in [it for it in edits if it not in refused]:
            well, why, used = lane.verdict(edit)
            if not well and why.startswith("NOT"):
                well, why, more = lane.verdict(edit, anew=True)
                used += more
                lane.keep()
            found.append((edit, used, why))
        return found

    def work(self, lane):
        while (crate := self.next_crate()) is not None:
            if lane.crate != crate:
                lane.take(crate)
            tried = []
            while len(tried) < BETWEEN and (edits := self.next_edits(crate)):
                tried += self.tried(lane, edits)
            if tried and lane.check({})[0]:
                # what was kept isn't sound: each is tried from nothing, if the crate itself is proved from nothing
                well = lane.check({}, anew=True)[0] == 0
                why = "NOT TRIED: the crate as it stands isn't proved"
                tried = [(edit, used, lane.verdict(edit, anew=True)[1] if well else why) for edit, used, _ in tried]
                lane.keep()
            for it in tried:
                self.tell(crate, *it)


def noted(text):
    """The sums of a text of notes, by the names of the wrong bodies."""
    return dict(line.split() for line in text.split("\n") if line and not line.startswith("#"))


def note(name, key):
    """Notes a refusal, also beside another run of this tool."""
    with open(NOTES, "a+", encoding="utf-8") as it:
        fcntl.flock(it, fcntl.LOCK_EX)
        it.seek(0)
        notes = {**noted(it.read()), name: key}
        it.seek(0)
        it.truncate()
        it.write(NOTES_HEAD + "".join(f"{name} {key}\n" for name, key in sorted(notes.items())))


def known_keys():
    return set(noted(text_of(NOTES)).values()) if os.path.isfile(NOTES) else set()


def main():
    words = sys.argv[1:]
    anew, times, due = "--anew" in words, "--times" in words, "--due" in words
    parts = ("must-fail",) if "--gate" in words else ("must-fail", "wrong")
    named = [it for it in words if not it.startswith("--")]
    direct, began = build.dependencies(), time.monotonic()
    unknown = [it for it in named if it not in direct]
    if unknown or any(it not in ("--anew", "--times", "--gate", "--due") for it in words if it.startswith("--")):
        print(__doc__.split("\n\n")[1] if not unknown else f"crates.txt lists no {unknown[0]}", file=sys.stderr)
        return 2
    crates = [it for it in named or direct if edits_of(it, parts)]
    run = Run({it: edits_of(it, parts) for it in crates}, direct, set() if anew else known_keys(), times)
    count = sum(map(len, run.left.values()))
    for crate, edits in run.left.items():
        run.left[crate] = [it for it in edits if run.key(crate, it) not in run.known]
    before = count - sum(map(len, run.left.values()))
    if due:
        for crate, edits in run.left.items():
            for edit in edits:
                print(f"{crate}/{os.path.basename(edit)[:-5]}")
        print(f"{before} refused, {count - before} not")
        return 0 if before == count else 1
    wanted = {}
    for crate in [it for it in crates if run.left[it]]:
        build.below(crate, direct, wanted)
        wanted[crate] = None
    try:
        if build.prove_all(wanted, direct):
            print(f"{before} refused, {count - before} not")
            return 1
        lanes = [Lane(number, direct) for number in range(build.lanes_at_once())]
        threads = [threading.Thread(target=run.work, args=(it,)) for it in lanes]
        for it in threads:
            it.start()
        for it in threads:
            it.join()
    finally:
        shutil.rmtree(LANES, ignore_errors=True)
        shutil.rmtree(build.LANES, ignore_errors=True)
    if before:
        print(f"{before} of {count} were refused in an earlier run over the same sources")
    print(f"{len(crates)} crates, {(time.monotonic() - began) / 60:.1f} minutes on {len(os.sched_getaffinity(0))} processors")
    lost = count - before - run.refused - len(run.bad)
    if lost:
        print(f"{lost} of {count} were not tried: a lane ended before them")
    print(f"{run.refused + before} refused, {count - before - run.refused} not")
    return 1 if run.bad or lost else 0


if __name__ == "__main__":
    sys.exit(main())
