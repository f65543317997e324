"""Proves the crates below `amt` side by side, and builds the program.

usage: tools/build.sh [CRATE ..]

`rt run` in crates/amt proves one library after another. Here each library is proved by `rt lib` as soon as those
below it are, as many at a time as there are processors and memory, the one with the longest chain above it first.
One run of rt keeps others out of the crates that it reads, so each lane has a copy of the sources, into which what
is proved already is linked. What a lane proved is moved into this repository: later commands find it there.
With CRATEs, what they stand on, and they themselves where they are libraries, are proved, and nothing is run.
It ends with the status of the first command that failed.
"""
import os
import shutil
import subprocess
import sys
import time
from concurrent.futures import FIRST_COMPLETED, ThreadPoolExecutor, wait

ROOT = subprocess.run(["git", "rev-parse", "--show-toplevel"], capture_output=True, text=True, check=True,
                      cwd=os.path.dirname(os.path.abspath(__file__))).stdout.strip()
LANES = f"{ROOT}/.git/build-lanes-{os.getpid()}"
# `rt`, which reads each crate's sources once.
RT = [sys.executable, os.path.join(os.path.dirname(os.path.abspath(__file__)), "rt_alone.py")]
# What a check of a large crate over all others takes, in octets.
MEMORY = 5_500_000_000


def dependencies():
    with open(f"{ROOT}/crates.txt", encoding="utf-8") as it:
        lines = [line.partition("#")[0].partition(":") for line in it]
    named = {name.split()[0]: below.split() for name, _, below in lines if name.strip()}
    return {name: [it for it in below if it in named] for name, below in named.items()}


def is_program(crate):
    return os.path.isfile(f"{ROOT}/crates/{crate}/src/main.rt")


def below(crate, direct, found=None):
    found = {} if found is None else found
    for it in direct[crate]:
        if it not in found:
            below(it, direct, found)
            found[it] = None
    return found


def lines_of(crate):
    count = 0
    for at, folders, files in os.walk(f"{ROOT}/crates/{crate}"):
        folders[:] = [it for it in folders if it in ("src", "specs", "proofs") or at != f"{ROOT}/crates/{crate}"]
        for it in files:
            if it.endswith((".rt", ".antt")):
                with open(f"{at}/{it}", "rb") as text:
                    count += text.read().count(b"\n")
    return count


def lanes_at_once():
    with open("/proc/meminfo", encoding="utf-8") as it:
        free = next(int(line.split()[1]) * 1024 for line in it if line.startswith("MemAvailable"))
    return max(1, min(len(os.sched_getaffinity(0)), free // MEMORY))


def lay(lane, crate, direct):
    """Has the lane hold the sources that the crate needs, and the proved libraries below it."""
    shutil.copy(f"{ROOT}/crates.txt", f"{lane}/crates.txt")
    for it in [*below(crate, direct), crate]:
        to = f"{lane}/crates/{it}"
        if not os.path.isfile(f"{to}/src/lib.rt"):
            shutil.copytree(f"{ROOT}/crates/{it}", to, ignore=shutil.ignore_patterns("out"), dirs_exist_ok=True)
        if it != crate and not os.path.isdir(f"{to}/out/rlib"):
            os.makedirs(f"{to}/out", exist_ok=True)
            subprocess.run(["cp", "-al", f"{ROOT}/crates/{it}/out/rlib", f"{to}/out/rlib"], check=True)
    # (crates.txt may list no crate whose folder is not there)
    for it in direct:
        os.makedirs(f"{lane}/crates/{it}/src", exist_ok=True)


def prove(crate, lane, direct):
    began = time.monotonic()
    lay(lane, crate, direct)
    here, out = f"{lane}/crates/{crate}", f"{ROOT}/crates/{crate}/out"
    if os.path.isdir(out):
        # (a copy, and no links: the check writes here)
        shutil.rmtree(f"{here}/out", ignore_errors=True)
        subprocess.run(["cp", "-a", "--reflink=auto", out, f"{here}/out"], check=True)
    # (with more jobs each loads all libraries once more, which takes as long as is won)
    ran = subprocess.run([*RT, "lib", "--jobs", "1"], cwd=here, stdin=subprocess.DEVNULL, stdout=subprocess.PIPE,
                         stderr=subprocess.STDOUT, text=True, errors="replace")
    said = ran.stdout.rstrip().split("\n")
    print(f"{crate}: {'proved' if not ran.returncode else 'NOT PROVED'} in {time.monotonic() - began:.0f} s", flush=True)
    if ran.returncode:
        print("\n".join(said[-40:]), flush=True)
    else:
        made = f"{LANES}/made-{crate}"
        subprocess.run(["cp", "-al", f"{here}/out", made], check=True)
        shutil.rmtree(out, ignore_errors=True)
        os.rename(made, out)
        shutil.rmtree(f"{here}/out/incremental", ignore_errors=True)
    return ran.returncode


def prove_all(wanted, direct):
    lanes = lanes_at_once()
    chain = {}

    def behind(crate):
        if crate not in chain:
            chain[crate] = lines_of(crate) + max((behind(it) for it in wanted if crate in direct[it]), default=0)
        return chain[crate]

    left, done, running, failed = sorted(wanted, key=lambda it: -behind(it)), set(), {}, 0
    free = [f"{LANES}/{number}" for number in range(lanes)]
    for it in free:
        os.makedirs(f"{it}/crates")
    with ThreadPoolExecutor(lanes) as pool:
        while running or (left and not failed):
            ready = [it for it in left if all(low in done for low in direct[it])]
            while ready and free and not failed:
                crate, lane = ready.pop(0), free.pop(0)
                left.remove(crate)
                running[pool.submit(prove, crate, lane, direct)] = crate, lane
            for it in wait(running, return_when=FIRST_COMPLETED).done:
                crate, lane = running.pop(it)
                free.append(lane)
                failed = failed or it.result()
                done.add(crate)
    return failed


def main():
    direct, began = dependencies(), time.monotonic()
    named = sys.argv[1:]
    unknown = [it for it in named if it not in direct]
    if unknown:
        print(f"crates.txt lists no {unknown[0]}", file=sys.stderr)
        return 2
    wanted = {}
    for crate in named or ["amt"]:
        below(crate, direct, wanted)
        if not is_program(crate):
            wanted[crate] = None
    try:
        status = prove_all(wanted, direct)
    finally:
        shutil.rmtree(LANES, ignore_errors=True)
    if not status and not named:
        with open(f"{ROOT}/examples/discovery/script", "rb") as script:
            status = subprocess.run([*RT, "run", "--", "replay", "relay"], cwd=f"{ROOT}/crates/amt", stdin=script).returncode
    count = len(os.sched_getaffinity(0))
    print(f"{'done' if not status else 'FAILED'} after {(time.monotonic() - began) / 60:.1f} minutes on {count} processors")
    return status


if __name__ == "__main__":
    sys.exit(main())
