"""What a command costs over an input: processor milliseconds and peak KB, the least of some runs.

usage: cost.py RUNS FILE COMMAND..
"""
import subprocess
import sys

# The peak is of the command from its start, and so at least that of the Python that starts it, 14 MB.
MEASURE = """
import resource, subprocess, sys
subprocess.run(sys.argv[2:], stdin=open(sys.argv[1]), stdout=subprocess.DEVNULL, check=True)
used = resource.getrusage(resource.RUSAGE_CHILDREN)
print(round((used.ru_utime + used.ru_stime) * 1000), used.ru_maxrss)
"""


def run(path, command):
    words = [sys.executable, "-c", MEASURE, path, *command]
    printed = subprocess.run(words, check=True, capture_output=True, text=True).stdout
    return tuple(int(number) for number in printed.split())


runs = [run(sys.argv[2], sys.argv[3:]) for _ in range(int(sys.argv[1]))]
print(min(milliseconds for milliseconds, _ in runs), min(peak for _, peak in runs))
