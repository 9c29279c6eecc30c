"""Runs programs on one input in turn, and prints the ratios of their least times.

    measure.py [--anew NAME] ROOM ROUNDS INPUT NAME [WORD ..] [; NAME [WORD ..] ..]

Each round runs all of them, with their output in a file of ROOM; INPUT is a file.
The first is what is measured. A name that begins with + has to give the same
output as the first. The NAME of --anew is a folder that each run makes where this
is called; those of the last round are moved to ROOM/0.made, ROOM/1.made and so on.
The status is that of a failed run, or 1 where outputs differ.
"""

import filecmp
import itertools
import os
import resource
import shutil
import subprocess
import sys
import time


def measured(words, given, out):
    """The seconds of a run, and the KiB of memory that it had at most."""
    if os.path.exists(out):
        os.remove(out)
    with open(given, "rb") as calls, open(out, "wb") as replies:
        start = time.monotonic()
        process = subprocess.Popen(words, stdin=calls, stdout=replies)
        _, status, used = os.wait4(process.pid, 0)
        end = time.monotonic()
    process.returncode = os.waitstatus_to_exitcode(status)
    if process.returncode != 0:
        sys.exit(f"{words[0]} ended with status {process.returncode}")
    return end - start, used.ru_maxrss


def mebibytes(peak):
    """A program's memory is counted from that of this one, which starts it, so less than that isn't seen."""
    own = resource.getrusage(resource.RUSAGE_SELF).ru_maxrss
    return f"{peak / 1024:.0f} MiB" if peak > own else f"under {own / 1024:.0f} MiB"


def main(*rest):
    anew = rest[1] if rest[0] == "--anew" else None
    room, rounds, given, *rest = rest[2:] if anew else rest
    split = [list(group) for is_mark, group in itertools.groupby(rest, lambda word: word == ";") if not is_mark]
    programs = {words[0].lstrip("+"): words[1:] for words in split}
    same = [words[0][1:] for words in split if words[0].startswith("+")]
    first = next(iter(programs))
    out = {name: f"{room}/{number}.out" for number, name in enumerate(programs)}
    runs = {name: [] for name in programs}
    for _ in range(int(rounds)):
        for number, (name, words) in enumerate(programs.items()):
            runs[name].append(measured(words, given, out[name]))
            if anew:
                made = f"{room}/{number}.made"
                shutil.rmtree(made, ignore_errors=True)
                os.replace(anew, made)
    for name in same:
        if not filecmp.cmp(out[first], out[name], shallow=False):
            sys.exit(f"the outputs of {first} and of {name} differ")
    least = {name: min(them)[0] for name, them in runs.items()}
    print(f"least of {rounds} rounds")
    for name in list(programs)[1:]:
        print(f"{first} / {name:10}{least[first] / least[name]:8.2f}")
    for name, them in runs.items():
        most, peak = max(them)[0], max(peak for _, peak in them)
        print(f"{name + ':':10}{least[name] * 1000:9.1f} ms least, {most * 1000:9.1f} ms most, {mebibytes(peak)}")


main(*sys.argv[1:])
