#!/usr/bin/env python3
"""Runs the gate's proofs, edits and tests, and prints the minutes of each crate: bench/gate.py [WORD ..]

The words are those of rt ci, where the kit's takes some. One that keeps what it proved does all from nothing with
--anew; one that takes no words always does. From nothing, on a machine that does nothing else, is what to measure. It
ends with the status of rt ci. With the word --beside it runs nothing, and looks at the rt ci that the script which
started it runs, as .ci/run does.

Twice a second it looks at the provers that run. The processor time of each is what it had at the last look, so it is
short by half a second at most. The copies that a prover makes of itself are processes of their own, and each counts by
its own time; so does all else that a prover starts, for the prover's crate and part. The proof of a crate's must-fail
edits is theirs, and so is the proof of the crate that they begin with. The column wall has the minutes, by the clock,
during which at least one prover worked on the crate.

The last lines have all that ran, as the system counted it at the last look, the time from beginning to end, the
processors and the kit. The system leaves out what was killed before its parent had waited for it. So where rt ci is
stopped, as by Ctrl-C, the sum of the table can be above it.
"""

import os
import signal
import subprocess
import sys
import time

PARTS = ("proof", "tests", "edits")
TICKS = os.sysconf("SC_CLK_TCK")
SECONDS = 0.5


def content(path):
    """The bytes of a file of /proc, and none where its process has ended."""
    try:
        with open(path, "rb") as file:
            return file.read()
    except OSError:
        return b""


def started_by():
    """The processes, each as its number and when it began, since numbers come again, the seconds of processor time of
    each and whether it still runs, by the number of the process that started them."""
    found = {}
    for pid in filter(str.isdigit, os.listdir("/proc")):
        # Behind the name, which is in brackets: the state, who started it, and so on; its times are fields 14 and 15,
        # and when it began is field 22.
        fields = content(f"/proc/{pid}/stat").rpartition(b")")[2].split()
        if fields:
            seconds = (int(fields[11]) + int(fields[12])) / TICKS
            found.setdefault(int(fields[1]), []).append(((int(pid), int(fields[19])), seconds, fields[0] != b"Z"))
    return found


def work_of(pid):
    """The crate and the part that a prover works on, or nothing where the process isn't one."""
    words = content(f"/proc/{pid}/cmdline").decode(errors="replace").split("\0")
    if os.path.basename(words[0]) != "rattle" or "--crate-name" not in words:
        return None
    try:
        room = os.path.basename(os.readlink(f"/proc/{pid}/cwd"))
    except OSError:
        return None
    part = "edits" if room.startswith("rt-edit") else "tests" if "--test" in words else "proof"
    return words[words.index("--crate-name") + 1], part


class Minutes:
    """What each prover, and each process that one has started, has worked on and for how long, and for how long each
    crate was worked on."""

    def __init__(self):
        self.works, self.seconds, self.wall = {}, {}, {}
        self.last = time.monotonic()

    def look(self, pid, found, work=None):
        """Takes the times of all that a process has started, whose own work is given, and returns the crates that these
        work on now."""
        crates = set()
        for child, seconds, runs in found.get(pid, ()):
            of_child = self.works.get(child) or work_of(child[0]) or work
            if of_child:
                self.works[child], self.seconds[child] = of_child, seconds
                crates |= {of_child[0]} if runs else set()
            crates |= self.look(child[0], found, of_child)
        return crates

    def look_at(self, pid):
        """Looks at all that a process has started, half a second after the last look."""
        time.sleep(SECONDS)
        crates, now = self.look(pid, started_by()), time.monotonic()
        for crate in crates:
            self.wall[crate] = self.wall.get(crate, 0.0) + (now - self.last) / 60
        self.last = now

    def rows(self):
        """The minutes of each crate by parts, the dearest crate first."""
        rows = {}
        for child, (crate, part) in self.works.items():
            rows.setdefault(crate, dict.fromkeys(PARTS, 0.0))[part] += self.seconds[child] / 60
        return sorted(rows.items(), key=lambda row: -sum(row[1].values()))


def shown(name, minutes):
    """A row of the table, without its last column."""
    return f"{name:20}" + "".join(f"{minutes[part]:8.1f}" for part in PARTS) + f"{sum(minutes.values()):8.1f}"


def gate_of(script):
    """The number of the rt ci that a script runs, which has a minute to start it, or nothing."""
    for _ in range(120):
        for (child, _), _, _ in started_by().get(script, ()):
            words = content(f"/proc/{child}/cmdline").split(b"\0")
            if b"ci" in words and b"rt" in map(os.path.basename, words):
                return child
        time.sleep(SECONDS)
    return None


def used_by(pid):
    """The seconds of processor time of a process that runs and of all that it has waited for, or nothing where it has
    ended."""
    fields = content(f"/proc/{pid}/stat").rpartition(b")")[2].split()
    return sum(map(int, fields[11:15])) / TICKS if fields and fields[0] != b"Z" else None


def main(*words):
    kit = subprocess.run(["rt", "version"], stdout=subprocess.PIPE, text=True, check=False).stdout.strip()
    start, minutes, used = time.monotonic(), Minutes(), 0.0
    gate = None if words == ("--beside",) else subprocess.Popen(["rt", "ci", *words])
    pid = gate.pid if gate else gate_of(os.getppid())
    # Ctrl-C ends rt ci, and what it had done is still told.
    signal.signal(signal.SIGINT, signal.SIG_IGN)
    while pid and (seconds := used_by(pid)) is not None:
        used = seconds
        minutes.look_at(pid)
    rows = minutes.rows()
    lines = [f"{'processor minutes':20}" + "".join(f"{part:>8}" for part in PARTS) + f"{'all':>8}{'wall':>8}"]
    lines += [shown(crate, parts) + f"{minutes.wall.get(crate, 0.0):8.1f}" for crate, parts in rows]
    lines += [shown("all", {part: sum(parts[part] for _, parts in rows) for part in PARTS})]
    lines += [f"processor minutes by the system: {used / 60:.1f}"]
    lines += [f"minutes from beginning to end: {(time.monotonic() - start) / 60:.1f}"]
    lines += [f"on {len(os.sched_getaffinity(0))} processors, by {kit}"]
    print("\n".join(lines), flush=True)
    return gate.wait() if gate else 0


if __name__ == "__main__":
    sys.exit(main(*sys.argv[1:]))
