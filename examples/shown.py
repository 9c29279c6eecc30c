#!/usr/bin/env python3
"""Runs what documents show: shown.py DOCUMENT ..

In README.md and the like, a line that begins with four blanks and `$ ` is a command, and lines behind it that begin
with four blanks are what it writes; in a manual page the same stands in its literal blocks without the blanks. The
commands of a block are run by one shell, each once the one before has ended, with `yp` in the path and as ./yp, and
`examples` here; files stay from block to block. What they write has to be what is shown, but for the order of the
lines, since a server beside them may write, too, and but for the orders of versions. A port that is shown stands for a
free one, and a second of sleep for the moment at which a server has it. Commands of `.ci` and `site` aren't run. It
prints what differs, and ends with status 1 where anything does.
"""

import os
import re
import subprocess
import sys

sys.dont_write_bytecode = True
import server

SHOWN_PORT = "7001"
PAUSE = "until grep -q :%04X.00000000:0000.0A /proc/net/tcp; do sleep 0.1; done"
NOT_RUN = re.compile(r"(sudo )?\.?(ci|site)/")


def blocks(path):
    """The lines of each block of a document that has commands."""
    with open(os.path.join(server.TOP, path), encoding="utf-8") as file:
        source = file.read()
    if path.endswith(".md"):
        found = re.findall(r"(?:^ {4}.*\n)+", source, re.MULTILINE)
        found = [re.sub(r"^ {4}", "", block, flags=re.MULTILINE) for block in found]
    else:
        found = re.findall(r"^\.Bd -literal.*\n((?:.*\n)*?)\.Ed$", source, re.MULTILINE)
    return [block.splitlines() for block in found if block.startswith("$ ")]


def alike(lines):
    """The lines in an order of their own, without the orders of versions."""
    return sorted(re.sub(r"\border \d+", "order N", line) for line in lines)


def differs(path, lines):
    """What differs in a block, a line each."""
    commands = [line[2:] for line in lines if line.startswith("$ ")]
    shown = alike(line for line in lines if not line.startswith("$ "))
    if any(NOT_RUN.match(command) for command in commands):
        return []
    port = server.free_port()
    script = "\n".join(commands + ["wait"]).replace("sleep 1", PAUSE % port).replace(SHOWN_PORT, str(port))
    ended = subprocess.run(["bash", "-c", script], stdin=subprocess.DEVNULL, capture_output=True, encoding="utf-8")
    came = alike((ended.stdout + ended.stderr).replace(str(port), SHOWN_PORT).splitlines())
    if came == shown:
        return []
    head = f"{path}: `{commands[0]}` and what follows, as shown (<) and as it came (>)"
    return [head] + [f"< {line}" for line in shown] + [f"> {line}" for line in came]


def main(paths):
    os.symlink(os.path.join(server.TOP, "yp"), "yp")
    os.symlink(os.path.join(server.TOP, "examples"), "examples")
    found = [line for path in paths for block in blocks(path) for line in differs(path, block)]
    print("\n".join(found), end="\n" * bool(found))
    sys.exit(bool(found))


if len(sys.argv) < 2:
    sys.exit(__doc__)
main(sys.argv[1:])
