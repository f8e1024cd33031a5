#!/usr/bin/env python3
"""Tells what each piece of a run of the gate takes of a processor: bench/gate_times.py [FILE]

Run it beside `rt ci`, before or while that runs. Each second it looks at the toolchain's processes and those that they started, and adds
what each has used to its piece: a crate's proof (with its library's or program's build), its tests, or its must-fail edits. When there
have been none for a minute, it prints the seconds of each piece, the dearest first, and the sums. With FILE it also writes them there
every half minute, so that a run may be looked at, or cut off, in between. What ends within a second is missed.
"""
import collections
import os
import re
import sys
import time

TICKS = os.sysconf("SC_CLK_TCK")


def read(path):
    try:
        with open(path, "rb") as it:
            return it.read()
    except OSError:
        return b""


def processes():
    """Each process by its number: its parent, when it began, the seconds that it used, and its words."""
    found = {}
    for name in os.listdir("/proc"):
        if not name.isdigit():
            continue
        stat = read(f"/proc/{name}/stat").decode(errors="replace").rpartition(") ")[2].split()
        if len(stat) < 20:
            continue
        words = read(f"/proc/{name}/cmdline").decode(errors="replace").split("\0")
        found[int(name)] = int(stat[1]), stat[19], (int(stat[11]) + int(stat[12])) / TICKS, words
    return found


def piece(number, words):
    """The crate and the kind of what these words do, if they are the toolchain's."""
    if os.path.basename(words[0]) != "rattle" or "--crate-name" not in words:
        return None
    crate = words[words.index("--crate-name") + 1]
    try:
        at = os.readlink(f"/proc/{number}/cwd")
    except OSError:
        at = ""
    if re.match(r".*/rt-edit", at):
        return crate, "edits"
    return crate, "tests" if "--test" in words or crate.endswith("_tests") else "proof"


def piece_of(number, all_of):
    """The same of a process or of the nearest one that it was started by, where all that was started by the gate."""
    found = None
    while number in all_of:
        words = all_of[number][3]
        found = found or piece(number, words)
        if found and "ci" in words and any(os.path.basename(it) == "rt" for it in words):
            return found
        number = all_of[number][0]
    return None


def table(used):
    sums = collections.Counter()
    for (_, _, of), seconds in used.items():
        sums[of] += seconds
    kinds = collections.Counter()
    for (_, kind), seconds in sums.items():
        kinds[kind] += seconds
    lines = [f"{seconds:6.0f} {crate} {kind}" for (crate, kind), seconds in sums.most_common()]
    lines += [f"{seconds:6.0f} all {kind}" for kind, seconds in kinds.most_common()]
    return "\n".join([*lines, f"{sum(kinds.values()):6.0f} all"]) + "\n"


def main():
    used, known, quiet, turns = {}, {}, 0, 0
    while not used or quiet < 60:
        all_of = processes()
        quiet += 1
        for number, (_, began, seconds, _) in all_of.items():
            of = known.get((number, began)) or piece_of(number, all_of)
            if of:
                known[number, began] = of
                used[number, began, of] = seconds
                quiet = 0
        turns += 1
        if len(sys.argv) > 1 and turns % 30 == 0:
            with open(sys.argv[1], "w") as it:
                it.write(table(used))
        time.sleep(1)
    print(table(used), end="")


if __name__ == "__main__":
    main()
