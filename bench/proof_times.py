#!/usr/bin/env python3
"""Tells which functions of a crate take long to prove: bench/proof_times.py CRATE [MINUTES]

A check keeps what it has proved in the crate's out/incremental, one file behind another, so what lies between the times of two files
is what the later one took. Run it after `rt check --jobs 1` or `rt test --jobs 1` from nothing (or with MINUTES, to count the files
of the last ones alone). The seconds are of the clock: beside other work they say which function is dear, and not how dear.
"""
import collections
import os
import re
import sys
import time


def files(folder, begun):
    for at, _, names in os.walk(folder):
        for name in names:
            if not name.endswith(".oantt"):
                continue
            changed = os.stat(os.path.join(at, name)).st_mtime
            if changed >= begun:
                yield changed, name


def told(name):
    """The function that a file is about, and the part of its proof."""
    found = re.match(r"Rattle-[^.]*\.(.*?)(\.decls)?\.oantt$", name)
    parts = (found.group(1) if found else name).split(".")
    part = parts.pop().split("-")[0] if len(parts) > 1 and parts[-1][:1].isupper() else ""
    return ".".join(parts), part


def main():
    if len(sys.argv) < 2:
        sys.exit(__doc__)
    folder = os.path.join(os.path.dirname(os.path.abspath(__file__)), "..", "crates", sys.argv[1], "out", "incremental")
    begun = time.time() - 60 * float(sys.argv[2]) if len(sys.argv) > 2 else 0
    found = sorted(files(folder, begun))
    if not found:
        sys.exit(f"{folder} has no such file: check the crate first")
    functions, parts = collections.Counter(), collections.Counter()
    for (before, _), (after, name) in zip(found, found[1:]):
        function, part = told(name)
        functions[function] += after - before
        parts[part or "else"] += after - before
    print(f"{sum(functions.values()):.0f} seconds in all")
    for counted, many in ((functions, 30), (parts, 5)):
        print()
        for name, seconds in counted.most_common(many):
            print(f"{seconds:7.1f}  {name}")


main()
