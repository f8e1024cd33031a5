#!/bin/sh
# Runs one of the scripts that time (combine.sh, changesets.sh, apply.sh, rebase.sh) with a C library (glibc) that keeps whatever is given back to
# it, on both sides, as a process that goes on working may tell it to. Without this, what a call costs goes with what ran in the process before it:
# once the free end of the heap is long enough, glibc gives it back to the system, and the next call pays for fresh pages.
# Usage: bench/kept.sh SCRIPT [ITS WORDS]
set -eu
script="$1"
shift
# No list gets a mapping of its own, and the heap's end stays.
exec env MALLOC_MMAP_MAX_=0 MALLOC_TRIM_THRESHOLD_=1000000000000 "$(dirname "$0")/$script" "$@"
