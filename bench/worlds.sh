#!/bin/sh
# Plays drawn worlds by the built program `sync world`: scripts of 200 events with losses, repeats, reordering, restarts, conflicts and all
# wishes, in which tables get columns. Each line has to come to what a model of the hub and the replicas says. A closing part follows, after
# which the hub and each replica have to show the same rows (`worlds.py` says how). The script of a world that fails is kept beside the
# output, to be played again.
# Usage: bench/worlds.sh PROGRAM [WORLDS] [FIRST]
set -eu
bench="$(cd "$(dirname "$0")" && pwd)"
program="${1:?usage: bench/worlds.sh PROGRAM [WORLDS] [FIRST]}"
. "$bench/common.sh"
command -v python3 > /dev/null || { echo "no worlds are drawn: there is no python3 here"; exit 0; }
mkdir -p "$out"
BENCH_KEPT="$out/world" exec python3 "$bench/worlds.py" "$program" "${2:-1000}" "${3:-0}"
