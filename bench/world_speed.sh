#!/bin/sh
# Times long worlds by the built program `sync world`: 10 replicas, 1,000 rows, and as many events as are asked for, beside a tenth of them. It
# prints how many events a second, and how much longer each event of the long run took than one of the short, which is to be about 1.
# Usage: bench/world_speed.sh PROGRAM [EVENTS]
set -eu
bench="$(cd "$(dirname "$0")" && pwd)"
program="${1:?usage: bench/world_speed.sh PROGRAM [EVENTS]}"
. "$bench/common.sh"
mkdir -p "$out"
exec python3 "$bench/world_speed.py" "$program" "${2:-1000000}" "$out/world_speed"
