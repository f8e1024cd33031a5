#!/bin/sh
# Runs `sync hub t1:10` and a plain program on one input, and prints how they compare.
# Build the program first, by `rt run` in crates/sync_cli.
set -eu
bench="$(cd "$(dirname "$0")" && pwd)"
. "$bench/common.sh"
sync="${1:-$bench/../crates/sync_cli/out/sync_cli}"
work="$(mktemp -d)"
trap 'rm -rf "$work"' EXIT
rustc -O --edition 2021 -o "$work/hub_plain" "$bench/hub_plain.rs"
print_machine
python3 "$bench/measure.py" input "$work/input"
python3 "$bench/measure.py" compare "$work/hub_plain" "$sync" "$work/input"
