#!/bin/sh
# Runs two tills and a hub behind `hub/gateway.py` over sockets of this machine (`check_gateway.py` says how): conflicts, lost answers, what is refused, clients
# that hang up, and the hub and the gateway killed and started again. The files of a run that fails are kept beside the output.
# Usage: bench/check_gateway.sh PROGRAM [STEPS] [SEED]
set -eu
bench="$(cd "$(dirname "$0")" && pwd)"
program="$(readlink -f "${1:?usage: bench/check_gateway.sh PROGRAM [STEPS] [SEED]}")"
. "$bench/common.sh"
command -v python3 > /dev/null || { echo "no gateway is run: there is no python3 here"; exit 0; }
mkdir -p "$out"
BENCH_KEPT="$out/gateway" exec python3 "$bench/check_gateway.py" "$program" "${2:-20}" "${3:-1}"
