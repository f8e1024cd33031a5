#!/bin/sh
# Runs the tests of the clients in Python and C (`clients/`): values, refusals, files, conflicts, lost and late answers, stops in the middle of one, what a hub refuses,
# answers that are none, threads, and HTTP. Those of the client in C have its accesses watched where the compiler can do that.
# Usage: bench/check_clients.sh PROGRAM
set -eu
bench="$(cd "$(dirname "$0")" && pwd)"
program="$(readlink -f "${1:?usage: bench/check_clients.sh PROGRAM}")"
. "$bench/common.sh"
command -v python3 > /dev/null || { echo "no client is run: there is no python3 here"; exit 0; }
mkdir -p "$out"
(cd "$bench/../clients/python" && SYNC="$program" python3 -B -m unittest -v test_replica) > "$out/clients_python.log" 2>&1 || {
    cat "$out/clients_python.log"
    exit 1
}
echo "the client in Python: $(sed -n 's/^Ran \([0-9]*\) tests.*/\1/p' "$out/clients_python.log") tests"
command -v cc > /dev/null || { echo "the client in C isn't run: there is no C compiler here"; exit 0; }
watching='-fsanitize=address,undefined -fno-sanitize-recover=all'
echo 'int main(void) { return 0; }' > "$out/watched.c"
{ cc $watching "$out/watched.c" -o "$out/watched" && "$out/watched"; } 2> "$out/watched.log" || watching=''
cc -std=c11 -O1 -g -Wall -Wextra -Wpedantic -Werror $watching "$bench/../clients/c/replica.c" "$bench/../clients/c/test_replica.c" -o "$out/test_replica"
python3 -B "$bench/check_clients.py" "$program" "$out/test_replica"
echo "the client in C: its tests${watching:+, with its accesses watched}"
