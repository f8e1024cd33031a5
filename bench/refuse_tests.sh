#!/bin/sh
# Refuses a test each of its allocations in turn, one in a run of its own: `refused_memory_leaves_everything` of the store commits three
# times to the one in memory, that of widening makes a catalog, that of `apply` applies a changeset, that of the rebaser rebases one, that
# of pending changes edits rows, that of padding gives a table more columns, that of pulls takes an entry and an answer, that of replicas
# opens one, edits it, pushes and is told, that of a hub's log opens it, appends to it and tells it, that of the log that threads share
# makes one, offers and sees, that of nodes makes two, edits, pushes and pulls, that of books asks two a push and a pull, that of worlds
# makes one and lets things happen in it, and that of scripts plays one. Where that is refused, the test looks whether everything is as it
# was, and makes the same call again. Each run has to pass.
# Usage: bench/refuse_tests.sh store|widening|apply|rebaser|pending|padding|pulling|replica|log_store|spine|nodes|books|world|script [built]
# With `built` the program of its tests is there, as `rt test` leaves it (crates/cs_stores_tests/out/cs_stores_tests_tests and so on);
# else it is proved and built.
set -eu
bench="$(cd "$(dirname "$0")" && pwd)"
tested="$1"
built="${2:-}"
. "$bench/common.sh"
# So many allocations at least: the store's test makes batches of 260 rows and a commit copies each key, that of widening makes two
# catalogs of three tables, that of `apply` four changes, and the rebaser's reads and rebases three.
case "$tested" in
    store) crate=cs_stores_tests; module=store; least=400 ;;
    pending) crate=cs_stores_tests; module=pending; least=30 ;;
    padding) crate=cs_stores_tests; module=padding; least=40 ;;
    widening) crate=cs_changes_tests; module=widening; least=12 ;;
    apply) crate=cs_operations_tests; module=apply; least=30 ;;
    rebaser) crate=cs_operations_tests; module=rebaser; least=30 ;;
    replica) crate=cs_replica_tests; module=memory; least=100 ;;
    pulling) crate=cs_replica_tests; module=pulling::failing; least=200 ;;
    log_store) crate=cs_world_tests; module=log::memory; least=100 ;;
    world) crate=cs_world_tests; module=world::memory; least=300 ;;
    script) crate=cs_world_tests; module=script::memory; least=200 ;;
    spine) crate=cs_spine_tests; module=memory; least=40 ;;
    books) crate=cs_spine_tests; module=books_memory; least=50 ;;
    nodes) crate=cs_nodes_tests; module=memory; least=100 ;;
    *) echo "no such test of $tested" >&2; exit 1 ;;
esac
command -v cc > /dev/null || { echo "no allocation refused: there is no C compiler here"; exit 0; }
mkdir -p "$out"
if [ "$built" != built ]; then
    (cd "$bench/../crates/$crate" && rt test > "$out/refused_tests.log" 2>&1) || {
        echo "the tests aren't built: see $out/refused_tests.log" >&2
        exit 1
    }
fi
tests="$bench/../crates/$crate/out/${crate}_tests"
cc -O2 -Wall -Wextra -shared -fPIC "$bench/refuse_memory.c" -o "$out/refuse_memory.so" -ldl
number=1
while true; do
    status=0
    # `env` stands behind `timeout`, whose own allocations would be counted and refused too.
    timeout 20 env REFUSE=$number LD_PRELOAD="$out/refuse_memory.so" "$tests" \
        "$module::refused_memory_leaves_everything" > "$out/answers" 2> "$out/errors" 9> "$out/reached" || status=$?
    [ ! -s "$out/reached" ] || break
    [ "$status" -eq 0 ] || { echo "allocation $number: status $status, $(cat "$out/answers" "$out/errors")" >&2; exit 1; }
    number=$((number + 1))
done
[ "$number" -gt "$least" ] || { echo "the tests don't take their memory from the C library" >&2; exit 1; }
echo "allocations refused in turn: $((number - 1)); each left everything as it was, and the same call then succeeded"
