#!/bin/sh
# Refuses the program `sync` each of its allocations in turn, in a session of its own a refusal. A hub's run ends with
# `sync: Memory`, or one line is answered `1301` and every other line as in a session without that line, or the program
# did without that memory and every line has its answer. A run of `combine` or `show` ends with `sync: Memory` and
# nothing written, or the program did without.
# Usage: bench/refuse_memory.sh SYNC [INPUT]
# SYNC is the proved program (crates/sync_cli/out/sync_cli), which has to take its memory from the C library. INPUT holds
# requests, one a line; the stored run's, each sent twice, where none is given.
set -eu
bench="$(cd "$(dirname "$0")" && pwd)"
sync="$1"
. "$bench/common.sh"
command -v cc > /dev/null || { echo "no allocation refused: there is no C compiler here"; exit 0; }
mkdir -p "$out"
cc -O2 -Wall -Wextra -shared -fPIC "$bench/refuse_memory.c" -o "$out/refuse_memory.so" -ldl

# Runs the program with an input and words, and with the allocation of this number refused; false where it makes no such
# allocation. `status`, `answers` and `errors` are those of the run.
run_refused() {
    local refused="$1" input="$2"
    shift 2
    status=0
    # Behind `timeout`, whose own allocations are not to be counted.
    timeout 20 env REFUSE="$refused" LD_PRELOAD="$out/refuse_memory.so" "$sync" "$@" < "$input" \
        > "$out/answers" 2> "$out/errors" 9> "$out/reached" || status=$?
    [ ! -s "$out/reached" ]
}

# Refuses a tool each of its allocations on an input.
refuse_tool() {
    local input="$1" number=1 ended=0 spared=0
    shift
    "$sync" "$@" < "$input" > "$out/answers_whole"
    while run_refused "$number" "$input" "$@"; do
        if [ "$status" -eq 0 ] && cmp -s "$out/answers" "$out/answers_whole"; then
            spared=$((spared + 1))
        elif [ "$status" -eq 1 ] && [ "$(cat "$out/errors")" = "sync: Memory" ] && [ ! -s "$out/answers" ]; then
            ended=$((ended + 1))
        else
            echo "$*, allocation $number: status $status, $(cat "$out/errors")" >&2
            return 1
        fi
        number=$((number + 1))
    done
    [ "$ended" -gt 0 ] || { echo "no run of $* ended for want of memory" >&2; return 1; }
    echo "$*: allocations refused in turn: $((number - 1)); runs ended with Memory: $ended; done without: $spared"
}

# Refuses a hub of t1 each of its allocations on requests, one a line.
refuse_hub() {
    local requests="$1" number=0 ended=0 answered=0 spared=0 wanted line
    "$sync" hub t1:10 < "$requests" > "$out/answers_whole"
    wanted="$(wc -l < "$requests")"
    while true; do
        number=$((number + 1))
        run_refused "$number" "$requests" hub t1:10 || break

        if [ "$status" -eq 1 ] && [ "$(cat "$out/errors")" = "sync: Memory" ]; then
            [ ! -s "$out/answers" ] || { echo "allocation $number: answers before the run gave up" >&2; exit 1; }
            ended=$((ended + 1))
            continue
        fi
        if [ "$status" -eq 0 ] && cmp -s "$out/answers" "$out/answers_whole"; then
            spared=$((spared + 1))
            [ "$spared" -lt 20 ] || { echo "the program doesn't take its memory from the C library" >&2; exit 1; }
            continue
        fi
        [ "$status" -eq 0 ] && [ "$(grep -c '^1301$' "$out/answers")" -eq 1 ] \
            && [ "$(wc -l < "$out/answers")" -eq "$wanted" ] || {
            echo "allocation $number: status $status, $(cat "$out/errors")" >&2
            exit 1
        }
        line="$(grep -n '^1301$' "$out/answers" | cut -d: -f1)"
        sed "${line}d" "$out/answers" > "$out/answers_left"
        sed "${line}d" "$requests" | "$sync" hub t1:10 > "$out/answers_without"
        cmp "$out/answers_left" "$out/answers_without" || {
            echo "allocation $number: line $line was refused and left something behind" >&2
            exit 1
        }
        answered=$((answered + 1))
    done
    [ "$answered" -gt 0 ] || { echo "no line was refused for want of memory" >&2; exit 1; }
    echo "allocations refused in turn: $((number - 1)); runs ended with Memory: $ended; lines answered 1301: $answered; done without: $spared"
}

if [ $# -gt 1 ]; then
    refuse_hub "$2"
else
    sed p "$crate/../sync_cli/stdin" > "$out/requests"
    refuse_hub "$out/requests"

    # A row, two columns one after the other, each asked for twice, a push by the columns of before and again, one by the new ones, and the
    # DELETE that tells the row. What the entries do together ends before the first column, and that is told by itself.
    inserts=0100000007000000000000000100000000000000000000001654020100743100120001000000000000000103027631
    asks=040000000000000001000000000000000100000003000000027431
    wide=54050100000000743100
    printf '%s\n' $inserts $asks $asks 040000000000000002000000000000000200000005000000027431 $inserts \
        0100000007000000000000000200000000000000030000001c${wide}120001000000000000000203027631050505 \
        0100000007000000000000000300000000000000040000001c${wide}090001000000000000000103027631050505 \
        040000000000000003000000000000000500000004000000027431 0200000000000000000000000a \
        030000000900000000000000000000000a 030000000900000000000000010000000a > "$out/wider"
    refuse_hub "$out/wider"
fi

# An INSERT, an UPDATE of its row, a DELETE of another and a second table.
printf '%s\n' 54020100743100120001000000000000000103027631 \
    540201007431001700010000000000000001030276310003027632 \
    54020100743100090001000000000000000203027631540101743200120001000000000000000a > "$out/changesets"
refuse_tool "$out/changesets" combine
refuse_tool "$out/changesets" combine --sqlite
refuse_tool "$out/changesets" show changeset

# An INSERT, and the rebase blob of another INSERT of that row.
printf '%s\n' 54020100743100120001000000000000000103027631 54020100743100120001000000000000000103027632 > "$out/rebased_lines"
refuse_tool "$out/rebased_lines" rebase
refuse_tool "$out/rebased_lines" rebase --sqlite

# The same blob, shown.
sed -n 2p "$out/rebased_lines" > "$out/blobs"
refuse_tool "$out/blobs" show blob
