#!/usr/bin/env bash
# Gives the built program bad input: every front of worked changesets and rebase blobs, and each of their bytes changed. A front is accepted
# where it is whole itself, and else refused as Truncated, with its length. Whatever is refused is refused by name, in one line, with
# nothing written and status 1; whatever is accepted is one line. Beside that a blob of another table, of another shape, with a key twice,
# and local changesets with a fault; and requests and entries that give a table columns, each byte changed.
# Usage: bench/check_bad_input.sh PROGRAM
set -u
program="${1:?usage: bench/check_bad_input.sh PROGRAM}"
dir="$(mktemp -d)"
trap 'rm -rf "$dir"' EXIT
failed=0
runs=0
names='Truncated|NotShortest|BadType|Real|NotUtf8|Patchset|BadMark|BadOperation|BadFlag|Columns|NoKeyColumn|UndefinedHere|KeyChanged'
refusal="^sync: (($names) at [0-9]+|Shape|BadCatalog|NullKey|KeyTwice|WrongShape|KeyOrder)\$"

tell() {
    echo "sync $1: $2" >&2
    failed=1
}

# run WORDS LINE..: runs the program on lines of hex. `status`, `written` and `told` are what came.
run() {
    local words="$1"
    shift
    status=0
    written="$(printf '%s\n' "$@" | timeout 20 "$program" $words 2> "$dir/told")" || status=$?
    told="$(cat "$dir/told")"
    runs=$((runs + 1))
}

# Status 0 with one line and nothing told, or 1 with nothing written and one name told.
look() {
    if [ "$status" -eq 0 ]; then
        [ -z "$told" ] && [[ "$written" =~ ^[0-9a-f]*$ ]] || tell "$1" "wrote '$written', told '$told'"
    elif [ "$status" -eq 1 ]; then
        [ -z "$written" ] && [[ "$told" =~ $refusal ]] || tell "$1" "wrote '$written', told '$told'"
    else
        tell "$1" "ended with $status"
    fi
}

# fronts NAME BYTES LENGTHS RUNNER: each front is accepted where its length is one of these, and else Truncated.
fronts() {
    local bytes="$2" whole=" $3 " length
    for ((length = 0; length <= ${#bytes} / 2; length++)); do
        "$4" "${bytes:0:2 * length}"
        look "$1, its front of $length bytes"
        if [[ "$whole" == *" $length "* ]]; then
            [ "$status" -eq 0 ] || tell "$1" "its front of $length bytes is refused: $told"
        else
            [ "$told" = "sync: Truncated at $length" ] || tell "$1" "its front of $length bytes is told as '$told'"
        fi
    done
}

# changed NAME BYTES RUNNER: each byte is changed in several ways.
changed() {
    local bytes="$2" at byte change
    for ((at = 0; at < ${#bytes} / 2; at++)); do
        byte=$((16#${bytes:2 * at:2}))
        for change in 1 2 4 7 16 128 255; do
            "$3" "${bytes:0:2 * at}$(printf '%02x' $((byte ^ change)))${bytes:2 * at + 2}"
            look "$1, byte $at changed by $change"
            [ "$status" -eq 0 ] || printf '%s\n' "$told" >> "$dir/names"
        done
    done
}

as_changeset() { run combine "$1"; }
as_changeset_for_sqlite() { run 'combine --sqlite' "$1"; }
as_blob() { run rebase "$local" "$1"; }
as_blob_for_sqlite() { run 'rebase --sqlite' "$local" "$1"; }

# A table t1 of a key column and another, and a table t2 of a key column and three others.
h1=54020100743100
h2=540401000000743200
k1=010000000000000001
local="${h1}1200${k1}03027631"
update="${h1}1700${k1}030276310003027632"
k2=010000000000000002
blob="${h1}1200${k1}03027632${h2}1201${k1}030262320302633200${h1}0900${k2}03027631"

# The lengths at which a front is whole: behind each header, and behind each change or entry.
fronts 'a changeset' "$update" '0 7 27' as_changeset
fronts 'two changes' "${local}0900${k2}03027632" '0 7 22 37' as_changeset
fronts 'a blob' "$blob" '0 7 22 31 51 58 73' as_blob
changed 'a changeset' "$update" as_changeset
changed 'a changeset for SQLite' "$update" as_changeset_for_sqlite
changed 'a blob' "$blob" as_blob
changed 'a blob for SQLite' "$blob" as_blob_for_sqlite
for name in ${names//|/ }; do
    # One byte alone doesn't make a varint longer than it has to be.
    [ "$name" = NotShortest ] || grep -q "^sync: $name at" "$dir/names" || tell 'changed bytes' "none is told as $name"
done

# refused NAME LINE..: `rebase` refuses these lines so.
refused() {
    local name="$1"
    shift
    run rebase "$@"
    [ "$status" -eq 1 ] && [ -z "$written" ] && [ "$told" = "sync: $name" ] || tell "rebase of $*" "wrote '$written', told '$told'"
}
run rebase "$local" "${h2}1201${k1}030262320302633200"
[ "$status" -eq 0 ] && [ "$written" = "$local" ] || tell 'rebase over a blob of another table' "wrote '$written', told '$told'"
refused 'NotShortest at 19' "$local" "${h1}1200${k1}038002"
refused WrongShape "$local" "54030100007431001200${k1}0000"
refused KeyTwice "$local" "${h1}1200${k1}030276311201${k1}03027632"
refused 'Truncated at 21' "${local%31}" "$blob"
refused KeyTwice "${local}0900${k1}03027631" "$blob"
refused NullKey "${h1}12000503027631" "$blob"
refused Shape "${local}540101743100" "$blob"
refused BadHex "${local}0" "$blob"

# What is asked of a hub, and told to a replica, of a table's columns: each byte of both changed. One line comes back, and the replica's
# file opens again.
line_of() {
    [ "$status" -eq 0 ] && [ -z "$told" ] && [[ "$written" =~ $2 ]] || tell "$1" "ended with $status, printed '$written', told '$told'"
}

asked=040000000000000001000000000000000000000003000000027431
given=1400000000000000000000000101ffffffff000000000000000100000006000000037431
answered='^(11ffffffff[0-9a-f]{16}0000000000000001|13(01|02|06|14|15|28|2e))$'
heard='^(taken [01] version [01]|fault BadEntry after 0|refused (BadTag|Truncated|TooLong|BadKind)|ignored|stale [0-9]+|hub refused [0-9]+)$'
stands='^replica 7 version [01] pending 1 flight 0$'
for change in 1 2 4 7 16 128 255; do
    for ((at = 0; at < ${#given} / 2; at++)); do
        if ((at < ${#asked} / 2)); then
            run 'hub t1:10' "${asked:0:2 * at}$(printf '%02x' $((16#${asked:2 * at:2} ^ change)))${asked:2 * at + 2}"
            line_of "hub, byte $at of a request changed by $change" "$answered"
        fi
        rm -f "$dir/file" "$dir/file-wal" "$dir/file-shm"
        run "node $dir/file 7 t1:10" 'edit insert t1 1 t=v1' "answer ${given:0:2 * at}$(printf '%02x' $((16#${given:2 * at:2} ^ change)))${given:2 * at + 2} -"
        written="${written#ok$'\n'}"
        line_of "node, byte $at of an answer changed by $change" "$heard"
        run "node $dir/file 7 t1:10" dump
        written="${written%%$'\n'*}"
        line_of "node, behind byte $at of an answer changed by $change" "$stands"
    done
done

[ "$failed" -eq 0 ] && echo "bad input: $runs runs, each accepted whole or refused by name with nothing written"
exit "$failed"
