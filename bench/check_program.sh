#!/bin/sh
# Runs the built program `sync` as a person would, and compares each run's status, output and errors with what they
# have to be: help, a hub, `combine`, `rebase`, `show`, refused inputs, refused command lines, a refused table word, a failed write,
# and a hub on pipes that has to answer each line before the next one comes.
# Usage: bench/check_program.sh PROGRAM
set -u
program="${1:?usage: bench/check_program.sh PROGRAM}"
. "$(dirname "$0")/running.sh"

insert=54020100743100120001000000000000000103027631
update=540201007431001700010000000000000001030276310003027632
combined=54020100743100120001000000000000000103027632
deleted=54020100743100090001000000000000000103027631
rebased=540201007431001700010000000000000001030276320003027631
# A row of a table whose second column comes first in its key, as SQLite writes it, in normal form, and of a key in the other order.
turned=540202017431001200010000000000000001010000000000000002
straight=540201017431001200010000000000000001010000000000000002
other_order=54020102743100
pushed=0100000007000000000000000100000000000000000000001654020100743100120001000000000000000103027631
accepted=110000000700000000000000010000000000000001

# 0: all was done.
expect 0 '' '' '' hub t1:10
expect 0 "$pushed\n$pushed\n\nzz\n" "$accepted\n$accepted\n1302\n1316\n" '' hub t1:10
expect 0 "$insert\n$update\n" "$combined\n" '' combine
expect 0 '' '\n' '' combine
expect 0 "$insert\nzz\n" 'table t1 10\ninsert 0 1 t=v1\n' '' show changeset
expect 0 '' '' '' show changeset
expect 0 "$deleted\nzz\n" 'table t1 10\ndelete omit 1 t=v1\n' '' show blob
expect 0 "$insert\n$combined\nzz\n" "$rebased\n" '' rebase
expect 0 "$insert\n" "$insert\n" '' rebase
expect 0 "$turned\n" "$straight\n" '' combine
expect 0 "$turned\n" "$turned\n" '' combine --sqlite
expect 0 "$turned\n" "$turned\n" '' rebase --sqlite

# 0, with help: the usage line, and a line for each command.
for words in --help help; do
    ended=0
    timeout 20 "$program" $words < /dev/null > "$dir/output" 2> "$dir/errors" || ended=$?
    runs=$((runs + 1))
    [ "$ended" -eq 0 ] || tell "ended with $ended in place of 0" $words
    [ -s "$dir/errors" ] && tell 'told something' $words
    for line in '^Usage: sync' '^  hub  *[A-Z]' '^  show  *[A-Z]' '^  combine  *[A-Z]' '^  rebase  *[A-Z]'; do
        grep -q "$line" "$dir/output" || tell "has no line $line" $words
    done
done

# 1: the input was refused, and nothing was written.
expect 1 'zz\n' '' 'sync: BadHex\n' combine
expect 1 "$insert\n54\n" '' 'sync: Truncated at 1\n' combine
expect 1 '5402010074310012000503027631\n' '' 'sync: NullKey\n' combine
expect 1 '50\n' '' 'sync: Patchset at 0\n' show changeset
expect 1 "$update\n" '' 'sync: BadOperation at 7\n' show blob
expect 1 "$insert\n5403010000743100\n" '' 'sync: WrongShape\n' rebase
expect 1 "$turned\n$other_order\n" '' 'sync: KeyOrder\n' combine --sqlite
expect 1 "$turned\n$other_order\n" '' 'sync: KeyOrder\n' rebase --sqlite

# 2: the command line was refused, and nothing was read or written.
expect 2 "$pushed\n" '' 'sync: command line\n'
expect 2 "$pushed\n" '' 'sync: command line\n' frob
expect 2 "$pushed\n" '' 'sync: command line\n' "$(printf '\377')"
expect 2 "$pushed\n" '' 'sync: command line\n' hub --frob
expect 2 "$insert\n" '' 'sync: command line\n' combine t1:10
expect 2 "$insert\n" '' 'sync: command line\n' show
expect 2 "$insert\n" '' 'sync: command line\n' show --sqlite changeset
expect 2 "$insert\n" '' 'sync: command line\n' show nothing
expect 2 "$pushed\n" '' 'sync: table t2:00\n' hub t1:10 t2:00 t3:00

# A failed write is status 1.
if [ -w /dev/full ]; then
    ended=0
    printf '\n' | timeout 20 "$program" hub t1:10 > /dev/full 2> "$dir/errors" || ended=$?
    runs=$((runs + 1))
    [ "$ended" -eq 1 ] || tell "ended with $ended on a full device" hub t1:10
    [ "$(cat "$dir/errors")" = 'sync: Write' ] || tell "told $(cat "$dir/errors") on a full device" hub t1:10
fi

# On pipes each line is answered before the next one is written.
mkfifo "$dir/requests" "$dir/answers"
timeout 20 "$program" hub t1:10 < "$dir/requests" > "$dir/answers" &
hub=$!
exec 3> "$dir/requests" 4< "$dir/answers"
for turn in 1 2; do
    echo "$pushed" >&3
    read -r answer <&4 || answer=nothing
    [ "$answer" = "$accepted" ] || tell "answered $answer on pipes" hub t1:10
done
exec 3>&- 4<&-
wait "$hub" || tell "ended with $? on pipes" hub t1:10
runs=$((runs + 1))

[ "$failed" -eq 0 ] || exit 1
echo "the program: $runs runs, each with its status, output and errors"
