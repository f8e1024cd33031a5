#!/bin/sh
# Runs the built program `sync exchange` on what a person types: a hub's file and replicas' files, with edits, clashes that stop, are kept
# and are taken, pushes under way and lost answers, a hub put back to an old copy, more entries than are asked for at once, a table that
# gets a column, files that are another's or aren't opened, a full device, and flags. Each run's status, output and errors are compared with
# what they have to be, and in the end the rows.
# Usage: bench/check_exchange.sh PROGRAM
set -u
program="$(readlink -f "${1:?usage: bench/check_exchange.sh PROGRAM}")"
. "$(dirname "$0")/running.sh"
cd "$dir" || exit 1

# edits ID LINE..: the replica with this id in the file of its number works these lines, each of which is `ok`.
edits() {
    id=$1
    shift
    expect 0 "$(printf '%s\\n' "$@")" "$(printf 'ok\\n%.0s' "$@")" '' node "r$id" "$id" t1:10
}

# place ID VERSION PENDING FLIGHT: the line of where a replica stands.
place() {
    printf 'replica %s version %s pending %s flight %s\\n' "$@"
}

# meets ID FLAG OUTPUT: it meets the hub and is at rest behind that, at its version in the end.
meets() {
    expect 0 '' "$3" '' exchange ${2:+"$2"} hub "r$1" "$1" t1:10
}

# stays ID FLAG OUTPUT: it meets the hub and isn't at rest.
stays() {
    expect 1 '' "$3" 'sync: not at rest\n' exchange ${2:+"$2"} hub "r$1" "$1" t1:10
}

# Nothing anywhere: both files are made.
meets 1 '' "$(place 1 0 0 0)"
[ -f hub ] && [ -f r1 ] || tell 'made no files' exchange

# Two replicas insert a row with one key. The second stops there, and nothing is done; then it keeps its own, and the first takes that.
edits 1 'edit insert t1 1 t=a' 'edit insert t1 2 t=b'
meets 1 '' "accepted 1\\n$(place 1 1 0 0)"
meets 1 '' "$(place 1 1 0 0)"
edits 2 'edit insert t1 2 t=c' 'edit insert t1 3 t=d'
clash='stopped 0 version 0 clash conflict t1 insert 0 2 t=b row 2 t=c own insert 0 2 t=c lawful kt\n'
stays 2 '' "$clash$(place 2 0 2 0)"
stays 2 --stop "$clash$(place 2 0 2 0)"
meets 2 --keep "taken 1 version 1\\naccepted 2\\n$(place 2 2 0 0)"
meets 1 '' "taken 1 version 2\\n$(place 1 2 0 0)"

# Of updates of one value the other's is taken, and nothing is left to push.
edits 1 'edit update t1 1 t=x'
meets 1 '' "accepted 3\\n$(place 1 3 0 0)"
edits 2 'edit update t1 1 t=y'
stays 2 '' "stopped 0 version 2 clash data t1 update 0 1 t=a > - t=x row 1 t=y own update 0 1 t=a > - t=y lawful kt\\n$(place 2 2 1 0)"
meets 2 --take "taken 1 version 3\\n$(place 2 3 0 0)"

# Each of several clashes of one answer has the same wish, also where one is another's alone, or lawful in one way alone.
edits 1 'edit update t1 1 t=1' 'edit update t1 2 t=2' 'edit delete t1 3' 'edit insert t1 4 t=4'
edits 2 'edit update t1 1 t=i' 'edit update t1 2 t=j' 'edit update t1 3 t=k'
meets 1 '' "accepted 4\\n$(place 1 4 0 0)"
meets 2 --keep "taken 1 version 4\\naccepted 5\\n$(place 2 5 0 0)"
meets 1 --take "taken 1 version 5\\n$(place 1 5 0 0)"
rows='row t1 1 t=i\nrow t1 2 t=j\nrow t1 3 t=k\nrow t1 4 t=4\n'
expect 0 'dump\n' "$(place 1 5 0 0)$rows" '' node r1 1 t1:10
expect 0 'dump\n' "$(place 2 5 0 0)$rows" '' node r2 2 t1:10

# A push that is under way is asked again. One whose answer was lost is found in the log, and counts once, also with edits behind it.
printf 'edit insert t1 5 null\npush\n' | "$program" node r1 1 t1:10 > told
meets 1 '' "accepted 6\\n$(place 1 6 0 0)"
printf 'edit insert t1 6 null\npush\nedit insert t1 7 null\n' | "$program" node r1 1 t1:10 | grep '^01' > request
"$program" hub --file hub t1:10 < request > lost
grep -q '^1100000001' lost || tell 'took no push' hub --file
cp hub old
[ -e hub-wal ] && cp hub-wal old-wal
meets 1 '' "taken 1 version 7\\naccepted 8\\n$(place 1 8 0 0)"
meets 2 '' "taken 3 version 8\\n$(place 2 8 0 0)"

# A hub that was put back to an old copy has less than the replica took.
expect 1 '' "hub refused 40\\n$(place 1 8 0 0)" 'sync: not at rest\n' exchange old r1 1 t1:10

# More entries than are asked for at once.
i=0
while [ "$i" -lt 1100 ]; do
    printf '0100000009%016x%016x0000001354020100743100120001%016x05\n' "$((i + 1))" "$i" "$i"
    i=$((i + 1))
done > pushes
"$program" hub --file long t1:10 < pushes > told
expect 0 '' "taken 1000 version 1000\\ntaken 100 version 1100\\n$(place 3 1100 0 0)" '' exchange long r3 3 t1:10

# Another's files, files that can't be opened, and one that is open already.
expect 1 '' '' 'sync: hub Mismatch\n' exchange r1 r2 2 t1:10
expect 1 '' '' 'sync: Mismatch\n' exchange hub r2 1 t1:10
expect 1 '' '' 'sync: Mismatch\n' exchange hub old 1 t1:10
expect 1 '' '' 'sync: hub Mismatch\n' exchange hub r1 1 t2:10
expect 1 '' '' 'sync: hub Device\n' exchange none/hub r1 1 t1:10
expect 1 '' '' 'sync: Device\n' exchange hub none/r1 1 t1:10
expect 1 '' '' 'sync: Device\n' exchange hub hub 1 t1:10

# Where the output is full, what was done stays done.
edits 2 'edit insert t1 8 null'
ended=0
"$program" exchange hub r2 2 t1:10 > /dev/full 2> errors || ended=$?
runs=$((runs + 1))
[ "$ended" -eq 1 ] && [ "$(cat errors)" = 'sync: Write' ] || tell "ended with $ended, told $(cat errors)" exchange onto a full device
meets 2 '' "$(place 2 9 0 0)"
meets 1 --keep "taken 1 version 9\\n$(place 1 9 0 0)"

# A table gets a column while two replicas have edits of the old ones. They come to it by themselves, ask nobody at it, and push with it; a
# new replica is told what stands before it together, it alone, and what stands behind it together. A second request is one entry, and the
# words of the hub's file stay those it was made by.
edits 1 'edit update t1 1 t=z' 'edit insert t1 9 null'
edits 2 'edit update t1 1 t=w' 'edit delete t1 2'
behind='row t1 5 null null\nrow t1 6 null null\nrow t1 7 null null\nrow t1 8 null null\n'
expect 0 '040000000000000001000000000000000900000003000000027431\n' '11ffffffff0000000000000001000000000000000a\n' '' hub --file hub t1:10
expect 0 '040000000000000001000000000000000900000003000000027431\n' '11ffffffff0000000000000001000000000000000a\n' '' hub --file hub t1:10
meets 1 --stop "taken 1 version 10\\naccepted 11\\n$(place 1 11 0 0)"
clash='stopped 0 version 10 clash data t1 update 0 1 t=i - > - t=z - row 1 t=w null own update 0 1 t=i - > - t=w - lawful kt\n'
stays 2 '' "taken 1 version 10\\n$clash$(place 2 10 2 0)"
expect 0 'dump\n' "$(place 2 10 2 0)row t1 1 t=w null\\nrow t1 3 t=k null\\nrow t1 4 t=4 null\\n$behind" '' node r2 2 t1:10
stays 2 --stop "$clash$(place 2 10 2 0)"
meets 2 --keep "taken 1 version 11\\naccepted 12\\n$(place 2 12 0 0)"
expect 0 'edit update t1 1 t=v\nedit update t1 1 - 5\n' 'refused Width\nok\n' '' node r1 1 t1:10
meets 1 --stop "taken 1 version 12\\naccepted 13\\n$(place 1 13 0 0)"
meets 4 '' "taken 9 version 9\\ntaken 1 version 10\\ntaken 3 version 13\\n$(place 4 13 0 0)"
meets 2 --stop "taken 1 version 13\\n$(place 2 13 0 0)"
rows="row t1 1 t=w 5\\nrow t1 3 t=k null\\nrow t1 4 t=4 null\\n${behind}row t1 9 null null\\n"
for id in 1 2 4; do
    expect 0 'dump\n' "$(place $id 13 0 0)$rows" '' node "r$id" "$id" t1:10
    expect 0 'dump\n' "$(place $id 13 0 0)$rows" '' node "r$id" "$id" t1:100
done
expect 1 '' '' 'sync: hub Mismatch\n' exchange hub r1 1 t1:100
# A file that was made by the wider words can't take what the hub had before. Words of more columns than a file has are another's.
expect 0 '' '' '' node r5 5 t1:100
stays 5 '' "fault BadEntry after 0\\n$(place 5 0 0 0)"
expect 1 '' '' 'sync: Mismatch\n' node r1 1 t1:1000

# Words.
expect 2 '' '' 'sync: command line\n' exchange --keep --take hub r1 1 t1:10
expect 2 '' '' 'sync: command line\n' exchange --keep --stop hub r1 1 t1:10
expect 2 '' '' 'sync: command line\n' exchange hub r1 t1:10
expect 2 '' '' 'sync: command line\n' exchange hub r1 4294967295 t1:10
expect 2 '' '' 'sync: command line\n' exchange --hold hub r1 1 t1:10
expect 2 '' '' 'sync: table t1\n' exchange hub r1 1 t1
expect 0 '' "$(place 1 13 0 0)" '' exchange hub r1 1 t1:10 --keep

if [ "$failed" -eq 0 ]; then
    echo "exchange: $runs runs as they have to be"
fi
exit "$failed"
