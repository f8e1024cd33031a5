#!/usr/bin/env bash
# Runs the built program `sync` on files: `node FILE ID TABLE..` and `hub --file FILE TABLE..`. What they leave is opened in the `sqlite3`
# shell, where that can be had, and compared there; a second run goes on where the first ended, also where a table got columns. Then files
# that are bad or aren't ours: an empty file, a text, a database of others, fronts of a good file, one with a byte changed at each of 400
# drawn places, a directory, a file that can't be read, a device that is full. Each is refused by name, in one line, with nothing printed
# and every byte of it as it was; or opened as what it holds. No run crashes or takes longer than its time.
# Usage: bench/check_files.sh PROGRAM
set -u
bench="$(cd "$(dirname "$0")" && pwd)"
. "$bench/common.sh"
program="$(readlink -f "${1:?usage: bench/check_files.sh PROGRAM}")"
dir="$(mktemp -d)"
trap 'chmod -R u+rwx "$dir"; rm -rf "$dir"' EXIT
chmod 755 "$dir"
failed=0
runs=0
refusal='^sync: (Damaged|Device|Mismatch|Memory)$'

tell() {
    echo "sync $1: $2" >&2
    failed=1
}

# run INPUT WORD..: runs the program on lines. `status`, `written` and `told` are what came.
run() {
    local input="$1"
    shift
    status=0
    written="$(printf "$input" | timeout 20 "$program" "$@" 2> "$dir/told")" || status=$?
    told="$(cat "$dir/told")"
    runs=$((runs + 1))
}

# gives NAME OUTPUT INPUT WORD..: the run ends with 0, and prints this and tells nothing.
gives() {
    local name="$1" output="$2"
    shift 2
    run "$@"
    [ "$status" -eq 0 ] && [ -z "$told" ] || tell "$name" "ended with $status, told '$told'"
    [ "$written" = "$(printf "$output")" ] || tell "$name" "printed '$written'"
}

# refuses NAME TOLD INPUT WORD..: the run ends with 1, prints nothing and tells this.
refuses() {
    local name="$1" line="$2"
    shift 2
    run "$@"
    [ "$status" -eq 1 ] && [ -z "$written" ] && [ "$told" = "$line" ] \
        || tell "$name" "ended with $status, printed '$written', told '$told'"
}

# What a file holds, as one line. A refused run may leave a log beside it (`-wal`, empty or of some bytes without a commit): the file is as
# it was.
sum_of() {
    [ -f "$1" ] && cksum < "$1" || echo none
}

# looks NAME FILE WORD..: on a file that is none of ours, or was damaged, either is refused by name, and then the file is as it was; or it
# is opened, and a second run shows the same.
looks() {
    local name="$1" file="$2" before first
    shift 2
    before="$(sum_of "$file")"
    run "$input" "$@"
    if [ "$status" -eq 1 ]; then
        [ -z "$written" ] && [[ "$told" =~ $refusal ]] || tell "$name" "printed '$written', told '$told'"
        [ "$(sum_of "$file")" = "$before" ] || tell "$name" "was refused, and yet written"
        refused=$((refused + 1))
    elif [ "$status" -eq 0 ]; then
        [ -z "$told" ] || tell "$name" "told '$told'"
        first="$written"
        run "$input" "$@"
        [ "$status" -eq 0 ] && [ "$written" = "$first" ] || tell "$name" "a second run ended with $status and '$written', not '$first'"
    else
        tell "$name" "ended with $status, told '$told'"
    fi
}

# ---- a node, a second run of it, and one with another id or other tables

insert=54020100743100120001000000000000000103027631
push="01000000000000000000000001000000000000000000000016$insert"
node="$dir/node"
gives 'node, first run' "ok\n$push\naccepted 1\n0200000000000000010000000a\nreplica 0 version 1 pending 0 flight 0\nrow t1 1 t=v1\n" \
    'edit insert t1 1 t=v1\npush\nanswer 110000000000000000000000010000000000000001 -\npull 10\ndump\n' node "$node" 0 t1:10
gives 'node, second run' 'replica 0 version 1 pending 0 flight 0\nrow t1 1 t=v1\n' 'dump\n' node "$node" 0 t1:10
refuses 'node of another id' 'sync: Mismatch' 'dump\n' node "$node" 1 t1:10
refuses 'node of other tables' 'sync: Mismatch' 'dump\n' node "$node" 0 t1:11
refuses 'a node as a hub' 'sync: Mismatch' '' hub --file "$node" t1:10
refuses 'a line that cannot be read' 'sync: line 2' 'edit insert t1 9 t=v9\ndumps\n' node "$node" 1 t1:10
gives 'node, after refusals' 'ok\nok\nreplica 0 version 1 pending 2 flight 0\nrow t1 2 t=v2\n' \
    'edit insert t1 2 t=v2\nedit delete t1 1\ndump\n' node "$node" 0 t1:10

# ---- a hub, and a second run that goes on

hub="$dir/hub"
gives 'hub, first run' '110000000000000000000000010000000000000001\n' "$push\n" hub --file "$hub" t1:10
gives 'hub, second run' "110000000000000000000000010000000000000001\n140000000000000000000000010000000000000000000000000100000016$insert\n" \
    "$push\n0200000000000000000000000a\n" hub --file "$hub" t1:10
refuses 'hub of other tables' 'sync: Mismatch' "$push\n" hub --file "$hub" t1:11
refuses 'a hub as a node' 'sync: Mismatch' 'dump\n' node "$hub" 0 t1:10
refuses 'a line that no node reads, before a file that does not open' 'sync: line 1' 'push 1\n' node "$hub" 0 t1:10

# ---- a table that gets a column: the hub goes on by the words that it was made by, and the node by these or wider ones

widen=040000000000000001000000000000000100000003000000027431
wider=01ffffffff000000000000000100000006000000037431
widened=11ffffffff00000000000000010000000000000002
wide=5403010000743100
accepted=110000000000000000000000010000000000000001
wide_insert=${wide}1200010000000000000002030161030162
wide_push=01000000000000000000000002000000000000000200000019$wide_insert

# answer_of COUNT, entry_of NUMBER CHANGESET: the beginning of an answer of so many entries from version 0 on, and an entry of replica 0.
answer_of() {
    printf '140000000000000000%08x' "$1"
}

entry_of() {
    printf '0000000000%016x%08x%s' "$1" "$((${#2} / 2))" "$2"
}

wide_hub="$dir/wide-hub"
gives 'a hub with a column' "$accepted\n$widened\n" "$push\n$widen\n" hub --file "$wide_hub" t1:10
gives 'a hub with a column, second run' "$widened\n$accepted\n131f\n110000000000000000000000020000000000000003\n132e\n" \
    "$widen\n$push\n01000000080000000000000001000000000000000200000016$insert\n$wide_push\n040000000000000002000000000000000300000003000000027431\n" hub --file "$wide_hub" t1:10
for words in t1:100 t1:1000 t1:1 t1:11 t2:10; do
    refuses "a hub with a column by $words" 'sync: Mismatch' "$widen\n" hub --file "$wide_hub" "$words"
done
gives 'a hub with a column, third run' "$(answer_of 3)$(entry_of 1 $insert)$wider$(entry_of 2 $wide_insert)\n" \
    '020000000000000000ffffffff\n' hub --file "$wide_hub" t1:10

wide_node="$dir/wide-node"
gives 'a node with a column' 'ok\nok\ntaken 1 version 1\nrefused Width\nok\nreplica 0 version 1 pending 2 flight 0\nrow t1 1 t=v2 null\nrow t1 2 t=x 5\n' \
    "edit insert t1 1 t=v1\nedit update t1 1 t=v2\nanswer $(answer_of 1)$wider -\nedit insert t1 2 t=x\nedit insert t1 2 t=x 5\ndump\n" node "$wide_node" 0 t1:10
for words in t1:10 t1:100 t1:1; do
    gives "a node with a column by $words" 'replica 0 version 1 pending 2 flight 0\nrow t1 1 t=v2 null\nrow t1 2 t=x 5\n' 'dump\n' node "$wide_node" 0 "$words"
done
for words in t1:1000 t1:11 t1:101 t1:01 t2:10 't1:10 t2:1' 't2:1 t1:10'; do
    refuses "a node with a column by $words" 'sync: Mismatch' 'dump\n' node "$wide_node" 0 $words
done
refuses 'a node with a column, of another id' 'sync: Mismatch' 'dump\n' node "$wide_node" 1 t1:10
refuses 'a node with a column, as a hub' 'sync: Mismatch' '' hub --file "$wide_node" t1:10
refuses 'a hub with a column, as a node' 'sync: Mismatch' 'dump\n' node "$wide_hub" 0 t1:10

# ---- what they left, in the shell

shell=''
if need_shell; then
    shell="$(command -v sqlite3)"
else
    echo "files: the sqlite3 shell can't be had; what was left is not looked at there"
fi

# selects NAME FILE WANTED QUERY: the shell answers this.
selects() {
    local found
    found="$("$shell" -readonly "$2" "$4" 2>&1)"
    [ "$found" = "$3" ] || tell "$1" "the shell answers '$found', not '$3'"
}

key1=010000000000000001
key2=010000000000000002
if [ -n "$shell" ]; then
    for file in "$node" "$hub" "$wide_node" "$wide_hub"; do
        cp "$file" "$dir/copy"
        [ ! -f "$file-wal" ] || cp "$file-wal" "$dir/copy-wal"
        selects "$file" "$dir/copy" ok 'PRAGMA integrity_check'
        rm -f "$dir/copy" "$dir/copy-wal" "$dir/copy-shm"
    done
    selects 'the rows of the node' "$node" "0|$(printf %s $key2 | tr a-f A-F)|${key2}03027632" 'SELECT tab, hex(key), hex(body) FROM rows'
    selects 'the pending changes of the node' "$node" "0|${key1}|1
0|${key2}|1" 'SELECT tab, hex(key), length(body) > 0 FROM pending ORDER BY key'
    selects 'the values of the node' "$node" 'catalog|54020100743100
id|00000000
number|0000000000000001
version|0000000000000001' 'SELECT name, hex(body) FROM meta ORDER BY name'
    selects 'the log of the hub' "$hub" "0|0|1|00$(printf %s $insert | tr a-f A-F)" 'SELECT version, origin, number, hex(body) FROM log'
    selects 'the rows of the hub' "$hub" "0|${key1}|${key1}03027631" 'SELECT tab, hex(key), hex(body) FROM rows'
    selects 'the values of the hub' "$hub" 'catalog|54020100743100' 'SELECT name, hex(body) FROM meta'
    selects 'the rows of the node with a column' "$wide_node" "0|${key1}|${key1}0302763205
0|${key2}|${key2}030178010000000000000005" 'SELECT tab, hex(key), hex(body) FROM rows ORDER BY key'
    selects 'the pending changes of the node with a column' "$wide_node" "0|${key1}|1200${key1}0302763205
0|${key2}|1200${key2}030178010000000000000005" 'SELECT tab, hex(key), hex(body) FROM pending ORDER BY key'
    selects 'the values of the node with a column' "$wide_node" 'catalog|5403010000743100
id|00000000
number|0000000000000000
version|0000000000000001' 'SELECT name, hex(body) FROM meta ORDER BY name'
    selects 'the log of the hub with a column' "$wide_hub" "0|0|1|00$(printf %s $insert | tr a-f A-F)
1|4294967295|1|01000000037431
2|0|2|00${wide}1200${key2}030161030162" 'SELECT version, origin, number, hex(body) FROM log'
    selects 'the rows of the hub with a column' "$wide_hub" "0|${key1}|${key1}0302763105
0|${key2}|${key2}030161030162" 'SELECT tab, hex(key), hex(body) FROM rows ORDER BY key'
    selects 'the values of the hub with a column' "$wide_hub" 'catalog|54020100743100' 'SELECT name, hex(body) FROM meta'
fi

# ---- a larger file of each, to be damaged

script=''
for number in $(seq 1 60); do
    script="${script}edit insert t1 $number t=some%%20text%%20of%%20row%%20$number\n"
done
good="$dir/good"
run "${script}push\n" node "$good" 0 t1:10
[ "$status" -eq 0 ] || tell 'a larger node' "ended with $status, told '$told'"
flight="$(printf '%s\n' "$written" | tail -n 1)"
run "edit update t1 7 t=changed\nedit delete t1 8\n" node "$good" 0 t1:10
log="$dir/log"
run "$flight\n" hub --file "$log" t1:10
[ "$status" -eq 0 ] || tell 'a larger hub' "ended with $status, told '$told'"

# The same behind an entry that gave the table a column.
cp "$good" "$dir/good-wide"
run "answer $(answer_of 1)$wider -\n" node "$dir/good-wide" 0 t1:10
[ "$status" -eq 0 ] && [ "$written" = 'taken 1 version 1' ] || tell 'a larger node with a column' "ended with $status, printed '$written', told '$told'"
cp "$log" "$dir/log-wide"
run "$widen\n" hub --file "$dir/log-wide" t1:10
[ "$status" -eq 0 ] && [ "$written" = "$widened" ] || tell 'a larger hub with a column' "ended with $status, printed '$written', told '$told'"

# both NAME FILE MAKER..: as a node and as a hub, each on a file that is made anew.
both() {
    local name="$1"
    shift
    "$@" "$dir/bad"
    input='dump\n'
    looks "node on $name" "$dir/bad" node "$dir/bad" 0 t1:10
    rm -rf "$dir/bad" "$dir/bad-wal" "$dir/bad-shm" "$dir/bad-journal"
    "$@" "$dir/bad"
    input='0200000000000000000000000a\n'
    looks "hub on $name" "$dir/bad" hub --file "$dir/bad" t1:10
    rm -rf "$dir/bad" "$dir/bad-wal" "$dir/bad-shm" "$dir/bad-journal"
}

refused=0

# ---- files of others

make_empty() { : > "$1"; }
make_text() { printf 'till 1, monday\n%.0s' $(seq 1 500) > "$1"; }
make_zeros() { head -c 8192 /dev/zero > "$1"; }
both 'an empty file' make_empty
both 'a text' make_text
both 'zeros' make_zeros
if [ -n "$shell" ]; then
    make_others() { "$shell" "$1" "CREATE TABLE goods (name TEXT, price INTEGER); INSERT INTO goods VALUES ('tea', 3)" > /dev/null; }
    make_alike() { "$shell" "$1" "CREATE TABLE rows (tab INTEGER, key BLOB)" > /dev/null; }
    both 'a database of others' make_others
    both 'a database with a table of the same name' make_alike
fi

# ---- fronts of good files

size="$(stat -c %s "$good")"
for length in 1 15 16 99 100 101 512 1000 4095 4096 4097 8191 8192 $((size / 2)) $((size - 4096)) $((size - 1)); do
    [ "$length" -gt 0 ] && [ "$length" -lt "$size" ] || continue
    make_front() { head -c "$length" "$good" > "$1"; }
    both "a front of $length bytes" make_front
done

# ---- a byte changed

# The next drawn number below $1.
draw() {
    drawn=$(((drawn * 1103515245 + 12345) % 2147483648))
    place=$((drawn / 8 % $1))
}

drawn=20261126
make_changed() {
    cp "$from" "$1"
    printf "\\x$(printf %02x "$byte")" | dd of="$1" bs=1 seek="$place" conv=notrunc 2> /dev/null
}
for count in $(seq 1 400); do
    from="$good"
    [ $((count % 2)) -eq 0 ] || from="$log"
    [ "$count" -le 200 ] || from="$from-wide"
    draw "$(stat -c %s "$from")"
    was="$(od -An -tu1 -j "$place" -N 1 "$from" | tr -d ' ')"
    byte=$(((was + 1 + count % 255) % 256))
    make_changed "$dir/bad"
    if [ "${from%-wide}" = "$good" ]; then
        input='dump\n'
        looks "node with byte $place changed to $byte" "$dir/bad" node "$dir/bad" 0 t1:10
    else
        input='0200000000000000000000000a\n'
        looks "hub with byte $place changed to $byte" "$dir/bad" hub --file "$dir/bad" t1:10
    fi
    rm -f "$dir/bad" "$dir/bad-wal" "$dir/bad-shm" "$dir/bad-journal"
done

# ---- what is no file, can't be read, or can't grow

make_folder() { mkdir "$1"; }
both 'a directory' make_folder
both 'no file' true
input='dump\n'
looks 'node in a folder that is not there' "$dir/none/file" node "$dir/none/file" 0 t1:10
[ "$status" -eq 1 ] || tell 'node in a folder that is not there' "ended with $status"

# Whoever may read every file is somebody else for this.
shut="$dir/shut"
cp "$good" "$shut"
chmod 000 "$shut"
before="$(cksum < "$good")"
as=()
[ "$(id -u)" -ne 0 ] || as=(setpriv --reuid=65534 --regid=65534 --clear-groups)
if [ "${#as[@]}" -eq 0 ] || "${as[@]}" test -x "$program" 2> /dev/null; then
    status=0
    written="$(printf 'dump\n' | timeout 20 "${as[@]}" "$program" node "$shut" 0 t1:10 2> "$dir/told")" || status=$?
    told="$(cat "$dir/told")"
    runs=$((runs + 1))
    [ "$status" -eq 1 ] && [ -z "$written" ] && [[ "$told" =~ $refusal ]] || tell 'node on a file that cannot be read' "ended with $status, printed '$written', told '$told'"
    chmod 600 "$shut"
    [ "$(cksum < "$shut")" = "$before" ] || tell 'node on a file that cannot be read' 'it was written'
else
    echo 'files: nobody may run the program, so no file that cannot be read was tried'
fi

# A device that is full: no file may grow past so many bytes. What was told to be done is there afterwards.
full="$dir/full"
status=0
written="$(trap '' XFSZ; ulimit -f 64; printf "${script}${script}dump\n" | timeout 20 "$program" node "$full" 0 t1:10 2> "$dir/told")" || status=$?
told="$(cat "$dir/told")"
runs=$((runs + 1))
[ "$status" -le 1 ] || tell 'node on a full device' "ended with $status, told '$told'"
done_there="$(printf '%s\n' "$written" | head -n 60 | grep -c '^ok$')"
run 'dump\n' node "$full" 0 t1:10
[ "$status" -eq 0 ] || tell 'node on what was a full device' "ended with $status, told '$told'"
[ "$(printf '%s\n' "$written" | grep -c '^row ')" -eq "$done_there" ] \
    || tell 'node on what was a full device' "$done_there edits were done, and it shows $(printf '%s\n' "$written" | grep -c '^row ')"

# ---- files that the shell makes: what a hub finds there

# The tables of a store, as they are made (docs/FORMATS.md), the value of a hub of t1, and the row and the entry of the INSERT.
three='CREATE TABLE rows (tab INTEGER NOT NULL, key BLOB NOT NULL, body BLOB NOT NULL, PRIMARY KEY (tab, key)) STRICT;
    CREATE TABLE meta (name TEXT NOT NULL PRIMARY KEY, body BLOB NOT NULL) STRICT;
    CREATE TABLE log (version INTEGER PRIMARY KEY, origin INTEGER NOT NULL, number INTEGER NOT NULL, body BLOB NOT NULL) STRICT;'
four="$three
    CREATE TABLE pending (tab INTEGER NOT NULL, key BLOB NOT NULL, body BLOB NOT NULL, PRIMARY KEY (tab, key)) STRICT;"
note='CREATE TABLE note (id INTEGER PRIMARY KEY);'
value="INSERT INTO meta VALUES ('catalog', x'54020100743100');"
row="INSERT INTO rows VALUES (0, x'$key1', x'${key1}03027631');"
entry="INSERT INTO log VALUES (0, 0, 1, x'00$insert');"
pull=0200000000000000000000000a
none=14000000000000000000000000
one="140000000000000000000000010000000000000000000000000100000016$insert"

# Makes a file by SQL.
found="$dir/found"
make_found() {
    rm -f "$found" "$found-wal" "$found-shm" "$found-journal"
    "$shell" "$found" "$1" > /dev/null
}

# opens NAME OUTPUT TABLES SQL: a hub opens what this makes, answers a pull so, and the file then has these tables, in this order.
opens() {
    make_found "$4"
    gives "a hub on $1" "$2\n" "$pull\n" hub --file "$found" t1:10
    selects "$1" "$found" "$3" "SELECT group_concat(name, ' ') FROM sqlite_schema WHERE type = 'table'"
}

# finds NAME TOLD SQL: what this makes is refused so, and is as it was.
finds() {
    local before
    make_found "$3"
    before="$(sum_of "$found")"
    refuses "a hub on $1" "sync: $2" "$pull\n" hub --file "$found" t1:10
    [ "$(sum_of "$found")" = "$before" ] || tell "a hub on $1" 'was refused, and yet written'
}

# holds NAME TOLD SQL: the same of a hub's file without entries, to which this was done.
holds() {
    finds "$1" "$2" "$four $value $3"
}

if [ -n "$shell" ]; then
    # The database of nobody, a store from before pending changes had a table, and a store. An entry's origin and number are the last there
    # can be.
    opens 'no table' $none 'rows meta log pending' 'VACUUM'
    opens 'three tables' $one 'rows meta log pending' "$three $value $row $entry"
    opens 'four tables' $one 'rows meta log pending' "$four $value $row $entry"
    opens 'the last origin and number' "14000000000000000000000001""00ffffffffffffffffffffffff00000016$insert" 'rows meta log pending' \
        "$four $value $row INSERT INTO log VALUES (0, 4294967295, -1, x'00$insert');"

    # Another's database, and one beside a store's tables.
    finds 'a table of others' Device "$note"
    finds 'a table beside the four' Device "$four $value $row $entry $note"
    finds 'a table that is not strict' Device "$(printf '%s' "$four" | sed '1s/ STRICT//') $value $row $entry"

    # Logs whose versions aren't those from 0 on. The table that is missing is made before the log is looked at.
    finds 'four tables without entry 0' Damaged "$four $value $row INSERT INTO log VALUES (1, 0, 1, x'00$insert');"
    finds 'a gap behind entry 0' Damaged "$four $value $row $entry INSERT INTO log VALUES (2, 0, 1, x'00$insert');"
    finds 'a version below 0' Damaged "$four $value $row $entry INSERT INTO log VALUES (-1, 0, 1, x'00$insert');"
    make_found "$three $value $row INSERT INTO log VALUES (1, 0, 1, x'00$insert');"
    refuses 'a hub on three tables without entry 0' 'sync: Damaged' "$pull\n" hub --file "$found" t1:10
    selects 'three tables without entry 0' "$found" 'rows meta log pending' "SELECT group_concat(name, ' ') FROM sqlite_schema WHERE type = 'table'"

    # What a new hub lays out, which opens again, and not as that of another table.
    rm -f "$found" "$found-wal" "$found-shm"
    gives 'a new hub' '' '' hub --file "$found" t1:10
    laid_out="SELECT (SELECT count(*) FROM rows), (SELECT count(*) FROM pending), (SELECT count(*) FROM log), name, hex(body) FROM meta"
    selects 'a new hub' "$found" '0|0|0|catalog|54020100743100' "$laid_out"
    gives 'a new hub, again' "$none\n" "$pull\n" hub --file "$found" t1:10
    refuses 'a new hub of another table' 'sync: Mismatch' "$pull\n" hub --file "$found" t2:10
    selects 'a new hub, at last' "$found" '0|0|0|catalog|54020100743100' "$laid_out"

    # Values: an id, and bytes that are none; without tables it can't be read whose it is; other tables, and bytes that are none; values of
    # a replica.
    holds 'an id' Mismatch "INSERT INTO meta VALUES ('id', x'00000007')"
    finds 'an id alone' Damaged "$four INSERT INTO meta VALUES ('id', x'00000007')"
    holds 'no id' Damaged "INSERT INTO meta VALUES ('id', x'07')"
    finds 'no id alone' Damaged "$four INSERT INTO meta VALUES ('id', x'07')"
    holds 'other tables' Mismatch "UPDATE meta SET body = x'54020100743200'"
    holds 'no tables' Damaged "UPDATE meta SET body = x'50'"
    holds 'a number' Damaged "INSERT INTO meta VALUES ('number', x'0000000000000000')"
    holds 'a version' Damaged "INSERT INTO meta VALUES ('version', x'0000000000000000')"
    holds 'a push under way' Damaged "INSERT INTO meta VALUES ('flight', x'')"
    holds 'pending changes' Damaged "INSERT INTO meta VALUES ('pending', x'')"

    # Entries: of no kind, of another kind, without a changeset, and of another table. Rows: at another key than their own, and of no table.
    # A pending change, and one of no table.
    holds 'an entry of no kind' Damaged "INSERT INTO log VALUES (0, 7, 1, x'')"
    holds 'an entry of another kind' Damaged "INSERT INTO log VALUES (0, 7, 1, x'01')"
    holds 'an entry without a changeset' Damaged "INSERT INTO log VALUES (0, 7, 1, x'0050')"
    holds 'an entry of another table' Damaged \
        "INSERT INTO log VALUES (0, 7, 1, x'00540201007432001200${key1}03027631')"
    holds 'a row at another key' Damaged "INSERT INTO rows VALUES (0, x'$key2', x'${key1}03027631')"
    holds 'a row of no table' Damaged "INSERT INTO rows VALUES (1, x'$key1', x'${key1}03027631')"
    holds 'a pending change' Damaged "INSERT INTO pending VALUES (0, x'$key1', x'1200${key1}03027631')"
    holds 'a pending change of no table' Damaged "INSERT INTO pending VALUES (1, x'$key1', x'1200${key1}03027631')"

    # Entries that give a table columns, and the rows that these make: with others before and behind, of any origin, alone, and two of one
    # table.
    columns() { printf '%s' "INSERT INTO log VALUES ($1, 4294967295, $2, x'01$3');"; }
    told_columns() { printf '01ffffffff%016x%08x%s' "$1" $((${#2} / 2)) "$2"; }
    wide_row="INSERT INTO rows VALUES (0, x'$key1', x'${key1}0302763105');"
    update=${wide}1700${key1}0005000003027632
    opens 'a column' "$(answer_of 2)$(entry_of 1 $insert)$(told_columns 1 000000037431)" 'rows meta log pending' "$four $value $entry $(columns 1 1 000000037431) $wide_row"
    opens 'a column, and a change of it' "$(answer_of 3)$(entry_of 1 $insert)$(told_columns 1 000000037431)$(entry_of 2 $update)" 'rows meta log pending' \
        "$four $value $entry $(columns 1 1 000000037431) INSERT INTO log VALUES (2, 0, 2, x'00$update'); INSERT INTO rows VALUES (0, x'$key1', x'${key1}0302763103027632');"
    opens 'a column of any origin' "$(answer_of 1)0100000007ffffffffffffffff00000006000000037431" 'rows meta log pending' \
        "$four $value INSERT INTO log VALUES (0, 7, -1, x'01000000037431');"
    opens 'columns twice' "$(answer_of 2)$(told_columns 5 000000037431)$(told_columns 5 000007d07431)" 'rows meta log pending' \
        "$four $value $(columns 0 5 000000037431) $(columns 1 5 000007d07431)"

    # Rows that the log doesn't make: without the column, with one more, and with it where no entry gave it. Words of the columns that it
    # got.
    finds 'a column that its row has not' Damaged "$four $value $entry $(columns 1 1 000000037431) $row"
    finds 'a column less than its row has' Damaged "$four $value $entry $(columns 1 1 000000037431) INSERT INTO rows VALUES (0, x'$key1', x'${key1}030276310505');"
    finds 'a column that no entry gave' Damaged "$four $value $entry $wide_row"
    finds 'a column in its words' Mismatch "$four INSERT INTO meta VALUES ('catalog', x'$wide'); $entry $(columns 1 1 000000037431) $wide_row"

    # Entries of the columns on the other side, and entries that give none.
    holds 'a change of before behind a column' Damaged "$(columns 0 1 000000037431) INSERT INTO log VALUES (1, 0, 1, x'00$insert'); $wide_row"
    holds 'a change of a column before it' Damaged "INSERT INTO log VALUES (0, 0, 1, x'00${wide}1200${key1}0302763105'); $(columns 1 1 000000037431) $wide_row"
    for body in '' 00 000000 00000003 0000000374 00000003743100 000000037439 000000035431 00000003ff 000000007431 000000017431 000000027431 000007d17431 ffffffff7431; do
        holds "a column by $body" Damaged "$(columns 0 1 "$body")"
        holds "a column twice, then by $body" Damaged "$(columns 0 1 000000037431) $(columns 1 2 "$body")"
    done
    holds 'three columns twice' Damaged "$(columns 0 1 000000037431) $(columns 1 2 000000037431)"
    holds 'an entry of kind 2' Damaged "INSERT INTO log VALUES (0, 7, 1, x'02000000037431')"
fi

if [ "$failed" -eq 0 ]; then
    echo "files: $runs runs as they have to be, $refused of damaged files refused by name"
fi
exit "$failed"
