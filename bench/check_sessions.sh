#!/bin/sh
# Runs the built program `sync` on what a person types, and compares each run's status, output and errors with what they have to be: a hub's
# sessions, tables that get more columns, each request and changeset that it refuses, each front of requests and of a pushed changeset, long
# lines, a long log; the tools by their words; table words that are read and that are refused; command lines that aren't taken; the help;
# and reads and writes that fail in mid-stream. One case is one run.
# Usage: bench/check_sessions.sh PROGRAM
# A read that fails is that of a terminal whose other side is gone, for which it wants python3 (as `rt` does).
set -u
program="${1:?usage: bench/check_sessions.sh PROGRAM}"
. "$(dirname "$0")/running.sh"

# push ORIGIN NUMBER BASE CHANGESET: the push of a changeset in hex.
push() {
    printf '01%08x%016x%016x%08x%s' "$1" "$2" "$3" "$((${#4} / 2))" "$4"
}

# pull FIRST LIMIT: the pull of so many entries.
pull() {
    printf '02%016x%08x' "$1" "$2"
}

# catch ORIGIN FIRST LIMIT: what so many entries do together is asked for, by that replica.
catch() {
    printf '03%08x%016x%08x' "$1" "$2" "$3"
}

# accepted ORIGIN NUMBER VERSION, stale NEWEST, entries FIRST [ENTRY..], entry ORIGIN NUMBER CHANGESET: answers, and an entry of the last
# but one.
accepted() {
    printf '11%08x%016x%016x' "$1" "$2" "$3"
}

stale() {
    printf '12%016x' "$1"
}

entries() {
    first=$1
    shift
    printf '14%016x%08x' "$first" "$#"
    printf %s "$@"
}

entry() {
    printf '00%08x%016x%08x%s' "$1" "$2" "$((${#3} / 2))" "$3"
}

# merged ORIGIN FIRST NEXT CHANGESET: the answer to that replica's catch: what the entries from one version to another do together.
merged() {
    printf '15%08x%016x%016x%08x%s' "$1" "$2" "$3" "$((${#4} / 2))" "$4"
}

# widen NUMBER BASE WIDTH TABLE: a table, its name in hex, is to have so many columns.
widen() {
    printf '04%016x%016x%08x%08x%s' "$1" "$2" "$3" "$((${#4} / 2))" "$4"
}

# widened NUMBER VERSION, wider NUMBER WIDTH TABLE: the answer that it was accepted, and the entry that it became.
widened() {
    accepted 4294967295 "$1" "$2"
}

wider() {
    printf '01ffffffff%016x%08x%08x%s' "$1" "$((4 + ${#3} / 2))" "$2" "$3"
}

# many COUNT HEX: the bytes so many times.
many() {
    awk -v count="$1" -v bytes="$2" 'BEGIN { while (count-- > 0) printf "%s", bytes }'
}

# answers OUTPUT LINE..: a hub of t1 answers these lines so.
answers() {
    answer=$1
    shift
    expect 0 "$(printf '%s\\n' "$@")" "$answer" '' hub t1:10
}

# session [TABLE..]: a new hub of these tables, or of t1, answers the requests of a table, which stands on the input: a line each, its
# answer before it. It answers so in memory and over a file.
session() {
    [ "$#" -gt 0 ] || set -- t1:10
    cat > "$dir/table"
    cut -d ' ' -f 1 "$dir/table" > "$dir/output_wanted"
    cut -d ' ' -f 2 "$dir/table" > "$dir/input"
    : > "$dir/errors_wanted"
    expect_files 0 hub "$@"
    rm -f "$dir/hub" "$dir/hub-wal" "$dir/hub-shm"
    expect_files 0 hub --file "$dir/hub" "$@"
}

# refuses_words WORD..: the words are no command line, and nothing is read or written.
refuses_words() {
    expect 2 "$line" '' 'sync: command line\n' "$@"
}

# The INSERT of (1, 'v1') into t1, the UPDATE of that row to (1, 'v2'), both as one, and the DELETE of the one row and of the other.
insert=54020100743100120001000000000000000103027631
insert_updated=54020100743100120001000000000000000103027632
update=540201007431001700010000000000000001030276310003027632
delete=54020100743100090001000000000000000103027631
delete_updated=54020100743100090001000000000000000103027632

# ---- what a hub of two tables, and one of none, answers to lines: no first byte of these is a request's tag

hub_answers() {
    expect 0 "$1" "$2" '' hub t1:10 a:b:1
}

hub_answers '' ''
hub_answers '\n' '1302\n'
hub_answers '07' '1314\n'
hub_answers '07\n' '1314\n'
hub_answers 'zz\n' '1316\n'
hub_answers '070\n' '1316\n'
hub_answers '07\r\n' '1316\n'
hub_answers '0a0B\n\nff\n 07\n0' '1314\n1302\n1314\n1316\n1316\n'
expect 0 '07\n' '1314\n' '' hub

# ---- sessions with a hub of t1: a push, the same again, others onto the versions below, at and above the newest one, and entries

session << END
110000000700000000000000010000000000000001 $(push 7 1 0 $insert)
110000000700000000000000010000000000000001 $(push 7 1 0 $insert)
120000000000000001 $(push 8 1 0 $insert)
14000000000000000000000001000000000700000000000000010000001654020100743100120001000000000000000103027631 0200000000000000000000000A
1329 $(push 8 2 1 $insert)
1328 $(push 8 3 7 $insert)
132a $(push 8 4 1 '')
END
session << END
110000000700000000000000010000000000000001 $(push 7 1 0 $insert)
110000000700000000000000020000000000000002 $(push 7 2 1 $update)
1329 $(push 8 1 2 $delete)
110000000800000000000000020000000000000003 $(push 8 2 2 $delete_updated)
110000000800000000000000030000000000000004 $(push 8 3 3 $insert)
END

# ---- each case of a push, in the order in which they are judged: no change, a base above the newest version, a change that isn't defined,
# taken; below the newest version the same push and others; and at the end the log that was made

session << END
132a $(push 7 1 0 '')
132a $(push 7 1 1 '')
1328 $(push 7 1 1 $insert)
1329 $(push 7 1 0 $update)
$(accepted 7 1 1) $(push 7 1 0 $insert)
$(accepted 7 1 1) $(push 7 1 0 $insert)
$(stale 1) $(push 7 2 0 $insert)
$(stale 1) $(push 7 1 0 $update)
1329 $(push 7 2 1 $insert)
1329 $(push 7 2 1 $delete_updated)
$(accepted 7 2 2) $(push 7 2 1 $update)
$(accepted 7 1 1) $(push 7 1 0 $insert)
$(accepted 7 2 2) $(push 7 2 1 $update)
$(accepted 7 3 3) $(push 7 3 2 $delete_updated)
$(entries 0 $(entry 7 1 $insert) $(entry 7 2 $update) $(entry 7 3 $delete_updated)) $(pull 0 10)
END

# ---- changes that aren't defined where (1, 'v1') stands: that row is there, with other values too; a DELETE of (1, 'v2') and of (2, 'x');
# the UPDATE of (2, 'x') to 'y'; and an UPDATE that is defined before a DELETE that isn't. Nothing changes: the log has one entry, and the
# row is as it was

for changeset in $insert 540201007431001200010000000000000001030178 $delete_updated 540201007431000900010000000000000002030178 \
    54020100743100170001000000000000000203017800030179 \
    5402010074310017000100000000000000010302763100030276320900010000000000000002030178; do
    session << END
$(accepted 7 1 1) $(push 7 1 0 $insert)
1329 $(push 7 2 1 $changeset)
$(entries 0 $(entry 7 1 $insert)) $(pull 0 10)
$(accepted 7 2 2) $(push 7 2 1 $delete)
END
done

# ---- a log of three entries of two replicas: each push again; what differs from an entry in its number, its origin, its changes or its
# version; and the entries from each version on, so many of them

session << END
$(accepted 7 1 1) $(push 7 1 0 $insert)
$(accepted 8 5 2) $(push 8 5 1 $update)
$(accepted 7 2 3) $(push 7 2 2 $delete_updated)
$(accepted 7 1 1) $(push 7 1 0 $insert)
$(accepted 8 5 2) $(push 8 5 1 $update)
$(accepted 7 2 3) $(push 7 2 2 $delete_updated)
$(stale 3) $(push 7 2 0 $insert)
$(stale 3) $(push 8 1 0 $insert)
$(stale 3) $(push 7 1 0 $update)
$(stale 3) $(push 7 1 1 $insert)
140000000000000000000000010000000007000000000000000100000016$insert $(pull 0 1)
14000000000000000100000002000000000800000000000000050000001b$update$(entry 7 2 $delete_updated) $(pull 1 2)
$(entries 0 $(entry 7 1 $insert) $(entry 8 5 $update) $(entry 7 2 $delete_updated)) $(pull 0 3)
$(entries 1 $(entry 8 5 $update) $(entry 7 2 $delete_updated)) $(pull 1 4294967295)
14000000000000000000000000 $(pull 0 0)
14000000000000000200000000 $(pull 2 0)
14000000000000000300000000 $(pull 3 0)
14000000000000000300000000 $(pull 3 10)
1328 $(pull 4 0)
END

# ---- what two entries of replica 7 do together, told to 9 and to 7 itself; each entry alone; no entry; and from behind the newest version

session << END
$(accepted 7 1 1) $(push 7 1 0 $insert)
$(accepted 7 2 2) $(push 7 2 1 $update)
$(merged 9 0 2 $insert_updated) $(catch 9 0 10)
$(merged 9 0 2 $insert_updated) $(catch 9 0 2)
$(merged 9 0 1 $insert) $(catch 9 0 1)
$(merged 9 1 2 $update) $(catch 9 1 10)
$(merged 9 0 0 '') $(catch 9 0 0)
$(merged 9 2 2 '') $(catch 9 2 10)
$(entries 0 $(entry 7 1 $insert)) $(catch 7 0 10)
$(entries 1 $(entry 7 2 $update)) $(catch 7 1 1)
$(merged 7 0 0 '') $(catch 7 0 0)
$(merged 7 2 2 '') $(catch 7 2 10)
1328 $(catch 9 3 10)
1328 $(catch 7 3 0)
1328 $(catch 9 18446744073709551615 4294967295)
END

# ---- entries of two replicas, of whom each is told what the other's do together, up to an entry of its own; an INSERT and its DELETE are
# nothing

session << END
$(accepted 7 1 1) $(push 7 1 0 $insert)
$(accepted 7 2 2) $(push 7 2 1 $update)
$(accepted 8 1 3) $(push 8 1 2 $delete_updated)
$(accepted 7 3 4) $(push 7 3 3 $insert)
$(merged 9 0 3 '') $(catch 9 0 3)
$(merged 9 1 3 $delete) $(catch 9 1 2)
$(merged 9 0 4 $insert) $(catch 9 0 4294967295)
$(merged 9 1 4 '') $(catch 9 1 10)
$(merged 9 2 4 540201007431001700010000000000000001030276320003027631) $(catch 9 2 10)
$(merged 8 0 2 $insert_updated) $(catch 8 0 10)
$(merged 8 0 1 $insert) $(catch 8 0 1)
$(entries 2 $(entry 8 1 $delete_updated)) $(catch 8 2 10)
$(merged 8 3 4 $insert) $(catch 8 3 10)
$(entries 0 $(entry 7 1 $insert)) $(catch 7 0 10)
$(merged 7 2 3 $delete_updated) $(catch 7 2 10)
$(entries 3 $(entry 7 3 $insert)) $(catch 7 3 10)
END

# ---- rows of two tables: what is told stands in the order of the hub's tables and of the keys. A row of t2 comes and goes, and one of t1
# is indirect

one=540201007431001200010000000000000005030161540201007432001200010000000000000002030178
two=54020100743100120101000000000000000103016154020100743200170001000000000000000203017800030179
three=54020100743100170001000000000000000503016100030162540201007432000900010000000000000002030179
session t1:10 t2:10 << END
$(accepted 7 1 1) $(push 7 1 0 540201007432001200010000000000000002030178540201007431001200010000000000000005030161)
$(accepted 8 1 2) $(push 8 1 1 $two)
$(accepted 7 2 3) $(push 7 2 2 $three)
$(merged 9 0 1 $one) $(catch 9 0 1)
$(merged 9 0 3 5402010074310012010100000000000000010301611200010000000000000005030162) $(catch 9 0 10)
$(merged 9 1 3 540201007431001201010000000000000001030161170001000000000000000503016100030162540201007432000900010000000000000002030178) $(catch 9 1 10)
$(merged 8 0 1 $one) $(catch 8 0 10)
$(merged 7 1 2 $two) $(catch 7 1 10)
END

# ---- a table gets more columns: the worked requests; then the row is (1, 'v1', NULL), as the DELETE that is accepted tells, and the one
# that isn't

key1=010000000000000001
key2=010000000000000002
wide=5403010000743100
insert_wide=${wide}1200${key2}030161030162
delete_wide=${wide}0900${key1}0302763105
update_wide=${wide}1700${key1}03027631050003027632030163
session << END
110000000700000000000000010000000000000001 01000000070000000000000001000000000000000000000016$insert
11ffffffff00000000000000010000000000000002 040000000000000001000000000000000100000003000000027431
132e 040000000000000002000000000000000200000003000000027431
110000000700000000000000010000000000000001 01000000070000000000000001000000000000000000000016$insert
131f 01000000080000000000000001000000000000000200000016$insert
1400000000000000010000000101ffffffff000000000000000100000006000000037431 0200000000000000010000000a
11ffffffff00000000000000010000000000000002 040000000000000001000000000000000100000003000000027431
120000000000000002 040000000000000009000000000000000100000003000000027431
1328 040000000000000001000000000000000900000004000000027431
110000000800000000000000020000000000000003 01000000080000000000000002000000000000000200000019$insert_wide
1329 $(push 8 3 3 ${wide}0900${key1}03027631030162)
$(accepted 8 3 4) $(push 8 3 3 $delete_wide)
$(entries 0 $(entry 7 1 $insert) $(wider 1 3 7431) $(entry 8 2 $insert_wide) $(entry 8 3 $delete_wide)) $(pull 0 10)
END

# It is judged by the entry at its base before the table is looked for, and a push by the tables at its base, or where that is above the
# newest version by those there. Entries that are taken together end before the one that gives columns, and that is told by itself, whoever
# asks.
session << END
$(accepted 7 1 1) $(push 7 1 0 $insert)
$(widened 5 2) $(widen 5 1 3 7431)
$(accepted 7 2 3) $(push 7 2 2 $update_wide)
$(accepted 8 1 4) $(push 8 1 3 $insert_wide)
$(widened 5 2) $(widen 5 1 3 7431)
$(stale 4) $(widen 5 1 4 7431)
$(stale 4) $(widen 5 1 2 7431)
$(stale 4) $(widen 5 1 3 7439)
$(stale 4) $(widen 6 1 3 7431)
$(stale 4) $(widen 5 0 3 7431)
$(stale 4) $(widen 5 2 3 7431)
$(stale 4) $(widen 5 3 0 '')
1328 $(widen 5 5 3 7431)
1328 $(widen 5 5 0 7439)
1328 $(widen 5 18446744073709551615 5 7431)
132e $(widen 5 4 3 7431)
$(accepted 7 1 1) $(push 7 1 0 $insert)
$(stale 4) $(push 8 1 0 $insert)
131f $(push 8 1 0 $insert_wide)
$(stale 4) $(push 8 1 1 $insert)
131f $(push 8 1 1 $insert_wide)
131f $(push 8 1 2 $insert)
$(stale 4) $(push 8 1 2 $insert_wide)
$(accepted 8 1 4) $(push 8 1 3 $insert_wide)
131f $(push 8 1 4 $insert)
131f $(push 8 1 9 $insert)
1328 $(push 8 1 9 $delete_wide)
132a $(push 8 1 9 $wide)
131f $(push 8 1 9 54020100743100)
$(merged 9 0 1 $insert) $(catch 9 0 10)
$(merged 9 0 1 $insert) $(catch 9 0 1)
$(entries 1 $(wider 5 3 7431)) $(catch 9 1 10)
$(entries 1 $(wider 5 3 7431)) $(catch 9 1 1)
$(merged 9 1 1 '') $(catch 9 1 0)
$(entries 1 $(wider 5 3 7431)) $(catch 4294967295 1 10)
$(merged 9 2 4 ${update_wide}1200${key2}030161030162) $(catch 9 2 10)
$(merged 9 3 4 $insert_wide) $(catch 9 3 10)
$(merged 8 2 3 $update_wide) $(catch 8 2 10)
$(entries 0 $(entry 7 1 $insert)) $(catch 7 0 10)
$(entries 1 $(wider 5 3 7431) $(entry 7 2 $update_wide)) $(pull 1 2)
END

# One table twice, another one whose key is its first and its third column, and each without a row that stays. All have one number, and each
# counts.
two_five=54050100010000743200
delete_six=540601000000000074310009000100000000000000010302763105050505
delete_five=${two_five}090001000000000000000503016203016b0505
session t1:10 t2:101 << END
$(accepted 7 1 1) $(push 7 1 0 ${insert}5403010001743200120001000000000000000503016203016b)
$(widened 1 2) $(widen 1 1 5 7432)
$(widened 1 3) $(widen 1 2 3 7431)
$(widened 1 4) $(widen 1 3 6 7431)
$(widened 1 3) $(widen 1 2 3 7431)
132e $(widen 1 4 5 7431)
132e $(widen 1 4 5 7432)
$(stale 4) $(push 7 2 3 $delete_five)
131f $(push 7 2 4 ${delete_wide})
131f $(push 7 2 4 54050100010100743200090001000000000000000503016203016b03016b05)
1329 $(push 7 2 4 ${two_five}090001000000000000000503016203016b05030178)
$(accepted 7 2 5) $(push 7 2 4 ${delete_six}${delete_five})
$(widened 1 6) $(widen 1 5 7 7431)
$(entries 1 $(wider 1 5 7432)) $(catch 9 1 10)
$(entries 2 $(wider 1 3 7431)) $(catch 9 2 10)
$(entries 3 $(wider 1 6 7431)) $(catch 9 3 10)
$(merged 9 4 5 ${delete_six}${delete_five}) $(catch 9 4 10)
$(entries 1 $(wider 1 5 7432) $(wider 1 3 7431) $(wider 1 6 7431)) $(pull 1 3)
END

# A push whose origin is that of such entries is a push; and the most columns that there are.
all_columns=548f5001$(many 1999 00)743100
session << END
$(accepted 4294967295 1 1) $(push 4294967295 1 0 $insert)
$(stale 1) $(widen 1 0 3 7431)
$(widened 1 2) $(widen 1 1 2000 7431)
$(accepted 4294967295 1 1) $(push 4294967295 1 0 $insert)
$(stale 2) $(push 4294967295 1 1 $insert)
132e $(widen 2 2 2001 7431)
132e $(widen 2 2 2000 7431)
$(accepted 7 2 3) $(push 7 2 2 ${all_columns}0900${key1}03027631$(many 1998 05))
END

# ---- widths, names and bytes of such a request: the answer of a new hub, the request

while read -r answer line; do
    answers "$answer\n" "$line"
done << END
132e $(widen 1 0 3 7439)
132e $(widen 1 0 3 5431)
132e $(widen 1 0 3 '')
132e $(widen 1 0 3 74)
132e $(widen 1 0 3 743100)
132e $(widen 1 0 3 743131)
132e $(widen 1 0 3 c3a9)
132e $(widen 1 0 3 "$(many 255 61)")
132e $(widen 1 0 3 "$(many 256 61)")
132e $(widen 1 0 3 "$(many 65536 61)")
132e $(widen 1 0 0 7431)
132e $(widen 1 0 1 7431)
132e $(widen 1 0 2 7431)
132e $(widen 1 0 2001 7431)
132e $(widen 1 0 4294967295 7431)
$(widened 1 1) $(widen 1 0 3 7431)
$(widened 1 1) $(widen 1 0 2000 7431)
$(widened 0 1) $(widen 0 0 3 7431)
$(widened 18446744073709551615 1) $(widen 18446744073709551615 0 3 7431)
1328 $(widen 1 1 3 7431)
1306 $(widen 1 0 3 ff)
1306 $(widen 1 0 3 7431c3)
1306 $(widen 1 0 3 c080)
1306 $(widen 1 0 3 eda080)
1306 $(widen 1 0 3 f4908080)
1306 $(widen 1 9 0 ff)
1315 $(widen 1 0 3 ff)00
1315 $(widen 1 0 3 7431)00
1302 0400000000000000010000000000000000000000030000000274
1302 04000000000000000100000000000000000000000300000001
1302 040000000000000001000000000000000000000003ffffffff
1302 040000000000000001000000000000000000000003ffffffff7431
END

# ---- a table gets a column 120 times: each request again, and on each version a push of the columns there, and one of a column more

awk 'BEGIN {
    for (base = 0; base < 120; base++) printf "04%016x%016x%08x000000027431\n", 1, base, base + 3
    for (base = 0; base < 120; base++) {
        printf "04%016x%016x%08x000000027431\n", 1, base, base + 3
        for (more = 2; more < 4; more++) {
            printf "0100000007%016x%016x%08x54%02x01", 1, base, 2 * (base + more) + 15, base + more
            for (column = 1; column < base + more; column++) printf "00"
            printf "743100120001%016x", 1
            for (column = 1; column < base + more; column++) printf "05"
            print ""
        }
    }
    print "020000000000000077ffffffff"
}' > "$dir/input"
awk 'BEGIN {
    for (base = 0; base < 120; base++) printf "11ffffffff%016x%016x\n", 1, base + 1
    for (base = 0; base < 120; base++) printf "11ffffffff%016x%016x\n12%016x\n131f\n", 1, base + 1, 120
    printf "14%016x0000000101ffffffff%016x00000006%08x7431\n", 119, 1, 122
}' > "$dir/output_wanted"
: > "$dir/errors_wanted"
expect_files 0 hub t1:10
rm -f "$dir/hub" "$dir/hub-wal" "$dir/hub-shm"
expect_files 0 hub --file "$dir/hub" t1:10

# ---- requests that are refused, and one of no entry: the answer, the line

while read -r answer line; do
    answers "$answer\n" "$line"
done << 'END'
1302
1316 zz
1316 0
1314 99
1315 0200000000000000000000000a00
1316 0200000000000000000000000
14000000000000000000000000 02000000000000000000000000
14000000000000000000000000 0200000000000000000000000a
1328 0200000000000000010000000a
1328 02ffffffffffffffff0000000a
1328 0100000008ffffffffffffffffffffffffffffffff0000001654020100743100120001000000000000000103027631
132a 0100000008ffffffffffffffffffffffffffffffff00000000
1314 05
1302 04
1302 03
1316 030000000900000000000000000000000
1315 030000000900000000000000000000000a00
15000000090000000000000000000000000000000000000000 030000000900000000000000000000000a
END

# ---- changesets that are refused: the answer to a push of it, the changeset

while read -r answer changeset; do
    answers "$answer\n" "$(push 7 1 0 "$changeset")"
done << 'END'
132a
132a 54020100743100
1307 50
1308 ff
1309 5402010074310013
130a 540201007431001202
130b 5400
130c 54020000
130d 54020100743100120000
1302 5402010074310012000100000000000000010380
1305 54020100743100120001000000000000000102
1304 54020100743100120001000000000000000106
1306 5402010074310012000100000000000000010301ff
131e 54020100743200120001000000000000000103027631
131f 54020101743100120001000000000000000103027631
1320 5402010074310012000503027631
1321 54020100743100120001000000000000000103027631120001000000000000000103027632
END

# ---- fronts of the pushed INSERT: of its 21, the one that is a header alone is a changeset without changes

bytes=1
while [ "$bytes" -lt 22 ]; do
    answer=1302
    [ "$bytes" -ne 7 ] || answer=132a
    answers "$answer\n" "$(push 7 1 0 "$(printf "%.$((2 * bytes))s" "$insert")")"
    bytes=$((bytes + 1))
done

# ---- fronts of requests that are taken, digit by digit: a half of a byte is no hex

for request in "$(push 7 1 0 $insert)" 0200000000000000000000000a "$(catch 9 0 10)" "$(widen 1 0 3 7431)"; do
    digits=0
    while [ "$digits" -lt "${#request}" ]; do
        answer=1302
        [ $((digits % 2)) -eq 0 ] || answer=1316
        answers "$answer\n" "$(printf "%.${digits}s" "$request")"
        digits=$((digits + 1))
    done
done

# ---- a line of 131,072 digits, alone and as a changeset

long="$(head -c 131072 /dev/zero | tr '\0' f)"
answers '1314\n1308\n' "$long" "$(push 7 1 0 "$long")"

# ---- a long log: 4,097 pushes of rows with keys of their own; then a push again, another one, and the last entries

awk 'BEGIN {
    for (base = 0; base < 4097; base++)
        printf "0100000007%016x%016x0000001654020100743100120001%016x03027631\n", base + 1, base, base
    printf "0100000007%016x%016x0000001654020100743100120001%016x03027631\n", 1, 0, 0
    printf "0100000008%016x%016x0000001654020100743100120001%016x03027631\n", 1, 0, 0
    printf "02%016x0000000a\n", 4091
    printf "0300000009%016x0000000a\n", 4091
    printf "0300000009%016xffffffff\n", 0
    printf "0300000007%016xffffffff\n", 0
    print "0200000000000010010000000a"
    print "0200000000000010020000000a"
}' > "$dir/input"
awk 'BEGIN {
    for (next_one = 1; next_one < 4098; next_one++) printf "1100000007%016x%016x\n", next_one, next_one
    printf "1100000007%016x%016x\n", 1, 1
    print "120000000000001001"
    printf "14%016x00000006", 4091
    for (base = 4091; base < 4097; base++) printf "0000000007%016x0000001654020100743100120001%016x03027631", base + 1, base
    print ""
    printf "1500000009%016x%016x%08x54020100743100", 4091, 4097, 7 + 6 * 15
    for (base = 4091; base < 4097; base++) printf "120001%016x03027631", base
    print ""
    printf "1500000009%016x%016x%08x54020100743100", 0, 4097, 7 + 4097 * 15
    for (base = 0; base < 4097; base++) printf "120001%016x03027631", base
    print ""
    printf "14%016x000000010000000007%016x0000001654020100743100120001%016x03027631\n", 0, 1, 0
    print "14000000000000100100000000"
    print "1328"
}' > "$dir/output_wanted"
: > "$dir/errors_wanted"
seconds=120
expect_files 0 hub t1:10
seconds=20

# ---- table words that are read: `A%b` with marks 1 and 0, `a:b` with 0 and 1, and a name of an e with an acute accent and `~!`

words='%41%25b:10 a:b:01 %C3%A9~!:1'
of_first=5402010041256200120001000000000000000103027631
of_second=54020001613a6200120003027631010000000000000001
of_third=540101c3a97e21001200010000000000000001
# What was pushed in another order stands in the order of the words; other marks are another shape, and another name no table's.
expect 0 "$(push 7 1 0 $of_third$of_second$of_first)\n0200000000000000000000000a\n" \
    "110000000700000000000000010000000000000001\n140000000000000000000000010000000007000000000000000100000041$of_first$of_second$of_third\n" \
    '' hub $words
while read -r answer changeset; do
    expect 0 "$(push 7 1 0 "$changeset")\n" "$answer\n" '' hub $words
done << 'END'
131f 5402000141256200120003027631010000000000000001
131f 54020100613a6200120001000000000000000103027631
131f 54020100c3a97e2100120001000000000000000103027631
131e 540201004100120001000000000000000103027631
END

# Its name is looked for byte by byte.
expect 0 "$(widen 1 0 2 c3a97e21)\n$(widen 1 1 2 613a62)\n$(widen 1 1 3 613a62)\n" "$(widened 1 1)\n132e\n$(widened 1 2)\n" '' hub $words

# ---- table words that are refused, and the first of them is told: the words, what is told

line='07\n'
while IFS='|' read -r first second refused; do
    expect 2 "$line" '' "sync: table $refused\n" hub "$first" "$second"
done << 'END'
t1|t2:1|t1
t1:10|t2:00|t2:00
t1:10|t1:01|t1:01
t1:|t2:1|t1:
t1:12|t2:1|t1:12
:10|t2:1|:10
a%00:10|t2:1|a%00:10
a%4a:10|t2:1|a%4a:10
a%:10|t2:1|a%:10
a%4:10|t2:1|a%4:10
a%FF:10|t2:1|a%FF:10
a b:10|t2:1|a b:10
é:10|t2:1|é:10
A:1|%41:1|%41:1
END
expect 2 "$line" '' 'sync: table %41%c:1\n' hub t1:10 a:b:1 %41%c:1
# A table too many, the 1,001st, which is sought one by one.
seconds=120
expect 2 '' '' 'sync: table t1000:1\n' hub $(awk 'BEGIN { for (place = 0; place < 1001; place++) print "t" place ":1" }')
seconds=20

# ---- words that are no command line

refuses_words
refuses_words frob
refuses_words hub --frob
refuses_words help frob
line='50\n'
refuses_words show
refuses_words show frob
line=''
refuses_words combine t1:10
# The other commands don't take the option, nor is it taken twice or with a value.
refuses_words show changeset --sqlite
refuses_words show blob --sqlite
refuses_words hub t1:10 --sqlite
refuses_words hub --sqlite
refuses_words --sqlite combine
refuses_words combine --sqlite --sqlite
refuses_words combine --sqlite=true
refuses_words rebase --sqlit
refuses_words rebase sqlite

# ---- each tool by its words, and what it tells as the run's; headers of one table with its key's columns in two orders

two_orders='54020201743100\n54020102743100\n'
for tool in combine rebase; do
    expect 0 "$insert\n" "$insert\n" '' $tool
    expect 0 "$two_orders" '\n' '' $tool
    expect 1 "$two_orders" '' 'sync: KeyOrder\n' $tool --sqlite
done
expect 0 "$insert\n" 'table t1 10\ninsert 0 1 t=v1\n' '' show changeset
expect 0 "$insert\n" 'table t1 10\nchange omit 1 t=v1\n' '' show blob
expect 1 '54\n' '' 'sync: Truncated at 1\n' show blob

# The same of commands that take a number.
for words in 'node' 'node f' 'node f x t1:10' 'node f 4294967295 t1:10' 'node --follow f' 'node --follow f x t1:10' 'node --follow --follow f 7 t1:10' 'hub --follow' 'hub --file'; do
    refuses_words $words
done

# ---- the help: the usage line by the program's own name, whatever it was called by, and a line for each command

help='Offline-first table sync: a hub, replicas, and tools for changesets\n\nUsage: sync [COMMAND]\n\nCommands:\n  hub       Answer requests, one a line in hex, as a hub of these tables\n  node      Edit, push and pull as a replica of these tables, one line a step\n  exchange  Have a hub and a replica, each in a file, exchange what they have\n  world     Run a script of a hub of these tables, its replicas and their messages\n  show      Show the changeset or rebase blob that the first line spells in hex, or that a file holds\n  combine   Take the changesets that the lines spell in hex, or that files hold, together as one\n  rebase    Rebase the changeset of the first line over the rebase blob of the second, in hex\n  help      Print this message or the help of the given subcommand(s)\n\nOptions:\n  -h, --help  Print help\n'
help_to_combine='Take the changesets that the lines spell in hex, or that files hold, together as one\n\nUsage: sync combine [--sqlite] [--file FILE]...\n\nOptions:\n      --sqlite       Write the column bytes that came in, as SQLite applies them\n      --file <FILE>  A file that holds a changeset, as its bytes\n  -h, --help         Print help\n'
expect 0 '07\n' "$help" '' --help
expect 0 '07\n' "$help_to_combine" '' help combine
help_to_node='Edit, push and pull as a replica of these tables, one line a step\n\nUsage: sync node [--follow] <FILE> <ID> [TABLE]...\n\nArguments:\n  <FILE>      The file of SQLite that keeps the replica, which is made where there is none\n  <ID>        The replica'"'"'s id, which no other at its hub has\n  [TABLE]...  A table as NAME:MARKS, a 1 for a key column and a 0 for another\n\nOptions:\n      --follow  Answer each line as it comes, with an empty line behind each answer\n  -h, --help    Print help\n'
expect 0 '07\n' "$help_to_node" '' node --help
ln -s "$(realpath "$program")" "$dir/any"
own="$program"
program="$dir/any"
expect 0 '07\n' "$help" '' help
program="$own"

# ---- a write that fails behind seven bytes: the output is a file that may be only seven bytes longer than it is

printf '07\n08\n' > "$dir/input"
head -c 1017 /dev/zero > "$dir/output"
cp "$dir/output" "$dir/output_wanted"
printf '1314\n13' >> "$dir/output_wanted"
printf 'sync: Write\n' > "$dir/errors_wanted"
ended=0
(
    trap '' XFSZ
    ulimit -f 2
    timeout "$seconds" "$program" hub t1:10 < "$dir/input" >> "$dir/output" 2> "$dir/errors"
) || ended=$?
compare 1 hub t1:10

# ---- a read that fails behind two empty lines, which are answered before: the input is a terminal whose other side is gone

printf '\n\n' > "$dir/input"
printf '1302\n1302\n' > "$dir/output_wanted"
printf 'sync: Read\n' > "$dir/errors_wanted"
ended=0
timeout "$seconds" python3 -c '
import os, pty, subprocess, sys, tty
near, far = pty.openpty()
tty.setraw(far)
os.write(far, b"\n\n")
os.close(far)
sys.exit(subprocess.run(sys.argv[1:], stdin=near).returncode)' "$program" hub t1:10 > "$dir/output" 2> "$dir/errors" || ended=$?
compare 1 hub t1:10
# The same before any line: a folder can't be read.
: > "$dir/input"
: > "$dir/output_wanted"
ended=0
timeout "$seconds" "$program" hub t1:10 < / > "$dir/output" 2> "$dir/errors" || ended=$?
compare 1 hub t1:10

[ "$failed" -eq 0 ] || exit 1
echo "sessions: $runs runs, each with its status, output and errors"
