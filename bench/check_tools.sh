#!/bin/sh
# Asks the tools of the built program `sync` what they make of lines and of files, and compares each run's status, output and errors with what they
# have to be: what changesets are together by SQLite's rules for a changegroup, what is left of a local changeset over a rebase blob,
# SQLite's form of both, a changeset and a blob as text, and each refusal by its name and offset. One case is one run.
# Usage: bench/check_tools.sh PROGRAM
set -u
program="${1:?usage: bench/check_tools.sh PROGRAM}"
. "$(dirname "$0")/running.sh"

# each WORD..: of each line `INPUT|OUTPUT` the program on these words writes the output.
each() {
    while IFS='|' read -r input output; do
        expect 0 "$input" "$output" '' "$@"
    done
}

# each_refused WORD..: of each line `INPUT|NAME` it writes nothing, and tells the name.
each_refused() {
    while IFS='|' read -r input name; do
        expect 1 "$input" '' "sync: $name\n" "$@"
    done
}

# Headers of t1(a key, b), of t2(a key, b, c, d) and of a table t2 as t1; fields, those of the wide table by their column.
h1=54020100743100
h2=540401000000743200
t2=54020100743200
k1=010000000000000001
k2=010000000000000002
k3=010000000000000003
null=05
v1=03027631
v2=03027632
v9=03027639
b_old=03026230
b_new=03026231
b_theirs=03026232
c_theirs=03026332
d_old=03026430
d_new=03026431

# ---- combine: one change of the row with key 1 of t1, by its kind and its texts

insert_v1=54020100743100120001000000000000000103027631
insert_v2=54020100743100120001000000000000000103027632
insert_v3=54020100743100120001000000000000000103027633
delete_v1=54020100743100090001000000000000000103027631
delete_v2=54020100743100090001000000000000000103027632
delete_v9=54020100743100090001000000000000000103027639
update_v1_v1=540201007431001700010000000000000001030276310003027631
update_v1_v2=540201007431001700010000000000000001030276310003027632
update_v1_v3=540201007431001700010000000000000001030276310003027633
update_v2_v1=540201007431001700010000000000000001030276320003027631
update_v2_v3=540201007431001700010000000000000001030276320003027633
update_v3_v1=540201007431001700010000000000000001030276330003027631
indirect_insert_v1=54020100743100120101000000000000000103027631
indirect_insert_v2=54020100743100120101000000000000000103027632
indirect_delete_v1=54020100743100090101000000000000000103027631
indirect_update_v1_v2=540201007431001701010000000000000001030276310003027632

# The existing change, the new one, and what they are together: each kind with each, also where one of them or both are indirect; and
# three of one key.
each combine << END
$insert_v1\n$insert_v2\n|$insert_v1\n
$insert_v1\n$update_v1_v2\n|$insert_v2\n
$insert_v1\n$delete_v1\n|\n
$update_v1_v2\n$insert_v3\n|$update_v1_v2\n
$update_v1_v2\n$update_v2_v3\n|$update_v1_v3\n
$update_v1_v2\n$update_v2_v1\n|\n
$update_v1_v2\n$update_v3_v1\n|\n
$update_v1_v2\n$delete_v2\n|$delete_v1\n
$update_v1_v2\n$delete_v9\n|$delete_v1\n
$delete_v1\n$insert_v2\n|$update_v1_v2\n
$delete_v1\n$insert_v1\n|\n
$delete_v1\n$update_v1_v2\n|$delete_v1\n
$delete_v1\n$delete_v2\n|$delete_v1\n
$indirect_update_v1_v2\n$update_v2_v3\n|$update_v1_v3\n
$indirect_insert_v1\n$indirect_update_v1_v2\n|$indirect_insert_v2\n
$indirect_insert_v1\n$update_v1_v2\n|$insert_v2\n
$indirect_update_v1_v2\n$insert_v3\n|$update_v1_v2\n
$indirect_delete_v1\n$indirect_insert_v2\n|$indirect_update_v1_v2\n
$insert_v1\n$update_v1_v2\n$delete_v2\n|\n
END

# Between two changes of a row a header without changes, and an UPDATE that changes nothing; and a header where nothing is left.
each combine << END
$insert_v1\n$h1\n$update_v1_v2\n|$insert_v2\n
$insert_v1\n$update_v1_v1\n$update_v1_v2\n|$insert_v2\n
$insert_v1\n$h1\n$delete_v1\n|\n
END

# Lines in both cases, empty lines, a last line without an end, and headers without changes.
each combine << 'END'
|\n
\n|\n
\n\n|\n
54020100743100\n|\n
54020100743100120001000000000000000103027631\n\n|54020100743100120001000000000000000103027631\n
\n54020200743100120001000000000000000103027631|54020100743100120001000000000000000103027631\n
5402010074310017000100000000000000010302763101000000000000000103027632\n|540201007431001700010000000000000001030276310003027632\n
END

# Two tables of one column: they come in the order in which their headers first come, each with its changes in the order of their
# keys' bytes.
a=5401016100
b=5401016200
in=12000100000000000000
out_of=09000100000000000000
each combine << END
${b}${in}02${a}${in}ff\n${a}${in}03${b}${in}01${out_of}02\n|${b}${in}01${a}${in}03${in}ff\n
END

# groups DIGITS CHANGES: a group for each table `tDIGIT`, with these changes.
groups() {
    for digit in $1; do
        printf '54020100743%s00%s' "$digit" "$2"
    done
}

# Two rows of each of ten tables, in two groups between which the other tables' stand, and an UPDATE of one of them, the last table
# first: one group a table. A row that comes twice, in a later group of its table.
digits='0 1 2 3 4 5 6 7 8 9'
one_v1=1200$k1$v1
one_v2=1200$k1$v2
two_v1=1200$k2$v1
two_v2=1200$k2$v2
in_turn="$(groups "$digits" $one_v1)$(groups "$digits" $two_v1)"
turned="$(groups '9 8 7 6 5 4 3 2 1 0' 1700$k1${v1}00$v2)"
expect 0 "$in_turn\n$h1\n$turned\n" "$(groups "$digits" $one_v2$two_v1)\n" '' combine
expect 1 "$h1\n$in_turn$(groups 3 $two_v1)\n$h1\n" '' 'sync: KeyTwice\n' combine

# of_many BEFORE BEHIND: a changeset with a change of each of 80,000 rows, which take more than one piece of memory: what stands
# before the last four bytes of its key, and behind them.
of_many() {
    awk -v header=$h1 -v before="$1" -v behind="$2" 'BEGIN {
        printf "%s", header
        for (key = 0; key < 80000; key++) printf "%s%08x%s", before, key, behind
        print ""
    }'
}

# Many rows that are inserted and then updated are so many INSERTs. (A program that is built without proofs takes a minute.)
seconds=200
{
    of_many 12000100000000 $v1
    echo $h1
    of_many 17000100000000 ${v1}00$v2
} > "$dir/input"
of_many 12000100000000 $v2 > "$dir/output_wanted"
: > "$dir/errors_wanted"
expect_files 0 combine
seconds=20

# ---- the normal form of one changeset, alone and over no blob: by keys, with column bytes of 1; UPDATEs that name their key twice, of
# which one changes nothing; nothing left, and a header behind it; and groups in turn with all of that

while IFS='|' read -r input output; do
    expect 0 "$input\n" "$output\n" '' combine
    expect 0 "$input\n" "$output\n" '' rebase
done << END
54020200743100${two_v2}${one_v1}|${h1}${one_v1}${two_v2}
${h1}1700${k1}${v1}${k1}${v2}1700${k2}${v1}${k2}${v1}|${h1}1700${k1}${v1}00${v2}
${h1}1700${k1}${v1}${k1}${v1}${t2}|
${h1}${two_v2}1700${k3}${v1}${k3}${v1}${t2}1700${k1}${v1}${k1}${v1}${h1}1700${k1}${v1}${k1}${v2}|${h1}1700${k1}${v1}00${v2}${two_v2}
${t2}${one_v1}${h1}${two_v1}${h1}${one_v1}|${t2}${one_v1}${h1}${one_v1}${two_v1}
END

# Tables stand as their headers first came, of all lines; the column bytes are 1 and 0.
each combine << END
${h1}${t2}\n${t2}${one_v1}${h1}${two_v1}${h1}${one_v1}\n|${h1}${one_v1}${two_v1}${t2}${one_v1}\n
${t2}54020001743100\n\n54020200743200${one_v1}54030102007433001200${k1}${v1}${v2}540200097431001200${v1}${k1}\n|${t2}${one_v1}540200017431001200${v1}${k1}54030101007433001200${k1}${v1}${v2}\n
END

# The first NULL in a key, and the first key that comes twice, group by group, also beside an UPDATE that changes nothing.
no_key=1200$null$v1
while IFS='|' read -r input name; do
    expect 1 "$input\n" '' "sync: $name\n" combine
    expect 1 "$input\n" '' "sync: $name\n" rebase
done << END
${h1}${no_key}|NullKey
${h1}${one_v1}${one_v1}|KeyTwice
${h1}${one_v1}${h1}${one_v1}|KeyTwice
${h1}${no_key}${one_v1}${one_v1}|NullKey
${h1}${one_v1}${one_v1}${no_key}|KeyTwice
${h1}${one_v1}${one_v1}54020100743900|KeyTwice
${h1}${one_v1}${t2}${no_key}${h1}${one_v1}|NullKey
${t2}${one_v1}${h1}${one_v1}${one_v1}${t2}${no_key}|KeyTwice
${h1}1700${k1}${v1}${k1}${v1}${one_v1}|KeyTwice
END

# The same by tables that are declared, which a hub has: also a table that it hasn't (1e), and one with other key columns (1f).
pushed() {
    printf '010000000700000000000000010000000000000000%08x%s\\n' $((${#1} / 2)) "$1"
}
while IFS='|' read -r changeset code; do
    expect 0 "$(pushed "$changeset")" "13$code\n" '' hub t1:10 t2:10 t3:11
done << END
54020100743900|1e
54020100743300${one_v1}|1f
${h1}${no_key}|20
${h1}${one_v1}${one_v1}|21
${h1}${one_v1}${h1}${one_v1}|21
${h1}${no_key}${one_v1}${one_v1}|20
${h1}${one_v1}${one_v1}${no_key}|21
${h1}${one_v1}${one_v1}54020100743900|21
54020100743900${h1}${no_key}|1e
54020100743300${one_v1}${h1}${no_key}|1f
${h1}${one_v1}${t2}${no_key}${h1}${one_v1}|20
${t2}${one_v1}${h1}${one_v1}${one_v1}${t2}${no_key}|21
${h1}1700${k1}${v1}${k1}${v1}${one_v1}|21
END

# Headers that are no catalog's: other columns or other key columns under one name, which go before a table without a name.
each_refused combine << END
${h1}54010174320054020101743100|Shape
${h1}5403010000743100|Shape
54010100${h1}54020001743100|Shape
54010174310054010100|BadCatalog
END

# of_tables COUNT: headers of so many tables of one column.
of_tables() {
    awk -v count="$1" 'BEGIN {
        for (table = 1; table <= count; table++) {
            name = "74"
            for (at = 1; at <= length(table ""); at++) name = name "3" substr(table "", at, 1)
            printf "540101%s00", name
        }
    }'
}
expect 0 "$(of_tables 1000)\n" '\n' '' combine
expect 1 "$(of_tables 1001)\n" '' 'sync: BadCatalog\n' combine

# The first line that is refused is told of.
each_refused combine << 'END'
\n54020100743100120001000000000000000102\nzz\n|Real at 18
54020100743100\n540201007431\n|Truncated at 6
540101743100\n54020100743100\n|Shape
END

# ---- rebase: a header of t1 with a column more, and of t3(a, b key)

wide=5403010000743100
h3=54020001743300

# An INSERT over an INSERT that was answered OMIT, of another row and of the same, and REPLACE; an UPDATE over an UPDATE to the same
# value; a DELETE over an UPDATE and over a DELETE; an UPDATE over a DELETE that was answered OMIT, and REPLACE; an indirect UPDATE over
# an UPDATE; an INSERT over a DELETE, and an UPDATE over one of no column, which stay.
each rebase << END
${h1}1200${k1}${v1}\n${h1}1200${k1}${v2}\n|${h1}1700${k1}${v2}00${v1}\n
${h1}1200${k1}${v1}\n${h1}1200${k1}${v1}\n|\n
${h1}1700${k1}${v1}00${v9}\n${h1}1200${k1}${v9}\n|\n
${h1}0900${k1}${v1}\n${h1}1200${k1}${v2}\n|${h1}0900${k1}${v2}\n
${h1}0900${k1}${v1}\n${h1}0900${k1}${v1}\n|\n
${h1}1700${k1}${v1}00${v9}\n${h1}0900${k1}${v1}\n|${h1}1200${k1}${v9}\n
${h1}1700${k1}${v1}00${v9}\n${h1}0901${k1}${v1}\n|\n
${h1}1200${k1}${v1}\n${h1}1201${k1}${v2}\n|\n
${h1}1701${k1}${v1}00${v9}\n${h1}1200${k1}${v2}\n|${h1}1701${k1}${v2}00${v9}\n
${h1}1200${k1}${v1}\n${h1}0900${k1}${v2}\n|${h1}1200${k1}${v1}\n
${h1}1700${k1}${v1}00${v9}\n${h1}1201${k1}00\n|${h1}1700${k1}${v1}00${v9}\n
END

# UPDATEs of t2 over an entry or none.
each rebase << END
${h2}1700${k1}${b_old}000000${b_new}0000\n${h2}1201${k1}${b_theirs}${c_theirs}00\n|\n
${h2}1700${k1}${b_old}00${d_old}00${b_new}00${d_new}\n${h2}1200${k1}${b_theirs}0000\n|${h2}1700${k1}${b_theirs}00${d_old}00${b_new}00${d_new}\n
${h2}1700${k1}0000${d_old}000000${d_new}\n|${h2}1700${k1}0000${d_old}000000${d_new}\n
END

# Entries of another key and of another table; a table in two groups, its entries in no order; a key behind another column; of two
# tables one left; and both left, changed.
each rebase << END
${h1}0900${k1}${v1}\n${h1}0900${k2}${v1}${h2}0900${k1}${v1}${v1}${v1}\n|${h1}0900${k1}${v1}\n
${h1}0900${k1}${v1}0900${k2}${v2}\n${h1}1200${k2}${v9}${h2}${h1}1200${k1}${b_theirs}\n|${h1}0900${k1}${b_theirs}0900${k2}${v9}\n
${h3}0900${v1}${k1}0900${v2}${k2}\n${h3}1200${v9}${k2}1200${b_theirs}${k1}\n|${h3}0900${b_theirs}${k1}0900${v9}${k2}\n
${h1}0900${k1}${v1}${h2}1200${k1}${b_old}${c_theirs}${d_old}\n${h1}0900${k1}${v1}\n|${h2}1200${k1}${b_old}${c_theirs}${d_old}\n
${h1}1200${k1}${v1}0900${k2}${v2}${h2}1700${k1}${b_old}00${d_old}00${b_new}00${d_new}\n${h2}1200${k1}${b_theirs}0000${h1}1200${k2}${v9}1200${k1}${v2}\n|${h1}1700${k1}${v2}00${v1}0900${k2}${v9}${h2}1700${k1}${b_theirs}00${d_old}00${b_new}00${d_new}\n
END

# at_each OPERATION KEY..: a changeset or a blob with so begun a row of each of these keys, in hex, with the text v1.
at_each() {
    operation=$1
    shift
    printf %s $h1
    for key in "$@"; do
        printf '%s01000000000000%s%s' "$operation" "$key" $v1
    done
}

# Nothing is left of a DELETE over that of an entry, and the others stay, wherever the entries stand.
while IFS='|' read -r mine entries left; do
    expect 0 "$(at_each 0900 $mine)\n$(at_each 0900 $entries)\n" "$(at_each 0900 $left)\n" '' rebase
done << 'END'
0001 0002 0003 0004 0005 0006 0007 0008 0009|0001 0003 0005 0007 0009|0002 0004 0006 0008
0001 0002 0003 0004 0005 0006 0007 0008 0009|0008 0002 0006 0004|0001 0003 0005 0007 0009
0001 0009|0002 0003 0004 0005 0006 0007 0008|0001 0009
0001 0008 0009|0001 0002 0003 0004 0005 0006 0007 0008|0009
0004 0014 001e|0009 0008 0007 0006 0005 0004 0003 0002 0001 001e|0014
0005 0006 0007 0008|0001 0002 0003 0004 0009|0005 0006 0007 0008
END

# Lines that aren't there are empty ones.
each rebase << END
|\n
\n\n|\n
${h1}1200${k1}${v1}\n|${h1}1200${k1}${v1}\n
${h1}1200${k1}${v1}\n${h1}\n|${h1}1200${k1}${v1}\n
END

# The first of several refusals: the first line whole, then the second, then both together.
each_refused rebase << END
zz\nzz\n|BadHex
54\nzz\n|Truncated at 1
${h1}\n${h1}17\n|BadOperation at 7
${h1}540101743100\nzz\n|Shape
54010100\nzz\n|BadCatalog
${h1}12000503027631\nzz\n|NullKey
${h1}1200${k1}${v1}1200${k1}${v2}\nzz\n|KeyTwice
${h1}1200${k1}${v1}\n${h1}1200${k1}${v2}1200${k1}${v2}\n|KeyTwice
${h1}1200${k1}${v1}\n${wide}${h1}1200${k1}${v2}1200${k1}${v2}\n|KeyTwice
${h1}1200${k1}${v1}\n${h1}1200${k1}${v2}${h2}${h1}0901${k1}${v1}\n|KeyTwice
${h1}1200${k1}${v1}\n${wide}\n|WrongShape
${h1}1200${k1}${v1}\n${wide}1200${k1}0000\n|WrongShape
END

# ---- show: changesets, and blobs; lines behind the first don't matter

each show changeset << 'END'
|
\n|
54020100743100\n|table t1 10\n
54020200743100120001000000000000000103027631\nzz\n|table t1 10\ninsert 0 1 t=v1\n
540401000000743200170001000000000000000103000500000400030000|table t2 1000\nupdate 0 1 t= null - > - x= t= -\n
END

# Each kind of change, with its flag; UPDATEs that name their key twice, and that define what they don't modify; a table that comes
# again, and one without changes.
each show changeset << END
${h1}1700${k1}${v1}00${v2}|table t1 10\nupdate 0 1 t=v1 > - t=v2\n
${h1}1701${k1}${v1}${k1}${v2}|table t1 10\nupdate 1 1 t=v1 > 1 t=v2\n
${h1}0901${k1}05${h2}${h1}0900${k2}0401ff|table t1 10\ndelete 1 1 null\ntable t2 1000\ntable t1 10\ndelete 0 2 x=ff\n
${h2}1700${k1}${v1}050000000000|table t2 1000\nupdate 0 1 t=v1 null - > - - - -\n
${h1}1200${k1}${v1}0901018000000000000000055404020000007432001700${k1}03000500000400030000|table t1 10\ninsert 0 1 t=v1\ndelete 1 -9223372036854775808 null\ntable t2 1000\nupdate 0 1 t= null - > - x= t= -\n
END

# Values, behind the key 1: integers, texts, blobs, and a blob whose length takes two bytes. What is no plain byte is escaped, also in
# names.
ff128="$(printf '%0256d' 0 | tr 0 f)"
while IFS='|' read -r bytes word; do
    expect 0 "${h1}1200${k1}${bytes}\n" "table t1 10\ninsert 0 1 $word\n" '' show changeset
done << END
010000000000000000|0
01ffffffffffffffff|-1
018000000000000000|-9223372036854775808
017fffffffffffffff|9223372036854775807
05|null
0300|t=
030100|t=%00
0309c3a9e282acf09f9880|t=%C3%A9%E2%82%AC%F0%9F%98%80
0309612062257fc3a97e21|t=a%20b%25%7F%C3%A9~!
0400|x=
0402ff00|x=ff00
040300abff|x=00abff
048100${ff128}|x=${ff128}
END
expect 0 '54020100016e00\n' 'table %01n 10\n' '' show changeset

each show blob << 'END'
|
\nzz\n|
54020100743100\n|table t1 10\n
5404010000007432001201010000000000000001030262320302633200\n|table t2 1000\nchange replace 1 t=b2 t=c2 -\n
54020100743100090001000000000000000103027631\nzz\n|table t1 10\ndelete omit 1 t=v1\n
END

# Each kind of entry with each answer, of several tables; and fields that an entry doesn't define, before a key and behind it.
each show blob << END
${h1}0901${k1}${v1}${h2}1200${k1}${b_theirs}0000|table t1 10\ndelete replace 1 t=v1\ntable t2 1000\nchange omit 1 t=b2 - -\n
${h2}1201${k1}${b_theirs}${c_theirs}001200${k2}00050401ab${h1}0900${k1}0301760901${k2}05540102742500|table t2 1000\nchange replace 1 t=b2 t=c2 -\nchange omit 2 - null x=ab\ntable t1 10\ndelete omit 1 t=v\ndelete replace 2 null\ntable t%25 1\n
5402000174310012000005|table t1 01\nchange omit - null\n
5402000174310012000001fffffffffffffffe|table t1 01\nchange omit - -2\n
${h1}12000402ff0000|table t1 10\nchange omit x=ff00 -\n
${h1}12000305c3a9e282ac030100|table t1 10\nchange omit t=%C3%A9%E2%82%AC t=%00\n
${h1}120003000400|table t1 10\nchange omit t= x=\n
END

# each_front WORD..: of each line of pieces of bytes, each with the text that it adds, each front of the bytes: one that ends with a piece
# is shown by the texts up to there, and any other is Truncated at its end.
each_front() {
    while IFS= read -r pieces; do
        front='' texts='' length=0
        expect 0 '\n' '' '' "$@"
        while [ -n "$pieces" ]; do
            piece=${pieces%%|*}
            pieces=${pieces#*|}
            text=${pieces%%|*}
            pieces=${pieces#"$text"}
            pieces=${pieces#|}
            texts="$texts$text\n"
            while [ -n "$piece" ]; do
                byte=${piece%"${piece#??}"}
                piece=${piece#??}
                front=$front$byte
                length=$((length + 1))
                if [ -z "$piece" ]; then
                    expect 0 "$front\n" "$texts" '' "$@"
                else
                    expect 1 "$front\n" '' "sync: Truncated at $length\n" "$@"
                fi
            done
        done
    done
}

# Each kind of change and each kind of field; several changes of a group, and several groups.
each_front show changeset << END
${h1}|table t1 10|1200${k1}${v1}|insert 0 1 t=v1
${h1}|table t1 10|1700${k1}${v1}00${v2}|update 0 1 t=v1 > - t=v2
${h1}|table t1 10|1700${k1}${v1}${k1}${v2}|update 0 1 t=v1 > 1 t=v2
${h1}|table t1 10|0900${k1}${v1}|delete 0 1 t=v1
${h1}|table t1 10|1200${k1}${v1}|insert 0 1 t=v1|${h1}|table t1 10|0900${k2}${v2}|delete 0 2 t=v2
${h1}|table t1 10|1200${k1}${v1}|insert 0 1 t=v1|1201${k2}05|insert 1 2 null
${h2}|table t2 1000|1700${k1}03000500000400030000|update 0 1 t= null - > - x= t= -
${h2}|table t2 1000|12000100000000000000050302c3a90403ff000705|insert 0 5 t=%C3%A9 x=ff0007 null
END

# Each kind of entry with each answer; several entries, several groups, and groups without entries.
each_front show blob << END
${h1}|table t1 10|1200${k1}${v2}|change omit 1 t=v2
${h2}|table t2 1000|1201${k1}${b_theirs}${c_theirs}00|change replace 1 t=b2 t=c2 -
${h2}|table t2 1000|1200${k1}${b_theirs}0000|change omit 1 t=b2 - -
${h1}|table t1 10|0900${k1}${v1}|delete omit 1 t=v1
${h1}|table t1 10|0901${k1}${v1}|delete replace 1 t=v1
${h1}|table t1 10|1200${k1}${v2}|change omit 1 t=v2|0901${k1}${v1}|delete replace 1 t=v1|${h2}|table t2 1000|1201${k1}000000|change replace 1 - - -
${h1}|table t1 10|${h1}|table t1 10|${h2}|table t2 1000
5401027400|table t 1|120105|change replace null
END

# ---- files: changesets and blobs as their bytes; the input is left unread

# put FILE BYTES: the file holds these bytes, given in hex.
put() {
    printf %b "$(printf %s "$2" | awk '{
        digits = "0123456789abcdef"
        for (at = 1; at < length($0); at += 2) {
            printf "\\0%03o", 16 * (index(digits, substr($0, at, 1)) - 1) + index(digits, substr($0, at + 1, 1)) - 1
        }
    }')" > "$dir/$1"
}

# each_file WORD..: of each line `BYTES|OUTPUT` the program on these words and a file that holds the bytes writes the output.
each_file() {
    while IFS='|' read -r bytes output; do
        put one "$bytes"
        expect 0 'zz\n' "$output" '' "$@" --file "$dir/one"
    done
}

# each_refused_file WORD..: of each line `BYTES|NAME` it writes nothing, and tells the name.
each_refused_file() {
    while IFS='|' read -r bytes name; do
        put one "$bytes"
        expect 1 'zz\n' '' "sync: $name\n" "$@" --file "$dir/one"
    done
}

each_file show changeset << END
|
${h1}|table t1 10\n
${h1}1701${k1}${v1}${k1}${v2}|table t1 10\nupdate 1 1 t=v1 > 1 t=v2\n
${h1}0901${k1}05${h2}${h1}0900${k2}0401ff|table t1 10\ndelete 1 1 null\ntable t2 1000\ntable t1 10\ndelete 0 2 x=ff\n
${h2}1700${k1}03000500000400030000|table t2 1000\nupdate 0 1 t= null - > - x= t= -\n
54010100120005540109610009010554020100743100|table  1\ninsert 0 null\ntable a 1\ndelete 1 null\ntable t1 10\n
END
each_file show blob << END
|
${h2}1201${k1}${b_theirs}${c_theirs}00${h1}0900${k1}${v1}|table t2 1000\nchange replace 1 t=b2 t=c2 -\ntable t1 10\ndelete omit 1 t=v1\n
END
each_file combine << END
|\n
${h1}${two_v2}${one_v1}|${h1}${one_v1}${two_v2}\n
END

# Bytes that are refused, and where: the first fault, also behind whole changes.
insert=1200${k1}${v1}
update=1700${k1}${v1}
each_refused_file show changeset << END
50|Patchset at 0
55|BadMark at 0
54|Truncated at 1
5400|Columns at 1
54ff7f|Columns at 1
548f50|Truncated at 3
548f51|Columns at 1
548001|NotShortest at 1
54020000|NoKeyColumn at 2
54020100ff00|NotUtf8 at 4
${h1}13|BadOperation at 7
${h1}50|Patchset at 7
${h1}1202|BadFlag at 8
${h1}120000|UndefinedHere at 9
${h1}170000|UndefinedHere at 9
${h1}1200${k1}06|BadType at 18
${h1}1200${k1}02|Real at 18
${h1}1200${k1}038002|NotShortest at 19
${h1}1200${k1}0301ff|NotUtf8 at 20
${h1}1200${k1}03ffffffffffffffffff|Truncated at 28
${h1}1700${k1}0000${v2}|UndefinedHere at 20
${h1}${update}${k2}${v2}|KeyChanged at 22
${h1}${update}05${v2}|KeyChanged at 22
${h1}${update}0004030102|Truncated at 27
${h1}${insert}5400|Columns at 23
${h1}${insert}01|BadOperation at 22
${h1}${insert}${h1}1200${k1}02|Real at 40
END
each_refused_file show blob << END
54|Truncated at 1
${h1}17|BadOperation at 7
${h1}1202|BadFlag at 8
END
each_refused_file combine << END
${h1}12000503027631|NullKey
${h1}${one_v1}${one_v1}|KeyTwice
${h1}${insert}01|BadOperation at 22
END

# A changeset that is longer than the buffer through which it is read.
awk -v header=$h1 -v text=$v1 'BEGIN {
    printf "%s", header
    for (key = 0; key < 6000; key++) printf "12000100000000%08x%s", key, text
}' > "$dir/hex"
put one "$(cat "$dir/hex")"
: > "$dir/input"
awk 'BEGIN { print "table t1 10"; for (key = 0; key < 6000; key++) printf "insert 0 %d t=v1\n", key }' > "$dir/output_wanted"
: > "$dir/errors_wanted"
expect_files 0 show changeset --file "$dir/one"

# Several files, as one: in their order, whose first header it is in SQLite's form. The first that is refused is told of.
put one $insert_v1
put two $update_v1_v2
put three 54020200743100120001000000000000000203027631
put cut 5402
expect 0 'zz\n' "$insert_v2\n" '' combine --file "$dir/one" --file "$dir/two"
expect 0 '' "$update_v1_v2\n" '' combine --file "$dir/two" --file "$dir/one"
expect 0 '' "${h1}${one_v1}${two_v1}\n" '' combine --file "$dir/three" --file "$dir/one"
expect 0 '' "54020200743100${two_v1}\n" '' combine --sqlite --file "$dir/three"
expect 1 '' '' 'sync: Truncated at 2\n' combine --file "$dir/one" --file "$dir/cut" --file "$dir/nothing"
expect 1 '' '' 'sync: Read\n' combine --file "$dir/one" --file "$dir/nothing" --file "$dir/cut"

# No file, and a folder.
for what in changeset blob; do
    expect 1 '' '' 'sync: Read\n' show $what --file "$dir/nothing"
    expect 1 '' '' 'sync: Read\n' show $what --file "$dir"
done

# ---- SQLite's form: it writes each key column's place in the PRIMARY KEY as its column byte, and so the tools write what came in
# ("changeset format", table header). Headers of t1 with a key of two columns, in normal form and in the key's two orders; the same
# with a third column; headers of t2.

normal=54020101743100
some_order=54020201743100
other_order=54020102743100
wide_normal=5403010100743100
wide=5403020100743100
wide_other=5403010200743100
two_headers=540101743200540102743200
second=540102743200
second_wider=54020201743200
a=030161
b=030162
x=030178
y=030179
first_row=7431001200030161
last_row=7431001200030162

# Tables whose PRIMARY KEY is (first), (second, first), (third, first) and (second, third, first): the column count and the column
# bytes, those of the normal form, and the columns behind the first.
while read -r came plain columns; do
    input="${came}${last_row}${columns}\n${came}${first_row}${columns}\n"
    rows="${first_row}${columns}1200${b}${columns}\n"
    expect 0 "$input" "${came}$rows" '' combine --sqlite
    expect 0 "$input" "${plain}$rows" '' combine
done << END
54020100 54020100 $x
54020201 54020101 $x
5403020001 5403010001 $x$y
5403030102 5403010101 $x$y
END

# Each table by its own first header, in the order in which these come; a table without changes isn't written.
one=54020201743100
two=54020102743200
three=540102743300
each combine --sqlite << END
${two}${three}1200${a}\n${one}1200${a}${x}${two}1200${a}${x}\n${three}0900${a}${one}1200${b}${x}\n|${two}1200${a}${x}${one}1200${a}${x}1200${b}${x}\n
END

# A header of another table behind which they stand.
each combine --sqlite << END
54020304743300\n${some_order}1200${a}${x}540200017432001200${a}${x}\n|${some_order}1200${a}${x}540200017432001200${a}${x}\n
END

# Two changesets of one table, and headers without changes, with the key's columns in two orders; and what is written of them in
# normal form.
while IFS='|' read -r input plain; do
    expect 1 "$input" '' 'sync: KeyOrder\n' combine --sqlite
    expect 0 "$input" "$plain" '' combine
done << END
${some_order}1200${a}${x}\n${other_order}1200${b}${x}\n|${normal}1200${a}${x}1200${b}${x}\n
${some_order}1200${a}${x}\n${other_order}\n|${normal}1200${a}${x}\n
${other_order}${some_order}1200${a}${x}\n|${normal}1200${a}${x}\n
${some_order}1200${a}${x}\n${some_order}\n${two_headers}\n|${normal}1200${a}${x}\n
${some_order}\n${other_order}\n|\n
END

# A local changeset and a blob with the same column bytes, also where a table that isn't rebased has two shapes; and what is written
# of each, in either form.
while read -r input; do
    expect 0 "$input" "${wide}1700${a}${b}${y}0000${x}\n" '' rebase --sqlite
    expect 0 "$input" "${wide_normal}1700${a}${b}${y}0000${x}\n" '' rebase
done << END
${wide}1200${a}${b}${x}\n${wide}1200${a}${b}${y}\n
${wide}1200${a}${b}${x}\n${second}1200${a}${wide}1200${a}${b}${y}\n
${wide}1200${a}${b}${x}\n${second}${second_wider}${wide}1200${a}${b}${y}\n
END

# The blob alone with other column bytes, also in a table that the local changeset lacks; and what is written in normal form.
while IFS='|' read -r input plain; do
    expect 1 "$input" '' 'sync: KeyOrder\n' rebase --sqlite
    expect 0 "$input" "$plain" '' rebase
done << END
${wide}1200${a}${b}${x}\n${wide_other}1200${a}${b}${y}\n|${wide_normal}1700${a}${b}${y}0000${x}\n
${wide}1200${a}${b}${x}\n${wide_other}\n|${wide_normal}1200${a}${b}${x}\n
\n${second}1200${a}540101743200\n|\n
END

# A table beside the one whose header the blob has.
each rebase --sqlite << END
${some_order}1200${a}${x}${t2}1200${a}${x}\n${some_order}\n|${some_order}1200${a}${x}${t2}1200${a}${x}\n
END
each_refused rebase --sqlite << END
${some_order}1200${a}${x}${t2}1200${a}${x}\n${other_order}\n|KeyOrder
END

# The headers of a blob: orders of two tables; one that comes again; with other columns or other key columns between, which are of no
# table with that order.
each rebase --sqlite << END
\n${other_order}54020201743200\n|\n
\n${some_order}54020102743200${some_order}\n|\n
\n540101743100${h1}\n|\n
\n${h1}54020001743100\n|\n
END
each_refused rebase --sqlite << END
\n${other_order}${some_order}\n|KeyOrder
\n54020102743200${other_order}${some_order}\n|KeyOrder
\n${other_order}${h1}${some_order}\n|KeyOrder
\n${other_order}54020200743100${some_order}\n|KeyOrder
END

# What is refused without the option is told first.
each_refused combine --sqlite << END
${some_order}\n${other_order}\nzz\n|BadHex
${some_order}\n${other_order}\n${wide}\n|Shape
${some_order}\n${other_order}1200${a}${x}1200${a}${x}\n|KeyTwice
${some_order}\n${other_order}1200${a}${x}\n|KeyOrder
END

each_refused rebase --sqlite << END
${some_order}${other_order}1200${a}${x}\nzz\n|BadHex
${some_order}1200${a}${x}\n${other_order}1200${a}${x}1200${a}${x}\n|KeyTwice
${some_order}${other_order}1200${a}${x}\n${wide}\n|WrongShape
${some_order}${other_order}1200${a}${x}\n\n|KeyOrder
END

# Nothing in, nothing out.
for tool in combine rebase; do
    expect 0 '' '\n' '' $tool --sqlite
    expect 0 '\n\n' '\n' '' $tool --sqlite
done

# ---- each text that a tool can tell of an input, with its offset (docs/FORMATS.md)

faults="zz|BadHex
5|BadHex
54|Truncated at 1
${h1}1200${k1}038002|NotShortest at 19
${h1}1200${k1}06|BadType at 18
${h1}1200${k1}02|Real at 18
54020100ff00|NotUtf8 at 4
50|Patchset at 0
55|BadMark at 0
${h1}13|BadOperation at 7
${h1}1202|BadFlag at 8
5400|Columns at 1
54020000|NoKeyColumn at 2
${h1}120000|UndefinedHere at 9
${h1}1700${k1}000003027632|UndefinedHere at 20
${h1}1700${k1}0302763101000000000000000203027632|KeyChanged at 22
$(printf '%0128d' 0 | tr 0 f)|BadMark at 0
54ff7f|Columns at 1
548f51|Columns at 1
548f50|Truncated at 3
548001|NotShortest at 1
54020100ff|Truncated at 5
${h1}50|Patchset at 7
${h1}090000|UndefinedHere at 9
${h1}170000|UndefinedHere at 9
${h1}1200${k1}0301ff|NotUtf8 at 20
${h1}1200${k1}03ffffffffffffffffff|Truncated at 28
${h1}1200${k1}038100${ff128}|NotUtf8 at 21
${h1}1200${k1}${v1}${h1}1200${k1}02|Real at 40
${h1}1200${k1}${v1}5400|Columns at 23
${h1}1200${k1}${v1}01|BadOperation at 22"

# Those of two fields, which stand behind nine bytes.
fields='|Truncated at 9
05030276|Truncated at 13
0503|Truncated at 11
050480|Truncated at 12
050100|Truncated at 12
0100000000000000|Truncated at 17
038001|NotShortest at 10
04800107|NotShortest at 10
05038001|NotShortest at 11
0506|BadType at 10
ff|BadType at 9
0502|Real at 10
0206|Real at 9
050301ff|NotUtf8 at 12
030261c306|NotUtf8 at 11'
while IFS='|' read -r bytes name; do
    expect 1 "${h1}1200${bytes}\n" '' "sync: $name\n" show changeset
    expect 1 "${h1}1201${bytes}\n" '' "sync: $name\n" show blob
done << END
$fields
END
each_refused combine << END
$faults
END
each_refused show changeset << END
$faults
END

# Those of a rebase blob are told as those of a changeset: an UPDATE's byte begins no entry.
each_refused show blob << END
zz|BadHex
${h1}17|BadOperation at 7
${h1}1202|BadFlag at 8
50|Patchset at 0
${h1}1200${k1}03|Truncated at 19
${h1}0900${k1}00|UndefinedHere at 18
${h1}120000|UndefinedHere at 9
55|BadMark at 0
1200|BadMark at 0
5400|Columns at 1
54020000|NoKeyColumn at 2
${h1}50|Patchset at 7
${h1}09ff|BadFlag at 8
${h1}1200${k1}06|BadType at 18
${h1}0900${k1}02|Real at 18
${h1}1201${k1}038002|NotShortest at 19
${h1}1201${k1}0301ff|NotUtf8 at 20
${h1}0900${k1}${v1}5400|Columns at 23
${h1}0900${k1}${v1}${h1}1207|BadFlag at 30
END

# Those of changesets that were read.
each_refused combine << END
${h1}\n54020001743100\n|Shape
54010100\n|BadCatalog
${h1}12000503027631\n|NullKey
${h1}1200${k1}030276311200${k1}03027632\n|KeyTwice
END

[ "$failed" -eq 0 ] || exit 1
echo "tools: $runs runs, each with its status, output and errors"
