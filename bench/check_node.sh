#!/usr/bin/env bash
# Runs the built program `sync` as a replica on a file, `node FILE ID TABLE..`, each case on a file of its own, and compares what is printed
# with what it has to be: edits, and what is pending then; another's entries over own edits, one by one and as one changeset, with a push
# under way and without; entries that give a table more columns, and the tables by which such a file is opened; answers of the hub; entries
# that aren't taken; lines that are refused or can't be read; and files whose values were changed by the `sqlite3` shell, where that can be
# had. The same of a replica that answers each line as it comes, `node --follow FILE ID TABLE..`: its lines, clashes that are seen before
# they are decided, and pipes on which it has to answer each line before the next one is written.
# Usage: bench/check_node.sh PROGRAM
set -u
bench="$(cd "$(dirname "$0")" && pwd)"
program="$(readlink -f "${1:?usage: bench/check_node.sh PROGRAM}")"
. "$bench/common.sh"
. "$bench/running.sh"

# ---- what the cases are made of

# The headers of t1(a key, b) and t2(a key, b, c, d); the first bytes of changes; integers, texts and an undefined field.
H1=54020100743100
H2=540401000000743200
I=1200
U=1700
D=0900
K1=010000000000000001
K2=010000000000000002
K3=010000000000000003
V1=03027631
V2=03027632
V9=03027639
N=00

# push NUMBER BASE CHANGESET: the push of replica 7 with this number, on this version.
push() {
    printf '0100000007%016x%016x%08x%s' "$1" "$2" "$((${#3} / 2))" "$3"
}

# entry ORIGIN NUMBER CHANGESET: an entry of an answer.
entry() {
    printf '00%08x%016x%08x%s' "$1" "$2" "$((${#3} / 2))" "$3"
}

# wider NUMBER WIDTH TABLE: an entry that gives a table, its name in hex, so many columns. wider_by ORIGIN NUMBER WIDTH TABLE: the same of
# another origin.
wider() {
    wider_by 4294967295 "$@"
}

wider_by() {
    printf '01%08x%016x%08x%08x%s' "$1" "$2" "$((4 + ${#4} / 2))" "$3" "$4"
}

# from FIRST COUNT: the beginning of an answer of so many entries from a version on.
from() {
    printf '14%016x%08x' "$1" "$2"
}

# others VERSION CHANGESET: the answer of one entry behind this version, push 1 of replica 9.
others() {
    printf '%s%s' "$(from "$1" 1)" "$(entry 9 1 "$2")"
}

# merged FIRST NEXT CHANGESET: the answer to replica 7's catch: what the entries from one version to another do together.
merged() {
    merged_for 7 "$@"
}

# merged_for ORIGIN FIRST NEXT CHANGESET: the same of another replica's.
merged_for() {
    printf '15%08x%016x%016x%08x%s' "$1" "$2" "$3" "$((${#4} / 2))" "$4"
}

# accepted ORIGIN NUMBER VERSION: the answer that a push was taken.
accepted() {
    printf '11%08x%016x%016x' "$1" "$2" "$3"
}

# say LINE TEXT..: a line more, and the lines that are printed of it.
say() {
    input="$input$1\n"
    shift
    output="$output$(printf '%s\\n' "$@")"
}

# edit_all EDITS: edits, with `;` between them.
edit_all() {
    local IFS=';' edit
    for edit in $1; do
        say "edit $edit" ok
    done
}

# say_dump PLACE ROWS: replica 7 stands there, and has these rows, with `;` between them.
say_dump() {
    local IFS=';' row
    say dump "replica 7 $1"
    for row in $2; do
        output="${output}row $row\n"
    done
}

# begins: a file is made anew, and nothing is said.
begins() {
    rm -f "$file" "$file-wal" "$file-shm"
    input=''
    output=''
}

# goes: what was said is a run of replica 7, and then nothing is said any more.
goes() {
    expect 0 "$input" "$output" '' node "$file" 7 $tables
    input=''
    output=''
}

file="$dir/file"
tables='t1:10 t2:1000'

# ---- what a case leaves
#
# leaves BASE FLOWN PUSHED EDITS ANSWER WISHES TOLD PLACE ROWS PENDING: what the log's rows are made by, or nothing; edits that are pushed,
# if there are any, and the changeset that is; edits that are made then; an answer, the wishes at the clashes of its entries and what is
# told of it; and where the replica stands then, its rows and what is pending. Where an entry is to be taken, the picker is first told to
# stop at the last of the clashes: so many come, and nothing changes. Behind the wishes stands a stop, so that no more of them come.
# A second run reads the file again, and sends what is under way and what is pending.
leaves() {
    local base="$1" flown="$2" pushed="$3" edits="$4" answer="$5" wishes="$6" told="$7" place="$8" rows="$9" pending="${10}" number=1 version at=0
    begins
    if [ -n "$base" ]; then
        say "answer $(others 0 "$base") s" 'taken 1 version 1'
        at=1
    fi
    if [ -n "$flown" ]; then
        edit_all "$flown"
        say push "$(push 1 "$at" "$pushed")"
        number=2
    fi
    edit_all "$edits"
    if [ -n "$wishes" ] && [ "${told#taken 1 }" != "$told" ]; then
        say "answer $answer ${wishes%?}s" "stopped 0 version $at"
    fi
    say "answer $answer ${wishes}s" "$told"
    say_dump "$place" "$rows"
    goes
    say_dump "$place" "$rows"
    version="${place#version }"
    version="${version%% *}"
    if [ "${place##* }" -eq 0 ]; then
        say resend 'refused Nothing'
    else
        say resend "$(push 1 "$at" "$pushed")"
        version=$((version + 1))
        say "answer $(accepted 7 1 "$version") -" "accepted $version"
    fi
    if [ -n "$pending" ]; then
        say push "$(push "$number" "$version" "$pending")"
    else
        say push 'refused Nothing'
    fi
    goes
}

# leave: the cases of a table, with `|` between what `leaves` wants.
leave() {
    while IFS='|' read -r base flown pushed edits answer wishes told place rows pending; do
        leaves "$base" "$flown" "$pushed" "$edits" "$answer" "$wishes" "$told" "$place" "$rows" "$pending"
    done
}

# ---- another's entry over own edits: the three-way merge of each place
# base | flown | pushed | edits | answer | wishes | told | place | rows | pending

# The columns of t2, and the row that its cases begin with.
B0=03026230
B1=03026231
B2=03026232
C0=03026330
C2=03026332
D0=03026430
D1=03026431
row0=$H2$I$K1$B0$C0$D0

# Both insert a row: the own one is kept, the other's is taken, and both are one.
leave << END
|||insert t1 1 t=v1|$(others 0 $H1$I$K1$V2)|k|taken 1 version 1|version 1 pending 1 flight 0|t1 1 t=v1|$H1$U$K1$V2$N$V1
|||insert t1 1 t=v1|$(others 0 $H1$I$K1$V2)|t|taken 1 version 1|version 1 pending 0 flight 0|t1 1 t=v2|
|||insert t1 1 t=v1|$(others 0 $H1$I$K1$V1)|k|taken 1 version 1|version 1 pending 0 flight 0|t1 1 t=v1|
END

# Both change the columns of a row: an own UPDATE that doesn't cover the other's goes whatever the wish is; one that does is kept or loses
# the other's columns; other columns don't clash; and both set one value.
leave << END
$row0|||update t2 1 t=b1 - -|$(others 1 $H2$U$K1$B0$C0$N$N$B2$C2$N)|k|taken 1 version 2|version 2 pending 0 flight 0|t2 1 t=b2 t=c2 t=d0|
$row0|||update t2 1 t=b1 - t=d1|$(others 1 $H2$U$K1$B0$N$N$N$B2$N$N)|k|taken 1 version 2|version 2 pending 1 flight 0|t2 1 t=b1 t=c0 t=d1|$H2$U$K1$B2$N$D0$N$B1$N$D1
$row0|||update t2 1 t=b1 - t=d1|$(others 1 $H2$U$K1$B0$N$N$N$B2$N$N)|t|taken 1 version 2|version 2 pending 1 flight 0|t2 1 t=b2 t=c0 t=d1|$H2$U$K1$N$N$D0$N$N$N$D1
$row0|||update t2 1 - - t=d1|$(others 1 $H2$U$K1$B0$N$N$N$B2$N$N)||taken 1 version 2|version 2 pending 1 flight 0|t2 1 t=b2 t=c0 t=d1|$H2$U$K1$N$N$D0$N$N$N$D1
$H1$I$K1$V1|||update t1 1 t=v9|$(others 1 $H1$U$K1$V1$N$V9)|k|taken 1 version 2|version 2 pending 0 flight 0|t1 1 t=v9|
END

# A side takes the row away, or both do; the own row comes again or goes; and another row goes.
leave << END
$H1$I$K1$V1|||delete t1 1|$(others 1 $H1$U$K1$V1$N$V2)|t|taken 1 version 2|version 2 pending 1 flight 0||$H1$D$K1$V2
$H1$I$K1$V1|||delete t1 1|$(others 1 $H1$D$K1$V1)|t|taken 1 version 2|version 2 pending 0 flight 0||
$H1$I$K1$V1|||update t1 1 t=v9|$(others 1 $H1$D$K1$V1)|k|taken 1 version 2|version 2 pending 1 flight 0|t1 1 t=v9|$H1$I$K1$V9
$H1$I$K1$V1|||update t1 1 t=v9|$(others 1 $H1$D$K1$V1)|t|taken 1 version 2|version 2 pending 0 flight 0||
$H1$I$K1$V1$I$K2$V1|||update t1 1 t=v9|$(others 1 $H1$D$K2$V1)||taken 1 version 2|version 2 pending 1 flight 0|t1 1 t=v9|$H1$U$K1$V1$N$V9
END

# Three rows that both insert: the stop at the third changes nothing, also of the first two.
A=030161
B=030162
C=030163
X=030178
Y=030179
Z=03017a
three='insert t1 1 t=x;insert t1 2 t=y;insert t1 3 t=z'
leave << END
|||$three|$(others 0 $H1$I$K1$A$I$K2$B$I$K3$C)|kt|stopped 0 version 0|version 0 pending 3 flight 0|t1 1 t=x;t1 2 t=y;t1 3 t=z|$H1$I$K1$X$I$K2$Y$I$K3$Z
|||$three|$(others 0 $H1$I$K1$A$I$K2$B$I$K3$C)|ktk|taken 1 version 1|version 1 pending 2 flight 0|t1 1 t=x;t1 2 t=b;t1 3 t=z|$H1$U$K1$A$N$X$U$K3$C$N$Z
END

# ---- entries that come while a push is under way

# Push 1 comes back: nobody is asked, it is confirmed, and edits that were made behind it stay.
leave << END
|insert t1 1 t=v1|$H1$I$K1$V1||$(from 0 1)$(entry 7 1 $H1$I$K1$V1)||taken 1 version 1|version 1 pending 0 flight 0|t1 1 t=v1|
$H1$I$K1$V1|update t1 1 t=v2|$H1$U$K1$V1$N$V2|update t1 1 t=v9;insert t1 3 t=v1|$(from 1 1)$(entry 7 1 $H1$U$K1$V1$N$V2)||taken 1 version 2|version 2 pending 2 flight 0|t1 1 t=v9;t1 3 t=v1|$H1$U$K1$V2$N$V9$I$K3$V1
END

# What isn't push 1 is merged: another origin, a later number, an earlier one, other changes.
leave << END
|insert t1 1 t=v1|$H1$I$K1$V1||$(from 0 1)$(entry 8 1 $H1$I$K1$V1)|k|taken 1 version 1|version 1 pending 0 flight 0|t1 1 t=v1|
|insert t1 1 t=v1|$H1$I$K1$V1||$(from 0 1)$(entry 7 2 $H1$I$K1$V1)|k|taken 1 version 1|version 1 pending 0 flight 0|t1 1 t=v1|
|insert t1 1 t=v1|$H1$I$K1$V1||$(from 0 1)$(entry 7 0 $H1$I$K1$V1)|k|taken 1 version 1|version 1 pending 0 flight 0|t1 1 t=v1|
|insert t1 1 t=v1|$H1$I$K1$V1||$(from 0 1)$(entry 7 1 $H1$I$K1$V2)|k|taken 1 version 1|version 1 pending 1 flight 0|t1 1 t=v1|$H1$U$K1$V2$N$V1
END

# Another's entry: what was under way is pending again, with the edits that were made behind it, which may take it back.
leave << END
|insert t1 1 t=v1|$H1$I$K1$V1|update t1 1 t=v9|$(others 0 $H1$I$K2$V2)||taken 1 version 1|version 1 pending 1 flight 0|t1 1 t=v9;t1 2 t=v2|$H1$I$K1$V9
|insert t1 1 t=v1|$H1$I$K1$V1|delete t1 1|$(others 0 $H1$I$K2$V2)||taken 1 version 1|version 1 pending 0 flight 0|t1 2 t=v2|
$H1$I$K1$V1|update t1 1 t=v9|$H1$U$K1$V1$N$V9|update t1 1 t=v1|$(others 1 $H1$I$K2$V2)||taken 1 version 2|version 2 pending 0 flight 0|t1 1 t=v1;t1 2 t=v2|
|insert t1 1 t=v1|$H1$I$K1$V1|insert t1 3 t=v9|$(others 0 $H1$I$K1$V2)|k|taken 1 version 1|version 1 pending 2 flight 0|t1 1 t=v1;t1 3 t=v9|$H1$U$K1$V2$N$V1$I$K3$V9
|insert t1 1 t=v1|$H1$I$K1$V1|insert t1 3 t=v9|$(others 0 $H1$I$K1$V2)|t|taken 1 version 1|version 1 pending 1 flight 0|t1 1 t=v2;t1 3 t=v9|$H1$I$K3$V9
$H1$I$K1$V1|delete t1 1|$H1$D$K1$V1|insert t1 1 t=v9|$(others 1 $H1$U$K1$V1$N$V2)|k|taken 1 version 2|version 2 pending 1 flight 0|t1 1 t=v9|$H1$U$K1$V2$N$V9
END

# A stop leaves the push as it was made, and the edit behind it.
leave << END
|insert t1 1 t=v1|$H1$I$K1$V1|update t1 1 t=v9|$(others 0 $H1$I$K1$V2)||stopped 0 version 0|version 0 pending 1 flight 1|t1 1 t=v9|$H1$U$K1$V1$N$V9
END

# ---- answers of several entries

OTHERS="$(entry 9 1 $H1$I$K1$V1)$(entry 9 1 $H1$I$K2$V2)"
# Both are taken; those before the version are passed over, whatever they hold; those behind it aren't taken; no entry; the second can't be
# read; the second isn't defined; a table that isn't there; a NULL as the key; the first is taken and the second stopped at; and the own
# entry before another's.
leave << END
||||$(from 0 2)$OTHERS||taken 2 version 2|version 2 pending 0 flight 0|t1 1 t=v1;t1 2 t=v2|
$H1$I$K1$V1||||$(from 0 2)$(entry 9 1 50)$(entry 9 1 $H1$I$K2$V2)||taken 1 version 2|version 2 pending 0 flight 0|t1 1 t=v1;t1 2 t=v2|
||||$(from 1 2)$OTHERS||taken 0 version 0|version 0 pending 0 flight 0||
||||$(from 0 0)||taken 0 version 0|version 0 pending 0 flight 0||
||||$(from 0 2)$(entry 9 1 $H1$I$K1$V1)$(entry 9 1 50)||fault BadEntry after 1|version 1 pending 0 flight 0|t1 1 t=v1|
||||$(from 0 2)$(entry 9 1 $H1$I$K1$V1)$(entry 9 1 $H1$D$K1$V9)||fault BadEntry after 1|version 1 pending 0 flight 0|t1 1 t=v1|
|||insert t1 1 t=v1|$(others 0 54020100743900$I$K1$V1)||fault BadEntry after 0|version 0 pending 1 flight 0|t1 1 t=v1|$H1$I$K1$V1
|||insert t1 1 t=v1|$(others 0 $H1${I}05$V1)||fault BadEntry after 0|version 0 pending 1 flight 0|t1 1 t=v1|$H1$I$K1$V1
|||insert t1 1 t=v1;insert t1 2 t=v1|$(from 0 2)$(entry 9 1 $H1$I$K1$V2)$(entry 9 1 $H1$I$K2$V2)|t|stopped 1 version 1|version 1 pending 1 flight 0|t1 1 t=v2;t1 2 t=v1|$H1$I$K2$V1
|insert t1 1 t=v1|$H1$I$K1$V1||$(from 0 2)$(entry 7 1 $H1$I$K1$V1)$(entry 9 1 $H1$I$K2$V2)||taken 2 version 2|version 2 pending 0 flight 0|t1 1 t=v1;t1 2 t=v2|
END

# Entries that aren't defined on the log's rows, whatever the own rows are: the DELETE and the UPDATE of a row that is the own one alone; an
# INSERT of a row that is there, behind one that clashes; an UPDATE and a DELETE of another row than stands there. Nobody is asked.
leave << END
|||insert t1 1 t=v1|$(others 0 $H1$D$K1$V1)||fault BadEntry after 0|version 0 pending 1 flight 0|t1 1 t=v1|$H1$I$K1$V1
|||insert t1 1 t=v1|$(others 0 $H1$U$K1$V1$N$V2)||fault BadEntry after 0|version 0 pending 1 flight 0|t1 1 t=v1|$H1$I$K1$V1
$H1$I$K2$V2|||insert t1 1 t=v1|$(others 1 $H1$I$K1$V2$I$K2$V2)||fault BadEntry after 0|version 1 pending 1 flight 0|t1 1 t=v1;t1 2 t=v2|$H1$I$K1$V1
$H1$I$K2$V2|||insert t1 1 t=v1|$(others 1 $H1$U$K2$V1$N$V9)||fault BadEntry after 0|version 1 pending 1 flight 0|t1 1 t=v1;t1 2 t=v2|$H1$I$K1$V1
$H1$I$K2$V2|||insert t1 1 t=v1;update t1 2 t=v9|$(others 1 $H1$D$K2$V9)||fault BadEntry after 0|version 1 pending 2 flight 0|t1 1 t=v1;t1 2 t=v9|$H1$I$K1$V1$U$K2$V2$N$V9
END

# ---- what entries do together, told at once: they are taken in one merge

# Two entries are taken; what they do together is nothing, with an own edit of such a row and without; a clash is asked about once, kept and
# taken; the stop at the third of three changes nothing; and a row that was changed and changed back meets no clash.
leave << END
||||$(merged 0 2 $H1$I$K1$V2)||taken 2 version 2|version 2 pending 0 flight 0|t1 1 t=v2|
||||$(merged 0 2 '')||taken 2 version 2|version 2 pending 0 flight 0||
|||insert t1 1 t=v1|$(merged 0 2 '')||taken 2 version 2|version 2 pending 1 flight 0|t1 1 t=v1|$H1$I$K1$V1
|||insert t1 1 t=v1|$(merged 0 2 $H1$I$K1$V2)|k|taken 2 version 2|version 2 pending 1 flight 0|t1 1 t=v1|$H1$U$K1$V2$N$V1
|||insert t1 1 t=v1|$(merged 0 2 $H1$I$K1$V2)|t|taken 2 version 2|version 2 pending 0 flight 0|t1 1 t=v2|
|||insert t1 1 t=v1|$(merged 0 1 $H1$I$K1$V2)|k|taken 1 version 1|version 1 pending 1 flight 0|t1 1 t=v1|$H1$U$K1$V2$N$V1
|||$three|$(merged 0 2 $H1$I$K1$A$I$K2$B$I$K3$C)|kt|stopped 0 version 0|version 0 pending 3 flight 0|t1 1 t=x;t1 2 t=y;t1 3 t=z|$H1$I$K1$X$I$K2$Y$I$K3$Z
|||$three|$(merged 0 4096 $H1$I$K1$A$I$K2$B$I$K3$C)|ktk|taken 4096 version 4096|version 4096 pending 2 flight 0|t1 1 t=x;t1 2 t=b;t1 3 t=z|$H1$U$K1$A$N$X$U$K3$C$N$Z
$H1$I$K1$V1|||update t1 1 t=v9|$(merged 1 3 '')||taken 2 version 3|version 3 pending 1 flight 0|t1 1 t=v9|$H1$U$K1$V1$N$V9
$H1$I$K1$V1|||update t1 1 t=v9|$(merged 1 3 $H1$U$K1$V1$N$V9)|k|taken 2 version 3|version 3 pending 0 flight 0|t1 1 t=v9|
$row0|||update t2 1 t=b1 - t=d1|$(merged 1 4 $H1$I$K1$V1$H2$U$K1$B0$N$N$N$B2$N$N)|t|taken 3 version 4|version 4 pending 1 flight 0|t1 1 t=v1;t2 1 t=b2 t=c0 t=d1|$H2$U$K1$N$N$D0$N$N$N$D1
END

# No entry is told: nothing changes, whatever the bytes hold, also with a push under way. What was asked at another version, or by another
# replica, is passed over, whatever else it says.
leave << END
||||$(merged 0 0 '')||taken 0 version 0|version 0 pending 0 flight 0||
$H1$I$K1$V1|||update t1 1 t=v9|$(merged 1 1 50)||taken 0 version 1|version 1 pending 1 flight 0|t1 1 t=v9|$H1$U$K1$V1$N$V9
|insert t1 1 t=v1|$H1$I$K1$V1||$(merged 0 0 '')||taken 0 version 0|version 0 pending 0 flight 1|t1 1 t=v1|
$H1$I$K1$V1||||$(merged 0 2 $H1$I$K2$V2)||ignored|version 1 pending 0 flight 0|t1 1 t=v1|
||||$(merged 1 2 $H1$I$K2$V2)||ignored|version 0 pending 0 flight 0||
||||$(merged 2 1 50)||ignored|version 0 pending 0 flight 0||
||||$(merged_for 8 0 2 $H1$I$K1$V2)||ignored|version 0 pending 0 flight 0||
|insert t1 1 t=v1|$H1$I$K1$V1||$(merged_for 8 0 2 $H1$I$K2$V2)||ignored|version 0 pending 0 flight 1|t1 1 t=v1|
END

# What can't be taken: entries that end before they begin; bytes that are no changeset; a table that isn't there; a NULL as the key; and
# what isn't defined on the log's rows, whatever the own rows are.
leave << END
$H1$I$K1$V1||||$(merged 1 0 '')||fault BadEntry after 0|version 1 pending 0 flight 0|t1 1 t=v1|
||||$(merged 0 2 50)||fault BadEntry after 0|version 0 pending 0 flight 0||
|||insert t1 1 t=v1|$(merged 0 2 54020100743900$I$K1$V1)||fault BadEntry after 0|version 0 pending 1 flight 0|t1 1 t=v1|$H1$I$K1$V1
|||insert t1 1 t=v1|$(merged 0 2 $H1${I}05$V1)||fault BadEntry after 0|version 0 pending 1 flight 0|t1 1 t=v1|$H1$I$K1$V1
|||insert t1 1 t=v1|$(merged 0 2 $H1$D$K1$V1)||fault BadEntry after 0|version 0 pending 1 flight 0|t1 1 t=v1|$H1$I$K1$V1
$H1$I$K2$V2|||insert t1 1 t=v1|$(merged 1 3 $H1$I$K1$V2$I$K2$V2)||fault BadEntry after 0|version 1 pending 1 flight 0|t1 1 t=v1;t1 2 t=v2|$H1$I$K1$V1
END

# With a push under way, behind which an edit was made: it is pending again, and the next push carries both; a stop leaves all as it was.
# Where they do what the push does, they are merged like any others: an own entry is told by itself.
leave << END
|insert t1 1 t=v1|$H1$I$K1$V1|update t1 1 t=v9|$(merged 0 2 $H1$I$K2$V2)||taken 2 version 2|version 2 pending 1 flight 0|t1 1 t=v9;t1 2 t=v2|$H1$I$K1$V9
|insert t1 1 t=v1|$H1$I$K1$V1|insert t1 3 t=v9|$(merged 0 2 $H1$I$K1$V2)|k|taken 2 version 2|version 2 pending 2 flight 0|t1 1 t=v1;t1 3 t=v9|$H1$U$K1$V2$N$V1$I$K3$V9
|insert t1 1 t=v1|$H1$I$K1$V1|delete t1 1|$(merged 0 2 '')||taken 2 version 2|version 2 pending 0 flight 0||
|insert t1 1 t=v1|$H1$I$K1$V1|update t1 1 t=v9|$(merged 0 2 $H1$I$K1$V2)||stopped 0 version 0|version 0 pending 1 flight 1|t1 1 t=v9|$H1$U$K1$V1$N$V9
|insert t1 1 t=v1|$H1$I$K1$V1||$(merged 0 1 $H1$I$K1$V1)|k|taken 1 version 1|version 1 pending 0 flight 0|t1 1 t=v1|
END

# What is asked goes from the version on, and the same answer again is passed over.
begins
say 'catch 10' 030000000700000000000000000000000a
say "answer $(merged 0 2 $H1$I$K1$V2) -" 'taken 2 version 2'
say "answer $(merged 0 2 $H1$I$K1$V2) -" ignored
say 'catch 4294967295' 03000000070000000000000002ffffffff
say "answer $(from 2 1)$(entry 9 3 $H1$I$K2$V2) -" 'taken 1 version 3'
say 'catch 0' 0300000007000000000000000300000000
say "answer $(merged 3 3 '') -" 'taken 0 version 3'
say_dump 'version 3 pending 0 flight 0' 't1 1 t=v2;t1 2 t=v2'
goes
say 'catch 1' 0300000007000000000000000300000001
goes

# ---- entries that give a table more columns

# t1 with three columns and with five, and t2 with six.
T1=7431
T2=7432
W1=5403010000743100
W5=54050100000000743100
W2=5406010000000000743200

# What is pending, and what is under way, has the new columns: nothing; a row; an INSERT, an UPDATE and a DELETE that are pending.
leave << END
||||$(from 0 1)$(wider 1 3 $T1)||taken 1 version 1|version 1 pending 0 flight 0||
$H1$I$K1$V1||||$(from 1 1)$(wider 1 3 $T1)||taken 1 version 2|version 2 pending 0 flight 0|t1 1 t=v1 null|
|||insert t1 1 t=v1|$(from 0 1)$(wider 1 3 $T1)||taken 1 version 1|version 1 pending 1 flight 0|t1 1 t=v1 null|$W1$I$K1${V1}05
$H1$I$K1$V1|||update t1 1 t=v2|$(from 1 1)$(wider 1 3 $T1)||taken 1 version 2|version 2 pending 1 flight 0|t1 1 t=v2 null|$W1$U$K1$V1$N$N$V2$N
$H1$I$K1$V1|||delete t1 1|$(from 1 1)$(wider 1 3 $T1)||taken 1 version 2|version 2 pending 1 flight 0||$W1$D$K1${V1}05
END

# Under way: an INSERT, with an UPDATE and another INSERT behind it, and taken back; a DELETE, and with an INSERT behind it; an UPDATE, and
# taken back; and what is of another table.
leave << END
|insert t1 1 t=v1|$H1$I$K1$V1||$(from 0 1)$(wider 1 3 $T1)||taken 1 version 1|version 1 pending 1 flight 0|t1 1 t=v1 null|$W1$I$K1${V1}05
|insert t1 1 t=v1|$H1$I$K1$V1|update t1 1 t=v2;insert t1 2 t=x|$(from 0 1)$(wider 1 3 $T1)||taken 1 version 1|version 1 pending 2 flight 0|t1 1 t=v2 null;t1 2 t=x null|$W1$I$K1${V2}05$I$K2${X}05
|insert t1 1 t=v1|$H1$I$K1$V1|delete t1 1|$(from 0 1)$(wider 1 3 $T1)||taken 1 version 1|version 1 pending 0 flight 0||
$H1$I$K1$V1|delete t1 1|$H1$D$K1$V1||$(from 1 1)$(wider 1 3 $T1)||taken 1 version 2|version 2 pending 1 flight 0||$W1$D$K1${V1}05
$H1$I$K1$V1|delete t1 1|$H1$D$K1$V1|insert t1 1 t=v9|$(from 1 1)$(wider 1 3 $T1)||taken 1 version 2|version 2 pending 1 flight 0|t1 1 t=v9 null|$W1$U$K1$V1$N$N$V9$N
$H1$I$K1$V1|delete t1 1|$H1$D$K1$V1|insert t1 1 t=v1|$(from 1 1)$(wider 1 3 $T1)||taken 1 version 2|version 2 pending 0 flight 0|t1 1 t=v1 null|
$H1$I$K1$V1|update t1 1 t=v2|$H1$U$K1$V1$N$V2||$(from 1 1)$(wider 1 3 $T1)||taken 1 version 2|version 2 pending 1 flight 0|t1 1 t=v2 null|$W1$U$K1$V1$N$N$V2$N
$H1$I$K1$V1|update t1 1 t=v2|$H1$U$K1$V1$N$V2|update t1 1 t=v1|$(from 1 1)$(wider 1 3 $T1)||taken 1 version 2|version 2 pending 0 flight 0|t1 1 t=v1 null|
$H1$I$K1$V1|update t1 1 t=v2|$H1$U$K1$V1$N$V2|delete t1 1|$(from 1 1)$(wider 1 3 $T1)||taken 1 version 2|version 2 pending 1 flight 0||$W1$D$K1${V1}05
$H1$I$K1$V1|insert t2 1 t=b0 t=c0 t=d0|$row0|update t1 1 t=v2|$(from 1 1)$(wider 1 3 $T1)||taken 1 version 2|version 2 pending 2 flight 0|t1 1 t=v2 null;t2 1 t=b0 t=c0 t=d0|$W1$U$K1$V1$N$N$V2$N$row0
$row0|||insert t1 1 t=v1;update t2 1 t=b1 - t=d1|$(from 1 1)$(wider 1 6 $T2)||taken 1 version 2|version 2 pending 2 flight 0|t1 1 t=v1;t2 1 t=b1 t=c0 t=d1 null null|$H1$I$K1$V1$W2$U$K1$B0$N$D0$N$N$N$B1$N$D1$N$N
END

# One table twice, and two tables; entries of the old columns before it and of the new ones behind it; and one of the others, on each side.
# A push that is told before it is confirmed with the columns that it had.
leave << END
|||insert t1 1 t=v1|$(from 0 2)$(wider 1 3 $T1)$(wider 1 5 $T1)||taken 2 version 2|version 2 pending 1 flight 0|t1 1 t=v1 null null null|$W5$I$K1${V1}050505
$row0|||insert t1 1 t=v1|$(from 1 2)$(wider 1 3 $T1)$(wider 2 6 $T2)||taken 2 version 3|version 3 pending 1 flight 0|t1 1 t=v1 null;t2 1 t=b0 t=c0 t=d0 null null|$W1$I$K1${V1}05
||||$(from 0 4)$(entry 9 1 $H1$I$K1$V1)$(wider 1 3 $T1)$(entry 9 2 $W1$U$K1${N}05$N$N$V2)$(entry 9 3 $W1$I$K2${N}05)||fault BadEntry after 3|version 3 pending 0 flight 0|t1 1 t=v1 t=v2|
||||$(from 0 4)$(entry 9 1 $H1$I$K1$V1)$(wider 1 3 $T1)$(entry 9 2 $W1$U$K1${N}05$N$N$V2)$(entry 9 3 $W1$I$K2$V9$V1)||taken 4 version 4|version 4 pending 0 flight 0|t1 1 t=v1 t=v2;t1 2 t=v9 t=v1|
||||$(from 0 2)$(wider 1 3 $T1)$(entry 9 1 $H1$I$K1$V1)||fault BadEntry after 1|version 1 pending 0 flight 0||
||||$(from 0 2)$(entry 9 1 $W1$I$K1$V1$V2)$(wider 1 3 $T1)||fault BadEntry after 0|version 0 pending 0 flight 0||
|insert t1 1 t=v1|$H1$I$K1$V1|update t1 1 t=v9|$(from 0 2)$(entry 7 1 $H1$I$K1$V1)$(wider 1 3 $T1)||taken 2 version 2|version 2 pending 1 flight 0|t1 1 t=v9 null|$W1$U$K1$V1$N$N$V9$N
|insert t1 1 t=v1|$H1$I$K1$V1||$(from 0 2)$(wider 1 3 $T1)$(entry 7 1 $W1$I$K1${V1}05)|k|taken 2 version 2|version 2 pending 0 flight 0|t1 1 t=v1 null|
END

# A clash in front of it is kept, taken and stopped at, and it asks nobody; a clash behind it is over the own change with the new column,
# and the stop leaves what was taken. Entries told together are of the tables there.
leave << END
$H1$I$K1$V1|||update t1 1 t=y|$(from 1 2)$(entry 9 1 $H1$U$K1$V1$N$X)$(wider 1 3 $T1)|k|taken 2 version 3|version 3 pending 1 flight 0|t1 1 t=y null|$W1$U$K1$X$N$N$Y$N
$H1$I$K1$V1|||update t1 1 t=y|$(from 1 2)$(entry 9 1 $H1$U$K1$V1$N$X)$(wider 1 3 $T1)|t|taken 2 version 3|version 3 pending 0 flight 0|t1 1 t=x null|
$H1$I$K1$V1|||update t1 1 t=y|$(from 1 2)$(entry 9 1 $H1$U$K1$V1$N$X)$(wider 1 3 $T1)||stopped 0 version 1|version 1 pending 1 flight 0|t1 1 t=y|$H1$U$K1$V1$N$Y
$H1$I$K1$V1|||update t1 1 t=y|$(from 1 2)$(wider 1 3 $T1)$(entry 9 1 $W1$U$K1$V1$N$N$X$N)|k|taken 2 version 3|version 3 pending 1 flight 0|t1 1 t=y null|$W1$U$K1$X$N$N$Y$N
$H1$I$K1$V1|||update t1 1 t=y|$(from 1 2)$(wider 1 3 $T1)$(entry 9 1 $W1$U$K1$V1$N$N$X$N)||stopped 1 version 2|version 2 pending 1 flight 0|t1 1 t=y null|$W1$U$K1$V1$N$N$Y$N
$H1$I$K1$V1|||update t1 1 t=y|$(from 1 2)$(wider 1 3 $T1)$(entry 9 1 $W1$U$K1${N}05$N$N$X)||taken 2 version 3|version 3 pending 1 flight 0|t1 1 t=y t=x|$W1$U$K1$V1$N$N$Y$N
$H1$I$K1$V1|update t1 1 t=y|$H1$U$K1$V1$N$Y||$(from 1 2)$(wider 1 3 $T1)$(entry 9 1 $W1$D$K1${V1}05)|k|taken 2 version 3|version 3 pending 1 flight 0|t1 1 t=y null|$W1$I$K1${Y}05
END

# What gives no columns: bytes that end early; a name that isn't UTF-8; tables that aren't there; a width that isn't above the present one,
# or above 2,000. What was told before it stays, also of the columns, and what stands behind it isn't taken.
while IFS='|' read -r body; do
    bad="$(printf '01ffffffff%016x%08x%s' 2 $((${#body} / 2)) "$body")"
    leaves '' '' '' 'insert t1 2 t=x' "$(from 0 3)$(entry 9 1 $H1$I$K1$V1)$bad$(wider 3 3 $T1)" '' 'fault BadEntry after 1' 'version 1 pending 1 flight 0' \
        't1 1 t=v1;t1 2 t=x' $H1$I$K2$X
    leaves '' 'insert t1 2 t=x' $H1$I$K2$X '' "$(from 0 2)$(wider 1 3 $T1)$bad" '' 'fault BadEntry after 1' 'version 1 pending 1 flight 0' 't1 2 t=x null' $W1$I$K2${X}05
done << END

000000
00000003
0000000374
00000003ff
000000037431ff
0000000374310000
00000003743100
000000037439
000000035431
00000003743131
00000000$T1
00000001$T1
00000002$T1
00000003c080
000007d1$T1
ffffffff$T1
00000004$T2
END
# Each of its own: three columns are above two and not above three.
leaves '' '' '' '' "$(from 0 2)$(wider 1 3 $T1)$(wider 2 3 $T1)" '' 'fault BadEntry after 1' 'version 1 pending 0 flight 0' '' ''
leaves '' '' '' '' "$(from 0 2)$(wider 1 2000 $T1)$(wider 2 2001 $T1)" '' 'fault BadEntry after 1' 'version 1 pending 0 flight 0' '' ''

# It is told for its version alone: before it, it is passed over, and behind it, it isn't reached. Another origin gives columns too, also
# the replica's own with the number of what is under way, which then is pending again; and a push of the origin of such entries is
# another's.
leave << END
$H1$I$K1$V1||||$(from 0 2)$(wider 1 9 $T1)$(wider 2 3 $T1)||taken 1 version 2|version 2 pending 0 flight 0|t1 1 t=v1 null|
||||$(from 1 1)$(wider 1 3 $T1)||taken 0 version 0|version 0 pending 0 flight 0||
$H1$I$K1$V1||||$(from 1 1)$(wider_by 9 1 3 $T1)||taken 1 version 2|version 2 pending 0 flight 0|t1 1 t=v1 null|
|insert t1 1 t=v1|$H1$I$K1$V1||$(from 0 1)$(wider_by 7 1 3 $T1)||taken 1 version 1|version 1 pending 1 flight 0|t1 1 t=v1 null|$W1$I$K1${V1}05
|||insert t1 1 t=v1|$(from 0 1)$(wider_by 7 1 3 $T1)||taken 1 version 1|version 1 pending 1 flight 0|t1 1 t=v1 null|$W1$I$K1${V1}05
||||$(from 0 1)$(entry 4294967295 1 $H1$I$K1$V1)||taken 1 version 1|version 1 pending 0 flight 0|t1 1 t=v1|
END

# In one run: edits of either width, the push behind it, what comes late, entries told together, and the answer again.
begins
say 'edit insert t1 1 t=v1' ok
say push "$(push 1 0 $H1$I$K1$V1)"
say 'edit insert t1 2 t=x null' 'refused Width'
say "answer $(from 0 1)$(wider 1 3 $T1) s" 'taken 1 version 1'
say "answer $(accepted 7 1 1) -" ignored
say resend 'refused Nothing'
say 'edit insert t1 2 t=x' 'refused Width'
say 'edit insert t1 2 t=x null 5' 'refused Width'
say 'edit insert t1 2 t=x null' ok
say 'edit update t1 1 t=v2' 'refused Width'
say 'edit update t1 1 - t=y' ok
say 'edit delete t1 2 t=x null' 'refused Width'
say_dump 'version 1 pending 2 flight 0' 't1 1 t=v1 t=y;t1 2 t=x null'
say push "$(push 2 1 $W1$I$K1$V1$Y$I$K2${X}05)"
say "answer $(from 0 1)$(wider 1 3 $T1) -" 'taken 0 version 1'
say "answer $(accepted 7 2 2) -" 'accepted 2'
say "answer $(merged 2 4 $H1$U$K1$V1$N$V9) -" 'fault BadEntry after 0'
say "answer $(merged 2 4 $W1$U$K1$V1$N$N$V9$N) -" 'taken 2 version 4'
say 'catch 10' 030000000700000000000000040000000a
say 'edit delete t1 2' ok
say push "$(push 3 4 $W1$D$K2${X}05)"
say_dump 'version 4 pending 0 flight 1' 't1 1 t=v9 t=y'
goes
say 'edit insert t1 3 null' 'refused Width'
say resend "$(push 3 4 $W1$D$K2${X}05)"
say "answer $(from 4 1)$(wider 2 5 $T1) -" 'taken 1 version 5'
say push "$(push 4 5 $W5$D$K2${X}050505)"
goes

# ---- the words by which a file with wider tables is opened: with the columns that they had, or any of these in front, and those that they
# have; but not with more, with other key columns, or tables in another order, of another number or name. Of a file that no entry widened
# the same holds

# opened TABLES: by these words the file of replica 7 shows its rows. opened_not: it isn't opened, and is as it was.
opened() {
    local tables="$1"
    say_dump 'version 2 pending 1 flight 0' 't1 1 t=v1 null;t1 2 t=x null'
    goes
}

opened_not() {
    local before
    before="$(cksum < "$file")"
    expect 1 'dump\n' '' 'sync: Mismatch\n' node "$file" 7 $1
    [ "$(cksum < "$file")" = "$before" ] || tell 'was refused, and yet written' node "$file" 7 $1
}

begins
say "answer $(others 0 $H1$I$K1$V1) s" 'taken 1 version 1'
say 'edit insert t1 2 t=x' ok
say "answer $(from 1 1)$(wider 1 3 $T1) s" 'taken 1 version 2'
goes
for words in 't1:10 t2:1000' 't1:100 t2:1000' 't1:1 t2:1000' 't1:1 t2:1' 't1:100 t2:100'; do
    opened "$words"
done
for words in 't1:1000 t2:1000' 't1:100 t2:10000' 't1:11 t2:1000' 't1:101 t2:1000' 't1:01 t2:1000' 't2:1000 t1:10' 't2:1000 t1:100' t1:10 't1:10 t2:1000 t3:1' 't1:10 t3:1000' \
    'T1:10 t2:1000'; do
    opened_not "$words"
done
expect 1 'dump\n' '' 'sync: Mismatch\n' node "$file" 8 $tables
expect 1 '' '' 'sync: Mismatch\n' hub --file "$file" t1:100 t2:1000
# Words of more columns lay out a new file with them, which no entry of fewer is for.
begins
expect 0 "answer $(others 0 $H1$I$K1$V1) -\nanswer $(from 0 1)$(wider 1 3 $T1) -\nanswer $(from 0 1)$(wider 1 4 $T1) -\ndump\n" \
    'fault BadEntry after 0\nfault BadEntry after 0\ntaken 1 version 1\nreplica 7 version 1 pending 0 flight 0\n' '' node "$file" 7 t1:100

# ---- short answers, while push 1 is under way with an edit behind it

# It was taken; another's was, one with another number, one at a later version or at none; nothing is under way; it came late; it was
# refused. What isn't it changes nothing.
flown='insert t1 1 t=v1'
pushed=$H1$I$K1$V1
behind='update t1 1 t=v9'
leave << END
|$flown|$pushed|$behind|$(accepted 7 1 1)||accepted 1|version 1 pending 1 flight 0|t1 1 t=v9|$H1$U$K1$V1$N$V9
|$flown|$pushed|$behind|$(accepted 8 1 1)||ignored|version 0 pending 1 flight 1|t1 1 t=v9|$H1$U$K1$V1$N$V9
|$flown|$pushed|$behind|$(accepted 7 2 1)||ignored|version 0 pending 1 flight 1|t1 1 t=v9|$H1$U$K1$V1$N$V9
|$flown|$pushed|$behind|$(accepted 7 1 2)||ignored|version 0 pending 1 flight 1|t1 1 t=v9|$H1$U$K1$V1$N$V9
|$flown|$pushed|$behind|$(accepted 7 1 0)||ignored|version 0 pending 1 flight 1|t1 1 t=v9|$H1$U$K1$V1$N$V9
|||insert t1 1 t=v1|$(accepted 7 0 1)||ignored|version 0 pending 1 flight 0|t1 1 t=v1|$H1$I$K1$V1
|$flown|$pushed|$behind|120000000000000002||stale 2|version 0 pending 1 flight 1|t1 1 t=v9|$H1$U$K1$V1$N$V9
|$flown|$pushed|$behind|1329||hub refused 41|version 0 pending 1 flight 1|t1 1 t=v9|$H1$U$K1$V1$N$V9
END

# ---- edits of a replica, its push, and the push's answer

# The push is given again until its answer comes, meanwhile no other is made; what isn't its answer is ignored, and so is its answer the
# second time; and then the next is made.
begins
say 'edit insert t1 1 t=v1' ok
say_dump 'version 0 pending 1 flight 0' 't1 1 t=v1'
say push "$(push 1 0 $H1$I$K1$V1)"
say_dump 'version 0 pending 0 flight 1' 't1 1 t=v1'
say resend "$(push 1 0 $H1$I$K1$V1)"
say 'edit insert t1 2 t=x' ok
say push 'refused InFlight'
say resend "$(push 1 0 $H1$I$K1$V1)"
say_dump 'version 0 pending 1 flight 1' 't1 1 t=v1;t1 2 t=x'
say "answer $(accepted 8 1 1) -" ignored
say "answer $(accepted 7 2 1) -" ignored
say "answer $(accepted 7 1 2) -" ignored
say_dump 'version 0 pending 1 flight 1' 't1 1 t=v1;t1 2 t=x'
say "answer $(accepted 7 1 1) -" 'accepted 1'
say_dump 'version 1 pending 1 flight 0' 't1 1 t=v1;t1 2 t=x'
say "answer $(accepted 7 1 2) -" ignored
say resend 'refused Nothing'
say push "$(push 2 1 $H1$I$K2$X)"
say_dump 'version 1 pending 0 flight 1' 't1 1 t=v1;t1 2 t=x'
goes

# Edits that can't be made, one that changes nothing, and a row that goes again and leaves nothing to push.
begins
say 'edit insert t1 1 t=v1' ok
say 'edit insert t9 1' 'refused NoTable'
say 'edit insert t1 1' 'refused Width'
say 'edit insert t1 1 t=x' 'refused Exists'
say 'edit update t1 2 t=x' 'refused Missing'
say 'edit delete t1 2' 'refused Missing'
say_dump 'version 0 pending 1 flight 0' 't1 1 t=v1'
say 'edit update t1 1 t=v1' ok
say_dump 'version 0 pending 1 flight 0' 't1 1 t=v1'
say 'edit delete t1 1' ok
say_dump 'version 0 pending 0 flight 0' ''
say push 'refused Nothing'
say resend 'refused Nothing'
goes

# Another's entry that the picker stops at leaves the push as it was made, and what stands and is pending behind it.
begins
say 'edit insert t1 1 t=v1' ok
say push "$(push 1 0 $H1$I$K1$V1)"
say 'edit update t1 1 t=v9' ok
say resend "$(push 1 0 $H1$I$K1$V1)"
say_dump 'version 0 pending 1 flight 1' 't1 1 t=v9'
say "answer $(others 0 $H1$I$K1$V2) s" 'stopped 0 version 0'
say resend "$(push 1 0 $H1$I$K1$V1)"
say_dump 'version 0 pending 1 flight 1' 't1 1 t=v9'
goes

# ---- what is pending behind edits, over the row (2, 'b') of the log: each case has those of the cases before it

tables='t:10 s:10'
H=540201007400
HS=540201007300

# stands EDITS PENDING ROWS CHANGES: what these edits leave: so many pending changes, these rows, and the push.
stands() {
    begins
    say "answer $(others 0 $H$I$K2$B) s" 'taken 1 version 1'
    edit_all "$1"
    say_dump "version 1 pending $2 flight 0" "$3"
    if [ -n "$4" ]; then
        say push "$(push 1 1 "$4")"
    else
        say push 'refused Nothing'
    fi
    goes
}

# A row comes, changes and goes; and one changes, changes back, goes, comes again and stays as it is.
edits=''
while IFS='|' read -r edit pending rows changes; do
    edits="$edits${edits:+;}$edit"
    stands "$edits" "$pending" "$rows" "$changes"
done << END
insert t 1 t=x|1|t 1 t=x;t 2 t=b|$H$I$K1$X
update t 1 t=y|1|t 1 t=y;t 2 t=b|$H$I$K1$Y
update t 2 t=c|2|t 1 t=y;t 2 t=c|$H$I$K1$Y$U$K2$B$N$C
delete t 1|1|t 2 t=c|$H$U$K2$B$N$C
update t 2 t=b|0|t 2 t=b|
delete t 2|1||$H$D$K2$B
insert t 2 t=d|1|t 2 t=d|$H$U$K2$B${N}030164
update t 2 t=d|1|t 2 t=d|$H$U$K2$B${N}030164
END

# What is pending goes table by table and key by key, and nothing does where it was taken back.
stands 'insert s 1 t=x;update t 2 t=c;insert t 1 t=x' 3 't 1 t=x;t 2 t=c;s 1 t=x' $H$I$K1$X$U$K2$B$N$C$HS$I$K1$X
stands 'insert s 1 t=x;update t 2 t=c;insert t 1 t=x;delete s 1;delete t 1;update t 2 t=b' 0 't 2 t=b' ''

# Edits that are refused, each for a reason that goes before another of its own, with nothing changed.
begins
say "answer $(others 0 $H$I$K2$B) s" 'taken 1 version 1'
while IFS='|' read -r edit fault; do
    say "edit $edit" "refused $fault"
done << 'END'
insert u 2|NoTable
update u 2 t=b|NoTable
delete u 2 t=b|NoTable
insert t null|Width
update t 2|Width
delete t null null|Width
insert t null null|NullKey
update t null t=c|NullKey
delete t null|NullKey
insert t 2 t=b|Exists
insert t 2 null|Exists
update t 9 t=c|Missing
delete t 9|Missing
END
say_dump 'version 1 pending 0 flight 0' 't 2 t=b'
say push 'refused Nothing'
goes

# ---- lines of replica 0 of t1

# prints LINES OUTPUT: a new replica prints this of the lines.
prints() {
    begins
    expect 0 "$1" "$2" '' node "$file" 0 t1:10
}

# Bytes that are no answer.
prints 'answer 99 -\nanswer 1100 -\nanswer 120000000000000001ff -\n' 'refused BadTag\nrefused Truncated\nrefused TooLong\n'
prints "answer 15 -\nanswer $(printf '15%046d' 0) -\nanswer $(printf '15%040d00000001' 0) -\nanswer $(merged_for 0 0 0 '')ff -\nanswer $(merged_for 0 0 0 50)ff -\n" \
    'refused Truncated\nrefused Truncated\nrefused Truncated\nrefused TooLong\nrefused TooLong\n'
# An entry of no kind, behind one that gives a table more columns: it is no answer.
prints "answer $(from 0 2)$(entry 9 1 $H1$I$K1$V1)01ffffffff000000000000000100000006000000037431 -\nanswer $(from 1 1)02 -\ndump\n" \
    'taken 2 version 2\nrefused BadKind\nreplica 0 version 2 pending 0 flight 0\nrow t1 1 t=v1 null\n'
prints "answer $(from 0 2)01ffffffff00000000000000010000000600000003743102 -\nanswer $(from 0 1)01ffffffff0000000000000001000000060000000374 -\nanswer $(from 0 1)$(wider 1 3 7431)00 -\ndump\n" \
    'refused BadKind\nrefused Truncated\nrefused TooLong\nreplica 0 version 0 pending 0 flight 0\n'
# Entries that aren't defined, alone and behind one that is; and a push that is said to be an entry it can't be.
prints "edit insert t1 1 t=v1\nanswer $(others 0 $H1$D$K1$V1) -\ndump\n" \
    'ok\nfault BadEntry after 0\nreplica 0 version 0 pending 1 flight 0\nrow t1 1 t=v1\n'
prints "answer $(from 0 2)$(entry 9 1 $H1$I$K1$V1)$(entry 9 2 50) -\ndump\n" \
    'fault BadEntry after 1\nreplica 0 version 1 pending 0 flight 0\nrow t1 1 t=v1\n'
prints "edit insert t1 1 t=v1\npush\nanswer $(accepted 0 1 2) -\ndump\n" \
    "ok\n0100000000000000000000000100000000000000000000001654020100743100120001000000000000000103027631\nignored\nreplica 0 version 0 pending 0 flight 1\nrow t1 1 t=v1\n"

# Another's entry that inserts what stands here otherwise: kept, taken and stopped at.
while IFS='|' read -r wishes shown; do
    prints "edit insert t1 1 t=v1\nanswer $(others 0 $H1$I$K1$V2) $wishes\ndump\n" "ok\n$shown\n"
done << 'END'
k|taken 1 version 1\nreplica 0 version 1 pending 1 flight 0\nrow t1 1 t=v1
t|taken 1 version 1\nreplica 0 version 1 pending 0 flight 0\nrow t1 1 t=v2
s|stopped 0 version 0\nreplica 0 version 0 pending 1 flight 0\nrow t1 1 t=v1
END

# What is refused, by the replica and by the hub.
prints 'edit insert t2 1\nedit insert t1 1\nedit insert t1 null 1\nedit update t1 1 t=x\nedit delete t1 1\npush\nresend\n' \
    'refused NoTable\nrefused Width\nrefused NullKey\nrefused Missing\nrefused Missing\nrefused Nothing\nrefused Nothing\n'
request=0100000000000000000000000100000000000000000000001354020100743100120001000000000000000105
prints 'edit insert t1 1 null\npush\nedit update t1 1 t=x\npush\nresend\nanswer 120000000000000007 -\nanswer 132d -\nedit delete t1 1\ndump\n' \
    "ok\n$request\nok\nrefused InFlight\n$request\nstale 7\nhub refused 45\nok\nreplica 0 version 0 pending 1 flight 1\n"

# Nothing is done or printed where a line can't be read.
while read -r lines; do
    begins
    expect 1 "$lines" '' 'sync: line 2\n' node "$file" 0 t1:10
    [ ! -e "$file" ] || tell 'made a file' node "$file" 0 t1:10
done << 'END'
edit insert t1 1 t=v1\npull\n
dump\ncatch\n
dump\ncatch -1\n
dump\ncatch 1 1\n
dump\n\ndump\n
dump\nanswer 1 -\n
dump\nedit update t1 - t=x
END

# ---- a replica that answers each line as it comes

# follows LINES OUTPUT: so does replica 7 of t1 and t2, each reply with an empty line behind it.
follows() {
    expect 0 "$1" "$2" '' node --follow "$file" 7 t1:10 t2:1000
}

# reply TEXT..: the reply of these lines.
reply() {
    printf '%s\\n' "$@" ''
}

# asks LINE TEXT..: a line more, and its reply.
asks() {
    input="$input$1\n"
    shift
    output="$output$(reply "$@")"
}

# The lines that look, over no row and over some, and what is pending, also behind a push; tables that aren't there, and a key of no row, of
# another width and of NULL.
begins
asks place 'replica 7 version 0 pending 0 flight 0'
asks tables 'table t1 10' 'table t2 1000'
asks 'rows t1'
asks 'row t1 1'
asks pending
asks 'edit insert t1 2 t=x' ok
asks 'edit insert t1 1 t=v1' ok
asks 'edit insert t2 1 null 5 x=00' ok
asks 'rows t1' 'row t1 1 t=v1' 'row t1 2 t=x'
asks 'row t1 1' 'row t1 1 t=v1'
asks 'row t2 1' 'row t2 1 null 5 x=00'
asks 'row t1 3'
asks 'row t1 null'
asks 'row t1 1 t=v1'
asks 'row t1'
asks 'rows t9' 'refused NoTable'
asks 'row t9 1' 'refused NoTable'
asks pending 'table t1 10' 'insert 0 1 t=v1' 'insert 0 2 t=x' 'table t2 1000' 'insert 0 1 null 5 x=00'
asks push "$(push 1 0 $H1$I$K1$V1$I$K2$X$H2$I${K1}05010000000000000005040100)"
asks pending
asks 'edit update t1 2 t=y' ok
asks pending 'table t1 10' 'update 0 2 t=x > - t=y'
asks place 'replica 7 version 0 pending 1 flight 3'
asks dump 'replica 7 version 0 pending 1 flight 3' 'row t1 1 t=v1' 'row t1 2 t=y' 'row t2 1 null 5 x=00'
follows "$input" "$output"

# Lines that can't be read end nothing: verbs, words too many or too few, names and values.
begins
while read -r line; do
    asks "$line" unread
done << 'END'
no such line

place 1
tables t1
rows
rows t1 1
rows %41%
row
row t1 t=%
pending t1
push 1
answer 14
edit insert
END
asks ' place' unread
asks place 'replica 7 version 0 pending 0 flight 0'
follows "$input" "$output"

# Several edits are one request with one reply, and one commit: each on what those before it left, all or none. Its lines are read in any
# case.
begins
asks 'edits 2\nedit insert t1 1 t=v1\nedit update t1 1 t=v2' ok
asks pending 'table t1 10' 'insert 0 1 t=v2'
asks 'edits 3\nedit insert t1 2 t=x\nedit insert t1 1 t=y\nedit insert t1 3 t=z' 'refused 2 Exists'
asks 'edits 2\nedit insert t9 1 t=x\nedit insert t1 2 t=y' 'refused 1 NoTable'
asks 'edits 3\nedit insert t1 2 t=x\nedit delete t1 2\nedit delete t1 2' 'refused 3 Missing'
asks 'edits 3\nedit insert t1 2 t=x\npush\nedit insert t1 3 t=z' unread
asks 'edits 2\nedit insert t1\nedit insert t1 2 t=x' 'refused 1 Width'
asks 'edits 2\nedit insert t1 2 t\nedit insert t1 2 t=x' unread
asks 'edits 2\nedits 1\nedit insert t1 2 t=x' unread
asks 'edits 1\n' unread
while read -r line; do
    asks "$line" unread
done << 'END'
edits
edits 1 1
edits -1
edits +1
edits x
edits 4294967296
END
asks place 'replica 7 version 0 pending 1 flight 0'
asks 'edits 0' ok
asks 'edits 001\nedit delete t1 1' ok
asks 'edits 2\nedit insert t2 1 null 5 x=00\nedit insert t1 1 t=v1' ok
asks dump 'replica 7 version 0 pending 2 flight 0' 'row t1 1 t=v1' 'row t2 1 null 5 x=00'
follows "$input" "$output"
# Nothing is done where the input ends within them, also right behind the first line.
for lines in 'edits 2\nedit delete t1 1' 'edits 1'; do
    input=''
    output=''
    asks "$lines" unread
    follows "$input" "$output"
done
# A last line that no line feed ends does and prints nothing: alone, behind another line, and as the last of several edits.
for line in 'edit delete t1 1' 'edits 0' place; do
    follows "$line" ''
done
input=''
output=''
asks place 'replica 7 version 0 pending 2 flight 0'
follows "${input}edit delete t1 1" "$output"
for lines in 'edits 2\nedit delete t1 1' 'edits 2'; do
    follows "$lines\nedit insert t1 3 t=z" "$(reply unread)"
done
input=''
output=''
asks dump 'replica 7 version 0 pending 2 flight 0' 'row t1 1 t=v1' 'row t2 1 null 5 x=00'
follows "$input" "$output"

# A node without `--follow` reads none of the lines that look, and no line behind which edits come.
for line in place tables 'rows t1' 'row t1 1' pending 'edits 0' 'edits 1'; do
    begins
    expect 1 "$line\n" '' 'sync: line 1\n' node "$file" 7 t1:10
done

# sees BASE EDITS CHANGESET CLASH WISH PLACE: over the log's rows by BASE and own edits, another's changeset is stopped at, at this clash,
# is told again with the wish, and the replica stands there then.
sees() {
    begins
    asks "answer $(others 0 "$1") s" 'taken 1 version 1'
    local IFS=';' edit
    for edit in $2; do
        asks "edit $edit" ok
    done
    asks "answer $(others 1 "$3") s" "stopped 0 version 1 clash $4"
    asks "answer $(others 1 "$3") $5s" 'taken 1 version 2'
    asks place "replica 7 $6"
    follows "$input" "$output"
}

# Each kind: other values, no row, and a row with the key; an own UPDATE that doesn't cover the other's, and an own row that went.
while IFS='|' read -r base edits changeset clash wish place; do
    sees "$base" "$edits" "$changeset" "$clash" "$wish" "$place"
done << END
$H1$I$K1$V1|update t1 1 t=v9|$H1$U$K1$V1$N$V2|data t1 update 0 1 t=v1 > - t=v2 row 1 t=v9 own update 0 1 t=v1 > - t=v9 lawful kt|k|version 2 pending 1 flight 0
$H1$I$K1$V1|update t1 1 t=v9|$H1$D$K1$V1|data t1 delete 0 1 t=v1 row 1 t=v9 own update 0 1 t=v1 > - t=v9 lawful kt|t|version 2 pending 0 flight 0
$H1$I$K1$V1|delete t1 1|$H1$U$K1$V1$N$V2|notfound t1 update 0 1 t=v1 > - t=v2 row - own delete 0 1 t=v1 lawful k|k|version 2 pending 1 flight 0
$H1$I$K2$V1|insert t1 1 t=v1|$H1$I$K1$V2|conflict t1 insert 0 1 t=v2 row 1 t=v1 own insert 0 1 t=v1 lawful kt|t|version 2 pending 0 flight 0
$row0|update t2 1 t=b1 - -|$H2$U$K1$B0$C0$N$N$B2$C2$N|data t2 update 0 1 t=b0 t=c0 - > - t=b2 t=c2 - row 1 t=b1 t=c0 t=d0 own update 0 1 t=b0 - - > - t=b1 - - lawful t|t|version 2 pending 0 flight 0
END

# Three clashes of one entry are seen one by one, and nothing is taken meanwhile; of two entries the first is taken before the second is
# stopped at; and entries that are told together are one.
begins
asks 'edit insert t1 1 t=x' ok
asks 'edit insert t1 2 t=y' ok
asks 'edit insert t1 3 t=z' ok
first="$(others 0 $H1$I$K1$A$I$K2$B$I$K3$C)"
asks "answer $first s" 'stopped 0 version 0 clash conflict t1 insert 0 1 t=a row 1 t=x own insert 0 1 t=x lawful kt'
asks "answer $first ks" 'stopped 0 version 0 clash conflict t1 insert 0 2 t=b row 2 t=y own insert 0 2 t=y lawful kt'
asks "answer $first kts" 'stopped 0 version 0 clash conflict t1 insert 0 3 t=c row 3 t=z own insert 0 3 t=z lawful kt'
asks place 'replica 7 version 0 pending 3 flight 0'
asks "answer $first ktks" 'taken 1 version 1'
asks 'rows t1' 'row t1 1 t=x' 'row t1 2 t=b' 'row t1 3 t=z'
two="$(from 1 2)$(entry 9 2 $H1$U$K1$A$N$B)$(entry 9 3 $H1$U$K3$C$N$A)"
asks "answer $two ts" 'stopped 1 version 2 clash data t1 update 0 3 t=c > - t=a row 3 t=z own update 0 3 t=c > - t=z lawful kt'
asks "answer $two ks" 'taken 1 version 3'
asks "answer $(merged 3 5 $H1$U$K3$A$N$B) s" 'stopped 0 version 3 clash data t1 update 0 3 t=a > - t=b row 3 t=z own update 0 3 t=a > - t=z lawful kt'
asks "answer $(merged 3 5 $H1$U$K3$A$N$B) ts" 'taken 2 version 5'
asks dump 'replica 7 version 5 pending 0 flight 0' 'row t1 1 t=b' 'row t1 2 t=b' 'row t1 3 t=b'
follows "$input" "$output"
# A second run reads the file again.
input=''
output=''
asks place 'replica 7 version 5 pending 0 flight 0'
follows "$input" "$output"

# A table that gets columns in one run: what is shown, several edits as one request, and clashes behind it, of which one is stopped at with
# the columns taken.
begins
W4=540401000000743100
asks 'edit insert t1 1 t=v1' ok
asks push "$(push 1 0 $H1$I$K1$V1)"
asks "answer $(from 0 1)$(wider 1 3 $T1) s" 'taken 1 version 1'
asks tables 'table t1 100' 'table t2 1000'
asks pending 'table t1 100' 'insert 0 1 t=v1 null'
asks 'rows t1' 'row t1 1 t=v1 null'
asks 'row t1 1' 'row t1 1 t=v1 null'
asks 'edits 2\nedit insert t1 3 t=x null\nedit insert t1 2 t=x' 'refused 2 Width'
asks 'edits 2\nedit insert t1 2 t=x 5\nedit update t1 1 - 6' ok
asks pending 'table t1 100' 'insert 0 1 t=v1 6' 'insert 0 2 t=x 5'
asks "answer $(from 1 1)$(entry 9 1 $W1$I$K2$V9$V9) s" 'stopped 0 version 1 clash conflict t1 insert 0 2 t=v9 t=v9 row 2 t=x 5 own insert 0 2 t=x 5 lawful kt'
asks "answer $(from 1 1)$(entry 9 1 $W1$I$K2$V9$V9) ks" 'taken 1 version 2'
asks pending 'table t1 100' 'insert 0 1 t=v1 6' 'update 0 2 t=v9 t=v9 > - t=x 5'
both="$(from 2 2)$(wider 2 4 $T1)$(entry 9 2 $W4$U$K2$V9$N$N$N$V1$N$N)"
asks "answer $both s" 'stopped 1 version 3 clash data t1 update 0 2 t=v9 - - > - t=v1 - - row 2 t=x 5 null own update 0 2 t=v9 t=v9 - > - t=x 5 - lawful kt'
asks dump 'replica 7 version 3 pending 2 flight 0' 'row t1 1 t=v1 6 null' 'row t1 2 t=x 5 null'
asks "answer $both ts" 'taken 1 version 4'
asks pending 'table t1 1000' 'insert 0 1 t=v1 6 null' 'update 0 2 - t=v9 - > - - 5 -'
follows "$input" "$output"
input=''
output=''
asks dump 'replica 7 version 4 pending 2 flight 0' 'row t1 1 t=v1 6 null' 'row t1 2 t=v1 5 null'
asks pending 'table t1 1000' 'insert 0 1 t=v1 6 null' 'update 0 2 - t=v9 - > - - 5 -'
asks 'row t1 2' 'row t1 2 t=v1 5 null'
asks 'edit delete t1 2' ok
asks push "$(push 2 4 ${W4}$I$K1${V1}01000000000000000605$D$K2$V1${V9}05)"
follows "$input" "$output"

# On pipes each line is answered before the next one is written, the file is held meanwhile, and the end of the input ends it.
begins
mkfifo "$dir/lines" "$dir/replies"
timeout "$seconds" "$program" node --follow "$file" 7 t1:10 < "$dir/lines" > "$dir/replies" &
follower=$!
exec 3> "$dir/lines" 4< "$dir/replies"
# turn LINE TEXT: it is answered so.
turn() {
    local told='' behind=x
    echo "$1" >&3
    read -r -t "$seconds" told <&4 && read -r -t "$seconds" behind <&4
    [ "$told|$behind" = "$2|" ] || tell "answered $told and $behind on pipes" node --follow "$file" 7 t1:10
}
turn 'edit insert t1 1 t=v1' ok
turn place 'replica 7 version 0 pending 1 flight 0'
expect 1 'place\n' '' 'sync: Device\n' node --follow "$file" 7 t1:10
expect 1 'dump\n' '' 'sync: Device\n' node "$file" 7 t1:10
turn nothing unread
turn $'edits 2\nedit insert t1 2 t=x\nedit delete t1 2' ok
turn $'edits 2\nedit insert t1 2 t=x\nedit insert t1 1 t=y' 'refused 2 Exists'
turn 'row t1 1' 'row t1 1 t=v1'
exec 3>&- 4<&-
wait "$follower" || tell "ended with $? on pipes" node --follow "$file" 7 t1:10
runs=$((runs + 1))

# What isn't opened answers nothing: another id, and a file that isn't ours.
expect 1 'place\n' '' 'sync: Mismatch\n' node --follow "$file" 8 t1:10
echo 'no database' > "$dir/other"
expect 1 'place\n' '' 'sync: Device\n' node --follow "$dir/other" 7 t1:10

# ---- files whose values were changed

tables='t1:10'
shell=''
if need_shell; then
    shell="$(command -v sqlite3)"
else
    echo "node: the sqlite3 shell can't be had; no file was looked at or changed there"
fi

# shows NAME QUERY WANTED: the shell answers this.
shows() {
    local found
    runs=$((runs + 1))
    found="$("$shell" -readonly "$file" "$2" 2>&1)"
    [ "$found" = "$3" ] || tell "$1: the shell shows '$found', not '$3'" node "$file"
}

# changes SQL..: the file of replica 7 with (1, 'v1') under way and (2, 'x') pending, with these changes.
changes() {
    begins
    cp "$dir/filled" "$file"
    "$shell" "$file" "$@" > "$dir/shell" 2>&1 || tell "the shell told $(cat "$dir/shell")" node "$file"
}

# opens_not ID TOLD: the file isn't opened by this id, is told so, and holds what it held.
opens_not() {
    local before after
    before="$("$shell" -readonly "$file" .dump 2>&1)"
    expect 1 'dump\n' '' "sync: $2\n" node "$file" "$1" $tables
    after="$("$shell" -readonly "$file" .dump 2>&1)"
    [ "$after" = "$before" ] || tell 'was refused, and yet written' node "$file" "$1"
}

# shows_both: the replica shows both rows, and gives the first push again.
shows_both() {
    say_dump 'version 0 pending 1 flight 1' 't1 1 t=v1;t1 2 t=x'
    say resend "$(push 1 0 $H1$I$K1$V1)"
}

second=$H1$I$K2$X
if [ -n "$shell" ]; then
    begins
    say 'edit insert t1 1 t=v1' ok
    say push "$(push 1 0 $H1$I$K1$V1)"
    say 'edit insert t1 2 t=x' ok
    goes
    "$shell" "$file" 'PRAGMA wal_checkpoint(TRUNCATE)' > "$dir/shell" 2>&1
    cp "$file" "$dir/filled"

    # What the store of the replica holds; a second run leaves it so, and another id is refused.
    values="catalog|$H1
flight|0000000000000001$H1$I$K1$V1
id|00000007
number|0000000000000001
version|0000000000000000"
    holds() {
        shows "$1" 'SELECT name, lower(hex(body)) FROM meta ORDER BY name' "$values"
        shows "$1" 'SELECT tab, lower(hex(key)), lower(hex(body)) FROM rows ORDER BY key' "0|$K1|$K1$V1
0|$K2|$K2$X"
        shows "$1" 'SELECT tab, lower(hex(key)), lower(hex(body)) FROM pending' "0|$K2|$I$K2$X"
        shows "$1" 'SELECT count(*) FROM log' 0
    }
    holds 'what a replica keeps'
    shows_both
    goes
    holds 'what it keeps behind a second run'
    opens_not 8 Mismatch

    # Values that can't be read, or that don't fit: a version too short, a number too long, the number of another push, a push under way
    # that ends early, an id too short, pending changes as a value beside those at their places; an entry of a log; and a pending change at
    # a table that isn't there, at another key than its own, of a row that isn't there, and of another row.
    while read -r sql; do
        changes "$sql"
        opens_not 7 Damaged
    done << END
UPDATE meta SET body = x'00000000000000' WHERE name = 'version'
UPDATE meta SET body = x'000000000000000100' WHERE name = 'number'
UPDATE meta SET body = x'0000000000000002' WHERE name = 'number'
UPDATE meta SET body = x'0000000000000001${H1}${I}${K1}030276' WHERE name = 'flight'
UPDATE meta SET body = x'000007' WHERE name = 'id'
INSERT INTO meta VALUES ('pending', x'')
INSERT INTO log VALUES (0, 7, 1, x'00$H1$I$K1$V1')
INSERT INTO pending VALUES (1, x'$K3', x'$I$K3$X')
UPDATE pending SET body = x'$I$K3$X'
INSERT INTO pending VALUES (0, x'$K3', x'$I$K3$X')
UPDATE pending SET body = x'$I$K2$Y'
END

    # The numbers of pushes end.
    changes "DELETE FROM meta WHERE name = 'flight'" "DELETE FROM pending WHERE key = x'$K2'" \
        "DELETE FROM rows WHERE key = x'$K2'" "INSERT INTO pending VALUES (0, x'$K1', x'$I$K1$V1')" \
        "UPDATE meta SET body = x'7fffffffffffffff' WHERE name = 'number'"
    say push 'refused Spent'
    say_dump 'version 0 pending 1 flight 0' 't1 1 t=v1'
    goes
    "$shell" "$file" "UPDATE meta SET body = x'0000000000000000' WHERE name = 'number'"
    say push "$(push 1 0 $H1$I$K1$V1)"
    goes

    # A value of pending changes is moved to their places, and stays so; one of no changes is taken away; one that is no changeset, isn't in
    # normal form, or leads to no row there or to another is damage; and another's id is told before that.
    kept() {
        changes 'DELETE FROM pending' "INSERT INTO meta VALUES ('pending', x'$1')"
    }
    kept $second
    shows_both
    goes
    holds 'where a value was moved'
    shows_both
    goes
    kept ''
    say_dump 'version 0 pending 0 flight 1' 't1 1 t=v1;t1 2 t=x'
    goes
    shows 'where a value of no changes was' "SELECT count(*) FROM meta WHERE name = 'pending'" 0
    for value in 50 $H1 $H1$I$K3$X $H1$I$K2$Y; do
        kept $value
        opens_not 7 Damaged
    done
    kept $second
    opens_not 8 Mismatch

    # What is kept behind an entry that gave the table a column: one with an own number too, where what is under way has no changes. A
    # second run leaves it so.
    wide_values="catalog|$W1
id|00000007
number|0000000000000001
version|0000000000000001"
    for flight in "$H1$I$K1$V1" ''; do
        changes "UPDATE meta SET body = x'0000000000000001$flight' WHERE name = 'flight'"
        say "answer $(from 0 1)$(wider_by 7 1 3 $T1) s" 'taken 1 version 1'
        goes
        for run in first second; do
            shows "the values of the $run run" 'SELECT name, lower(hex(body)) FROM meta ORDER BY name' "$wide_values"
            shows "the rows of the $run run" 'SELECT tab, lower(hex(key)), lower(hex(body)) FROM rows ORDER BY key' "0|$K1|$K1${V1}05
0|$K2|$K2${X}05"
            shows "the pending changes of the $run run" 'SELECT tab, lower(hex(key)), lower(hex(body)) FROM pending ORDER BY key' \
                "${flight:+0|$K1|$I$K1${V1}05
}0|$K2|$I$K2${X}05"
            shows "the log of the $run run" 'SELECT count(*) FROM log' 0
            say_dump "version 1 pending $((${#flight} > 0 ? 2 : 1)) flight 0" 't1 1 t=v1 null;t1 2 t=x null'
            goes
        done
    done

    # A row, a pending change and a push under way of the columns before; rows of more columns than the tables; tables with another key
    # column behind them.
    "$shell" "$file" 'PRAGMA wal_checkpoint(TRUNCATE)' > "$dir/shell" 2>&1
    cp "$file" "$dir/filled"
    while read -r told sql; do
        changes "$sql"
        opens_not 7 "$told"
    done << END
Damaged UPDATE rows SET body = x'$K1$V1' WHERE key = x'$K1'
Damaged UPDATE rows SET body = x'$K1${V1}0505' WHERE key = x'$K1'
Damaged UPDATE pending SET body = x'$I$K2$X' WHERE key = x'$K2'
Damaged UPDATE pending SET body = x'$I$K2${X}0505' WHERE key = x'$K2'
Damaged INSERT INTO meta VALUES ('flight', x'0000000000000001$H1$I$K3$X')
Damaged UPDATE meta SET body = x'$H1' WHERE name = 'catalog'
Damaged UPDATE meta SET body = x'$W5' WHERE name = 'catalog'
Damaged UPDATE meta SET body = x'${W1%00}' WHERE name = 'catalog'
Mismatch UPDATE meta SET body = x'5403010001743100' WHERE name = 'catalog'
Mismatch UPDATE meta SET body = x'540101743100' WHERE name = 'catalog'
END
    changes "UPDATE meta SET body = x'ffffffffffffffff' WHERE name = 'version'"
    say "answer 14ffffffffffffffff00000001$(wider 2 5 $T1) -" 'fault BadEntry after 0'
    say_dump 'version 18446744073709551615 pending 1 flight 0' 't1 1 t=v1 null;t1 2 t=x null'
    goes
fi

if [ "$failed" -eq 0 ]; then
    echo "node: $runs runs as they have to be"
fi
exit "$failed"
