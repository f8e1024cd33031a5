#!/bin/sh
# Runs the built program `sync world` on scripts, and compares each run's status, output and errors with what they have to be: worlds of a
# hub, replicas and their messages with what each event comes to and how the world stands at the end, also while tables get more columns,
# what is refused, words that are read, and lines that can't be read. One case is one run. (`worlds.sh` draws worlds and compares hub and
# replicas in them.)
# Usage: bench/check_worlds.sh PROGRAM
set -u
program="${1:?usage: bench/check_worlds.sh PROGRAM}"
. "$(dirname "$0")/running.sh"

# plays N [TABLE..]: a world of N replicas of these tables, or of t1, makes the events of a table, which stands on the input: a line each,
# behind a bar what it comes to, and behind the last event, in lines that begin with the bar, how the world stands then.
plays() {
    [ "$#" -gt 1 ] || set -- "$1" t1:10
    cat > "$dir/table"
    sed -n 's/^\([^|]*[^| ]\) *| .*/\1/p' "$dir/table" > "$dir/input"
    sed 's/^[^|]*| //' "$dir/table" > "$dir/output_wanted"
    : > "$dir/errors_wanted"
    expect_files 0 world "$@"
}

# ---- an answer is lost, and an old push comes again: the hub has the pushed row, the replica its own on top

plays 1 << 'END'
edit 0 insert t1 1 t=v1 | ok
push 0                  | sent 0
deliver 0 -             | sent 1
edit 0 update t1 1 t=v2 | ok
pull 0 10               | sent 2
deliver 2 -             | sent 3
deliver 3 -             | taken 1 version 1
deliver 0 -             | sent 4
deliver 4 -             | ignored
| hub 1
| row t1 1 t=v1
| replica 0 version 1 pending 1 flight 0
| row t1 1 t=v2
END

# ---- two pushes on one version: the second is stale, pulls, keeps its own, and pushes again; all have the row that it kept

plays 2 << 'END'
edit 0 insert t1 1 t=v1 | ok
edit 1 insert t1 1 t=v2 | ok
push 0                  | sent 0
push 1                  | sent 1
deliver 0 -             | sent 2
deliver 1 -             | sent 3
deliver 2 -             | accepted 1
deliver 3 -             | stale 1
pull 1 10               | sent 4
deliver 4 -             | sent 5
deliver 5 k             | taken 1 version 1
push 1                  | sent 6
deliver 6 -             | sent 7
deliver 7 -             | accepted 2
pull 0 10               | sent 8
deliver 8 -             | sent 9
deliver 9 -             | taken 1 version 2
| hub 2
| row t1 1 t=v2
| replica 0 version 2 pending 0 flight 0
| row t1 1 t=v2
| replica 1 version 2 pending 0 flight 0
| row t1 1 t=v2
END

# ---- the third clash is stopped: nothing was taken

plays 2 << 'END'
edit 0 insert t1 1 t=a | ok
edit 0 insert t1 2 t=b | ok
edit 0 insert t1 3 t=c | ok
edit 1 insert t1 1 t=x | ok
edit 1 insert t1 2 t=y | ok
edit 1 insert t1 3 t=z | ok
push 0                 | sent 0
deliver 0 -            | sent 1
pull 1 10              | sent 2
deliver 2 -            | sent 3
deliver 3 kts          | stopped 0 version 0
| hub 1
| row t1 1 t=a
| row t1 2 t=b
| row t1 3 t=c
| replica 0 version 0 pending 0 flight 3
| row t1 1 t=a
| row t1 2 t=b
| row t1 3 t=c
| replica 1 version 0 pending 3 flight 0
| row t1 1 t=x
| row t1 2 t=y
| row t1 3 t=z
END

# ---- two entries, pulled one by one: a pull goes on from its version

plays 2 << 'END'
edit 0 insert t1 1 t=a | ok
push 0                 | sent 0
deliver 0 -            | sent 1
deliver 1 -            | accepted 1
edit 0 insert t1 2 t=b | ok
push 0                 | sent 2
deliver 2 -            | sent 3
deliver 3 -            | accepted 2
pull 1 1               | sent 4
deliver 4 -            | sent 5
deliver 5 -            | taken 1 version 1
pull 1 1               | sent 6
deliver 6 -            | sent 7
deliver 7 -            | taken 1 version 2
| hub 2
| row t1 1 t=a
| row t1 2 t=b
| replica 0 version 2 pending 0 flight 0
| row t1 1 t=a
| row t1 2 t=b
| replica 1 version 2 pending 0 flight 0
| row t1 1 t=a
| row t1 2 t=b
END

# ---- two entries told at once: the replica is at the second; then none is told; and what was told is passed over the second time

plays 2 << 'END'
edit 0 insert t1 1 t=v1 | ok
push 0                  | sent 0
deliver 0 -             | sent 1
deliver 1 -             | accepted 1
edit 0 update t1 1 t=v2 | ok
push 0                  | sent 2
deliver 2 -             | sent 3
deliver 3 -             | accepted 2
catch 1 10              | sent 4
deliver 4 -             | sent 5
deliver 5 -             | taken 2 version 2
catch 1 10              | sent 6
deliver 6 -             | sent 7
deliver 7 -             | taken 0 version 2
deliver 5 -             | ignored
| hub 2
| row t1 1 t=v2
| replica 0 version 2 pending 0 flight 0
| row t1 1 t=v2
| replica 1 version 2 pending 0 flight 0
| row t1 1 t=v2
END

# ---- a limit ends what is told at once; at another version it is passed over

plays 2 << 'END'
edit 0 insert t1 1 t=a | ok
push 0                 | sent 0
deliver 0 -            | sent 1
deliver 1 -            | accepted 1
edit 0 insert t1 2 t=b | ok
push 0                 | sent 2
deliver 2 -            | sent 3
deliver 3 -            | accepted 2
edit 0 insert t1 3 t=c | ok
push 0                 | sent 4
deliver 4 -            | sent 5
deliver 5 -            | accepted 3
catch 1 2              | sent 6
catch 1 3              | sent 7
deliver 6 -            | sent 8
deliver 7 -            | sent 9
deliver 8 -            | taken 2 version 2
deliver 9 -            | ignored
catch 1 2              | sent 10
deliver 10 -           | sent 11
deliver 11 -           | taken 1 version 3
catch 0 0              | sent 12
deliver 12 -           | sent 13
deliver 13 -           | taken 0 version 3
catch 2 10             | refused NoReplica
| hub 3
| row t1 1 t=a
| row t1 2 t=b
| row t1 3 t=c
| replica 0 version 3 pending 0 flight 0
| row t1 1 t=a
| row t1 2 t=b
| row t1 3 t=c
| replica 1 version 3 pending 0 flight 0
| row t1 1 t=a
| row t1 2 t=b
| row t1 3 t=c
END

# ---- what is told at once ends before an own entry, which is told by itself: the answer to its push was lost, and it is confirmed so

plays 2 << 'END'
edit 1 insert t1 1 t=a | ok
push 1                 | sent 0
deliver 0 -            | sent 1
deliver 1 -            | accepted 1
pull 0 1               | sent 2
deliver 2 -            | sent 3
deliver 3 -            | taken 1 version 1
edit 0 insert t1 2 t=b | ok
push 0                 | sent 4
deliver 4 -            | sent 5
pull 1 1               | sent 6
deliver 6 -            | sent 7
deliver 7 -            | taken 1 version 2
edit 1 update t1 1 t=c | ok
push 1                 | sent 8
deliver 8 -            | sent 9
deliver 9 -            | accepted 3
catch 0 10             | sent 10
deliver 10 -           | sent 11
deliver 11 s           | taken 1 version 2
catch 0 10             | sent 12
deliver 12 -           | sent 13
deliver 13 s           | taken 1 version 3
deliver 5 -            | ignored
| hub 3
| row t1 1 t=c
| row t1 2 t=b
| replica 0 version 3 pending 0 flight 0
| row t1 1 t=c
| row t1 2 t=b
| replica 1 version 3 pending 0 flight 0
| row t1 1 t=c
| row t1 2 t=b
END

# ---- a row that comes and goes is nothing: who stops at each clash isn't asked, and has its own row pending

plays 2 << 'END'
edit 0 insert t1 1 t=a | ok
edit 1 insert t1 1 t=b | ok
push 0                 | sent 0
deliver 0 -            | sent 1
deliver 1 -            | accepted 1
edit 0 delete t1 1     | ok
push 0                 | sent 2
deliver 2 -            | sent 3
deliver 3 -            | accepted 2
catch 1 10             | sent 4
deliver 4 -            | sent 5
deliver 5 s            | taken 2 version 2
| hub 2
| replica 0 version 2 pending 0 flight 0
| replica 1 version 2 pending 1 flight 0
| row t1 1 t=b
END

# ---- entries told at once, behind a push and an edit that were made since: both are pending, and the next push carries both

plays 2 << 'END'
edit 0 insert t1 1 t=a | ok
push 0                 | sent 0
deliver 0 -            | sent 1
deliver 1 -            | accepted 1
edit 0 insert t1 2 t=b | ok
push 0                 | sent 2
deliver 2 -            | sent 3
deliver 3 -            | accepted 2
catch 1 10             | sent 4
deliver 4 -            | sent 5
edit 1 insert t1 3 t=c | ok
push 1                 | sent 6
edit 1 update t1 3 t=d | ok
deliver 5 -            | taken 2 version 2
deliver 6 -            | sent 7
deliver 7 -            | stale 2
push 1                 | sent 8
deliver 8 -            | sent 9
deliver 9 -            | accepted 3
| hub 3
| row t1 1 t=a
| row t1 2 t=b
| row t1 3 t=d
| replica 0 version 2 pending 0 flight 0
| row t1 1 t=a
| row t1 2 t=b
| replica 1 version 3 pending 0 flight 0
| row t1 1 t=a
| row t1 2 t=b
| row t1 3 t=d
END

# ---- the third clash of two entries that are told at once is stopped: nothing was taken, also not the first entry

plays 2 << 'END'
edit 0 insert t1 1 t=a | ok
edit 1 insert t1 1 t=x | ok
edit 1 insert t1 2 t=y | ok
edit 1 insert t1 3 t=z | ok
push 0                 | sent 0
deliver 0 -            | sent 1
deliver 1 -            | accepted 1
edit 0 insert t1 2 t=b | ok
edit 0 insert t1 3 t=c | ok
push 0                 | sent 2
deliver 2 -            | sent 3
deliver 3 -            | accepted 2
catch 1 10             | sent 4
deliver 4 -            | sent 5
deliver 5 kts          | stopped 0 version 0
deliver 5 ktk          | taken 2 version 2
| hub 2
| row t1 1 t=a
| row t1 2 t=b
| row t1 3 t=c
| replica 0 version 2 pending 0 flight 0
| row t1 1 t=a
| row t1 2 t=b
| row t1 3 t=c
| replica 1 version 2 pending 2 flight 0
| row t1 1 t=x
| row t1 2 t=b
| row t1 3 t=z
END

# ---- a clash, an entry that is deleted, and both replicas read their stores again: at rest all have the one row

plays 2 << 'END'
edit 0 insert t1 1 t=a | ok
edit 1 insert t1 1 t=b | ok
edit 1 insert t1 2 t=c | ok
push 0                 | sent 0
deliver 0 k            | sent 1
deliver 1 k            | accepted 1
push 1                 | sent 2
deliver 2 k            | sent 3
deliver 3 k            | stale 1
pull 1 10              | sent 4
deliver 4 k            | sent 5
deliver 5 k            | taken 1 version 1
push 1                 | sent 6
deliver 6 k            | sent 7
deliver 7 k            | accepted 2
edit 0 update t1 1 t=d | ok
pull 0 10              | sent 8
deliver 8 k            | sent 9
deliver 9 k            | taken 1 version 2
push 0                 | sent 10
deliver 10 k           | sent 11
deliver 11 k           | accepted 3
restart 1              | ok
pull 1 10              | sent 12
deliver 12 k           | sent 13
deliver 13 k           | taken 1 version 3
edit 1 delete t1 2     | ok
push 1                 | sent 14
deliver 14 k           | sent 15
deliver 15 k           | accepted 4
restart 0              | ok
pull 0 10              | sent 16
deliver 16 k           | sent 17
deliver 17 k           | taken 1 version 4
| hub 4
| row t1 1 t=d
| replica 0 version 4 pending 0 flight 0
| row t1 1 t=d
| replica 1 version 4 pending 0 flight 0
| row t1 1 t=d
END

# ---- no replica

plays 0 << 'END'
| hub 0
END

# ---- what is refused changes nothing: edits; a second push while one is under way; a message and a replica that aren't there

plays 1 << 'END'
edit 0 insert t1 1 t=v1   | ok
edit 0 insert t9 1        | refused NoTable
edit 0 insert t1 1 2 3    | refused Width
edit 0 insert t1 null t=x | refused NullKey
edit 0 insert t1 1 t=x    | refused Exists
edit 0 update t1 2 t=x    | refused Missing
edit 0 update t1 1 t=v1   | ok
edit 0 delete t1 1        | ok
push 0                    | refused Nothing
resend 0                  | refused Nothing
| hub 0
| replica 0 version 0 pending 0 flight 0
END
plays 1 << 'END'
edit 0 insert t1 1 t=v1 | ok
push 0                  | sent 0
edit 0 update t1 1 t=v2 | ok
push 0                  | refused InFlight
| hub 0
| replica 0 version 0 pending 1 flight 1
| row t1 1 t=v2
END
plays 1 << 'END'
edit 0 insert t1 1 t=v1 | ok
push 0                  | sent 0
edit 0 insert t1 2 t=x  | ok
push 0                  | refused InFlight
resend 0                | sent 1
deliver 9 -             | refused NoMessage
deliver 1 -             | sent 2
deliver 0 -             | sent 3
deliver 2 -             | accepted 1
deliver 3 -             | ignored
edit 1 insert t1 3 t=y  | refused NoReplica
push 1                  | refused NoReplica
restart 0               | ok
resend 0                | refused Nothing
| hub 1
| row t1 1 t=v1
| replica 0 version 1 pending 1 flight 0
| row t1 1 t=v1
| row t1 2 t=x
END

# ---- a replica that begins anew has what it had

plays 1 << 'END'
edit 0 insert t1 1 t=v1 | ok
push 0                  | sent 0
edit 0 insert t1 2 t=x  | ok
restart 0               | ok
| hub 0
| replica 0 version 0 pending 1 flight 1
| row t1 1 t=v1
| row t1 2 t=x
END

# ---- what a word may look like that can be read: zeros in front, a minus, an escape that need not be, and no value at all

plays 1 << 'END'
edit 0 insert t1 -0 x=00ff       | ok
edit 0 insert t1 007 null        | ok
edit 0 insert t%31 8 t=%41%C3%A9 | ok
edit 0 insert t1                 | refused Width
edit 0 update t1                 | refused Width
edit 0 delete t1 null            | refused NullKey
pull 0 0                         | sent 0
deliver 18446744073709551615 -   | refused NoMessage
widen 18446744073709551615 18446744073709551615 t9 4294967295 | sent 1
deliver 1 -                      | sent 2
widen 007 00 t%31 03             | sent 3
deliver 3 -                      | sent 4
| hub 1
| replica 0 version 0 pending 3 flight 0
| row t1 0 x=00ff
| row t1 7 null
| row t1 8 t=A%C3%A9
END

# ---- a long log: 4,097 pushes of a row each are accepted, and another replica takes them all at once; the hub and both have the rows of
# all

awk 'BEGIN {
    for (made = 0; made < 4097; made++) {
        printf "edit 0 insert t1 %d t=v1 | ok\n", made
        printf "push 0 | sent %d\n", 2 * made
        printf "deliver %d - | sent %d\n", 2 * made, 2 * made + 1
        printf "deliver %d - | accepted %d\n", 2 * made + 1, made + 1
    }
    print "catch 1 4294967295 | sent 8194"
    print "deliver 8194 - | sent 8195"
    print "deliver 8195 - | taken 4097 version 4097"
    print "| hub 4097"
    for (made = 0; made < 4097; made++) printf "| row t1 %d t=v1\n", made
    for (replica = 0; replica < 2; replica++) {
        printf "| replica %d version 4097 pending 0 flight 0\n", replica
        for (made = 0; made < 4097; made++) printf "| row t1 %d t=v1\n", made
    }
}' > "$dir/long"
seconds=120
plays 2 < "$dir/long"
seconds=20

# ---- a table gets a column while a push is on its way: it comes late, its change is pending again, with NULL in the column, and is pushed
# once more. The answer to the request is told to nobody, and what comes late then changes nothing

plays 1 << 'END'
edit 0 insert t1 1 t=v1 | ok
push 0                  | sent 0
widen 1 0 t1 3          | sent 1
deliver 1 -             | sent 2
deliver 0 -             | sent 3
pull 0 10               | sent 4
deliver 4 -             | sent 5
deliver 5 -             | taken 1 version 1
push 0                  | sent 6
deliver 6 -             | sent 7
deliver 7 -             | accepted 2
deliver 2 -             | ignored
deliver 3 -             | stale 1
deliver 0 -             | sent 8
deliver 8 -             | stale 2
| hub 2
| row t1 1 t=v1 null
| replica 0 version 2 pending 0 flight 0
| row t1 1 t=v1 null
END

# ---- the push goes first, and its answer is lost: it is told again behind the columns, or found in the log with them

plays 1 << 'END'
edit 0 insert t1 1 t=v1 | ok
push 0                  | sent 0
deliver 0 -             | sent 1
widen 1 1 t1 3          | sent 2
deliver 2 -             | sent 3
deliver 3 -             | ignored
| hub 2
| row t1 1 t=v1 null
| replica 0 version 0 pending 0 flight 1
| row t1 1 t=v1
END
plays 1 << 'END'
edit 0 insert t1 1 t=v1 | ok
push 0                  | sent 0
deliver 0 -             | sent 1
widen 1 1 t1 3          | sent 2
deliver 2 -             | sent 3
resend 0                | sent 4
deliver 4 -             | sent 5
deliver 5 -             | accepted 1
pull 0 10               | sent 6
deliver 6 -             | sent 7
deliver 7 s             | taken 1 version 2
deliver 1 -             | ignored
| hub 2
| row t1 1 t=v1 null
| replica 0 version 2 pending 0 flight 0
| row t1 1 t=v1 null
END
plays 1 << 'END'
edit 0 insert t1 1 t=v1 | ok
push 0                  | sent 0
edit 0 update t1 1 t=v2 | ok
deliver 0 -             | sent 1
widen 1 1 t1 3          | sent 2
deliver 2 -             | sent 3
pull 0 10               | sent 4
deliver 4 -             | sent 5
deliver 5 s             | taken 2 version 2
deliver 1 -             | ignored
push 0                  | sent 6
deliver 6 -             | sent 7
deliver 7 -             | accepted 3
| hub 3
| row t1 1 t=v2 null
| replica 0 version 3 pending 0 flight 0
| row t1 1 t=v2 null
END

# ---- what is under way and what is pending become one, and the next push has the column: an INSERT that was changed and another; a DELETE;
# an UPDATE; an UPDATE that was taken back; an INSERT that was deleted

plays 1 << 'END'
edit 0 insert t1 1 t=v1 | ok
push 0                  | sent 0
edit 0 update t1 1 t=v2 | ok
edit 0 insert t1 2 t=x  | ok
widen 1 0 t1 3          | sent 1
deliver 1 -             | sent 2
pull 0 10               | sent 3
deliver 3 -             | sent 4
deliver 4 -             | taken 1 version 1
| hub 1
| replica 0 version 1 pending 2 flight 0
| row t1 1 t=v2 null
| row t1 2 t=x null
END
plays 1 << 'END'
edit 0 insert t1 1 t=v1 | ok
push 0                  | sent 0
edit 0 update t1 1 t=v2 | ok
edit 0 insert t1 2 t=x  | ok
widen 1 0 t1 3          | sent 1
deliver 1 -             | sent 2
catch 0 10              | sent 3
deliver 3 -             | sent 4
deliver 4 -             | taken 1 version 1
push 0                  | sent 5
deliver 5 -             | sent 6
deliver 6 -             | accepted 2
| hub 2
| row t1 1 t=v2 null
| row t1 2 t=x null
| replica 0 version 2 pending 0 flight 0
| row t1 1 t=v2 null
| row t1 2 t=x null
END
plays 1 << 'END'
edit 0 insert t1 1 t=v1 | ok
push 0                  | sent 0
deliver 0 -             | sent 1
deliver 1 -             | accepted 1
edit 0 delete t1 1      | ok
push 0                  | sent 2
widen 1 1 t1 3          | sent 3
deliver 3 -             | sent 4
pull 0 10               | sent 5
deliver 5 -             | sent 6
deliver 6 -             | taken 1 version 2
push 0                  | sent 7
deliver 7 -             | sent 8
deliver 8 -             | accepted 3
| hub 3
| replica 0 version 3 pending 0 flight 0
END
plays 1 << 'END'
edit 0 insert t1 1 t=v1 | ok
push 0                  | sent 0
deliver 0 -             | sent 1
deliver 1 -             | accepted 1
edit 0 update t1 1 t=v2 | ok
widen 1 1 t1 3          | sent 2
deliver 2 -             | sent 3
pull 0 10               | sent 4
deliver 4 -             | sent 5
deliver 5 -             | taken 1 version 2
push 0                  | sent 6
deliver 6 -             | sent 7
deliver 7 -             | accepted 3
| hub 3
| row t1 1 t=v2 null
| replica 0 version 3 pending 0 flight 0
| row t1 1 t=v2 null
END
plays 1 << 'END'
edit 0 insert t1 1 t=v1 | ok
push 0                  | sent 0
deliver 0 -             | sent 1
deliver 1 -             | accepted 1
edit 0 update t1 1 t=v2 | ok
push 0                  | sent 2
edit 0 update t1 1 t=v1 | ok
widen 1 1 t1 3          | sent 3
deliver 3 -             | sent 4
pull 0 10               | sent 5
deliver 5 -             | sent 6
deliver 6 -             | taken 1 version 2
push 0                  | refused Nothing
resend 0                | refused Nothing
| hub 2
| row t1 1 t=v1 null
| replica 0 version 2 pending 0 flight 0
| row t1 1 t=v1 null
END
plays 1 << 'END'
edit 0 insert t1 1 t=v1 | ok
push 0                  | sent 0
edit 0 delete t1 1      | ok
widen 1 0 t1 3          | sent 1
deliver 1 -             | sent 2
pull 0 10               | sent 3
deliver 3 -             | sent 4
deliver 4 -             | taken 1 version 1
push 0                  | refused Nothing
| hub 1
| replica 0 version 1 pending 0 flight 0
END

# ---- a clash in front of the columns: it is asked about once, and the columns ask nobody. Kept, the own change has them; taken, nothing is
# left; and where it is stopped they don't come

# clashes WISHES: the events of two replicas that change a row, behind which the hub gives its table a column, and the second is told both
# by these wishes.
clashes() {
    cat << END
edit 0 insert t1 1 t=v1 | ok
push 0                  | sent 0
deliver 0 -             | sent 1
deliver 1 -             | accepted 1
pull 1 10               | sent 2
deliver 2 -             | sent 3
deliver 3 -             | taken 1 version 1
edit 0 update t1 1 t=x  | ok
push 0                  | sent 4
deliver 4 -             | sent 5
deliver 5 -             | accepted 2
widen 1 2 t1 3          | sent 6
deliver 6 -             | sent 7
edit 1 update t1 1 t=y  | ok
pull 1 10               | sent 8
deliver 8 -             | sent 9
deliver 9 $1            | $2
END
}

{
    clashes ks 'taken 2 version 3'
    cat << 'END'
push 1      | sent 10
deliver 10 - | sent 11
deliver 11 - | accepted 4
pull 0 10    | sent 12
deliver 12 - | sent 13
deliver 13 s | taken 2 version 4
| hub 4
| row t1 1 t=y null
| replica 0 version 4 pending 0 flight 0
| row t1 1 t=y null
| replica 1 version 4 pending 0 flight 0
| row t1 1 t=y null
END
} > "$dir/clashed"
plays 2 < "$dir/clashed"
{
    clashes ts 'taken 2 version 3'
    cat << 'END'
push 1 | refused Nothing
| hub 3
| row t1 1 t=x null
| replica 0 version 2 pending 0 flight 0
| row t1 1 t=x
| replica 1 version 3 pending 0 flight 0
| row t1 1 t=x null
END
} > "$dir/clashed"
plays 2 < "$dir/clashed"
{
    clashes s 'stopped 0 version 1'
    cat << 'END'
| hub 3
| row t1 1 t=x null
| replica 0 version 2 pending 0 flight 0
| row t1 1 t=x
| replica 1 version 1 pending 1 flight 0
| row t1 1 t=y
END
} > "$dir/clashed"
plays 2 < "$dir/clashed"

# ---- and a clash behind the columns, over a change that was made without them: the stop leaves what was taken before it

plays 2 << 'END'
edit 0 insert t1 1 t=v1 | ok
push 0                  | sent 0
deliver 0 -             | sent 1
deliver 1 -             | accepted 1
pull 1 10               | sent 2
deliver 2 -             | sent 3
deliver 3 -             | taken 1 version 1
edit 1 update t1 1 t=y  | ok
widen 1 1 t1 3          | sent 4
deliver 4 -             | sent 5
pull 0 10               | sent 6
deliver 6 -             | sent 7
deliver 7 -             | taken 1 version 2
edit 0 update t1 1 t=x  | refused Width
edit 0 update t1 1 t=x 5 | ok
push 0                  | sent 8
deliver 8 -             | sent 9
deliver 9 -             | accepted 3
edit 1 update t1 1 - 6  | refused Width
pull 1 10               | sent 10
deliver 10 -            | sent 11
deliver 11 s            | stopped 1 version 2
edit 1 update t1 1 - 6  | ok
deliver 11 ks           | taken 1 version 3
push 1                  | sent 12
deliver 12 -            | sent 13
deliver 13 -            | accepted 4
| hub 4
| row t1 1 t=y 6
| replica 0 version 3 pending 0 flight 0
| row t1 1 t=x 5
| replica 1 version 4 pending 0 flight 0
| row t1 1 t=y 6
END

# ---- a change of the new column by one who has it, and one of another column by one who hasn't: both count, and nobody is asked

plays 2 << 'END'
edit 0 insert t1 1 t=v1 | ok
push 0                  | sent 0
deliver 0 -             | sent 1
deliver 1 -             | accepted 1
pull 1 10               | sent 2
deliver 2 -             | sent 3
deliver 3 -             | taken 1 version 1
widen 1 1 t1 3          | sent 4
deliver 4 -             | sent 5
edit 1 update t1 1 t=y  | ok
pull 0 10               | sent 6
deliver 6 -             | sent 7
deliver 7 s             | taken 1 version 2
edit 0 update t1 1 - 5  | ok
push 0                  | sent 8
deliver 8 -             | sent 9
deliver 9 -             | accepted 3
pull 1 10               | sent 10
deliver 10 -            | sent 11
deliver 11 s            | taken 2 version 3
push 1                  | sent 12
deliver 12 -            | sent 13
deliver 13 -            | accepted 4
pull 0 10               | sent 14
deliver 14 -            | sent 15
deliver 15 s            | taken 1 version 4
| hub 4
| row t1 1 t=y 5
| replica 0 version 4 pending 0 flight 0
| row t1 1 t=y 5
| replica 1 version 4 pending 0 flight 0
| row t1 1 t=y 5
END

# ---- two requests for one table and one for another, pulled at once: the rows of both, edits of the old width, and a replica that begins
# anew

plays 1 t1:10 t2:101 << 'END'
edit 0 insert t2 1 5 t=k         | ok
push 0                           | sent 0
deliver 0 -                      | sent 1
deliver 1 -                      | accepted 1
widen 1 1 t2 5                   | sent 2
deliver 2 -                      | sent 3
widen 2 2 t2 6                   | sent 4
deliver 4 -                      | sent 5
widen 3 3 t1 4                   | sent 6
deliver 6 -                      | sent 7
edit 0 insert t2 1 null t=m      | ok
pull 0 10                        | sent 8
deliver 8 -                      | sent 9
deliver 9 -                      | taken 3 version 4
restart 0                        | ok
edit 0 insert t1 1 2             | refused Width
edit 0 insert t1 1 2 3           | refused Width
edit 0 insert t1 1 2 3 4         | ok
edit 0 update t2 1 - t=k - - 7   | ok
edit 0 update t2 1 8 t=k         | refused Width
edit 0 delete t2 1 t=k null      | refused Width
push 0                           | sent 10
deliver 10 -                     | sent 11
deliver 11 -                     | accepted 5
edit 0 delete t2 1 t=k           | ok
| hub 5
| row t1 1 2 3 4
| row t2 1 5 t=k null null 7
| row t2 1 null t=m null null null
| replica 0 version 5 pending 1 flight 0
| row t1 1 2 3 4
| row t2 1 null t=m null null null
END

# ---- a table without rows, one entry at a time; the request twice, with a push between, and others that the hub refuses, each told to
# nobody

plays 1 << 'END'
widen 1 0 t1 3          | sent 0
widen 1 0 t9 3          | sent 1
widen 1 0 t1 2          | sent 2
widen 1 9 t1 3          | sent 3
deliver 1 -             | sent 4
deliver 2 -             | sent 5
deliver 3 -             | sent 6
deliver 0 -             | sent 7
deliver 0 -             | sent 8
pull 0 1                | sent 9
deliver 9 -             | sent 10
deliver 10 -            | taken 1 version 1
edit 0 insert t1 1 2 3  | ok
push 0                  | sent 11
deliver 11 -            | sent 12
deliver 12 -            | accepted 2
deliver 0 -             | sent 13
deliver 4 -             | ignored
deliver 5 ks            | ignored
deliver 6 -             | ignored
deliver 7 -             | ignored
deliver 8 -             | ignored
deliver 13 -            | ignored
deliver 10 -            | taken 0 version 2
widen 2 2 t1 5          | sent 14
deliver 14 -            | sent 15
pull 0 0                | sent 16
deliver 16 -            | sent 17
deliver 17 -            | taken 0 version 2
pull 0 1                | sent 18
deliver 18 -            | sent 19
deliver 19 -            | taken 1 version 3
deliver 19 -            | taken 0 version 3
| hub 3
| row t1 1 2 3 null null
| replica 0 version 3 pending 0 flight 0
| row t1 1 2 3 null null
END

# ---- entries told together end before the one that gives columns; it is told by itself, and those behind it together again

plays 2 << 'END'
edit 0 insert t1 1 t=a   | ok
push 0                   | sent 0
deliver 0 -              | sent 1
deliver 1 -              | accepted 1
edit 0 insert t1 2 t=b   | ok
push 0                   | sent 2
deliver 2 -              | sent 3
deliver 3 -              | accepted 2
widen 7 2 t1 3           | sent 4
deliver 4 -              | sent 5
pull 0 10                | sent 6
deliver 6 -              | sent 7
deliver 7 -              | taken 1 version 3
edit 0 update t1 1 - 5   | ok
push 0                   | sent 8
deliver 8 -              | sent 9
deliver 9 -              | accepted 4
edit 0 delete t1 2       | ok
push 0                   | sent 10
deliver 10 -             | sent 11
deliver 11 -             | accepted 5
edit 1 insert t1 2 t=z   | ok
catch 1 10               | sent 12
deliver 12 -             | sent 13
deliver 13 s             | stopped 0 version 0
deliver 13 ks            | taken 2 version 2
catch 1 10               | sent 14
deliver 14 -             | sent 15
deliver 15 s             | taken 1 version 3
deliver 13 s             | ignored
catch 1 10               | sent 16
deliver 16 -             | sent 17
deliver 17 ks            | taken 2 version 5
push 1                   | sent 18
deliver 18 -             | sent 19
deliver 19 -             | accepted 6
| hub 6
| row t1 1 t=a 5
| row t1 2 t=z null
| replica 0 version 5 pending 0 flight 0
| row t1 1 t=a 5
| replica 1 version 6 pending 0 flight 0
| row t1 1 t=a 5
| row t1 2 t=z null
END

# ---- five replicas with a push on its way: that of each in turn comes before the columns, and is taken with the columns that it has; those
# of the others come behind, are late, and are made anew with the new one

for early in 0 1 2 3 4; do
    awk -v early="$early" '
    function asks(event) { printf "%s | sent %d\n", event, sent++ }
    BEGIN {
        for (at = 0; at < 5; at++) printf "edit %d insert t1 %d t=a | ok\n", at, at
        for (at = 0; at < 5; at++) asks("push " at)
        asks("deliver " early " -")
        printf "deliver %d - | accepted 1\n", sent - 1
        asks("widen 1 1 t1 3")
        asks("deliver " sent - 1 " -")
        for (at = 0; at < 5; at++) {
            asks("deliver " at " -")
            printf "deliver %d - | %s\n", sent - 1, at == early ? "ignored" : "stale 2"
        }
        newest = 2
        for (at = 0; at < 5; at++) {
            asks("pull " at " 10")
            asks("deliver " sent - 1 " -")
            printf "deliver %d s | taken %d version %d\n", sent - 1, newest - (at == early), newest
            if (at == early) continue
            asks("push " at)
            asks("deliver " sent - 1 " -")
            printf "deliver %d - | accepted %d\n", sent - 1, ++newest
        }
        print "| hub 6"
        for (at = 0; at < 5; at++) printf "| row t1 %d t=a null\n", at
        stood = 2
        for (at = 0; at < 5; at++) {
            if (at != early) stood++
            printf "| replica %d version %d pending 0 flight 0\n", at, stood
            for (row = 0; row < 5; row++) if (row == early || row <= at) printf "| row t1 %d t=a null\n", row
        }
    }' > "$dir/five"
    plays 5 < "$dir/five"
done

# ---- a table of 3,000 rows, half of them with a change pending and one in three of those in the push under way

awk 'BEGIN {
    for (row = 0; row < 3000; row++) printf "edit 0 insert t1 %d t=v | ok\n", row
    print "push 0 | sent 0\ndeliver 0 - | sent 1\ndeliver 1 - | accepted 1"
    for (row = 0; row < 3000; row += 6) printf "edit 0 update t1 %d t=w | ok\n", row
    print "push 0 | sent 2"
    for (row = 0; row < 3000; row += 2) printf "edit 0 %s t1 %d%s | ok\n", row % 4 ? "delete" : "update", row, row % 4 ? "" : " t=x"
    print "widen 1 1 t1 4 | sent 3\ndeliver 3 - | sent 4\npull 0 10 | sent 5\ndeliver 5 - | sent 6\ndeliver 6 s | taken 1 version 2"
    print "restart 0 | ok\npush 0 | sent 7\ndeliver 7 - | sent 8\ndeliver 8 - | accepted 3"
    for (shown = 0; shown < 2; shown++) {
        print shown ? "| replica 0 version 3 pending 0 flight 0" : "| hub 3"
        for (row = 0; row < 3000; row++) if (row % 4 != 2) printf "| row t1 %d t=%s null null\n", row, row % 4 ? "v" : "x"
    }
}' > "$dir/large"
seconds=120
plays 1 < "$dir/large"
seconds=20

# ---- lines that name nothing: each alone is told as line 1, and behind others by its number, and nothing is printed

for line in '' ' ' push 'push ' 'push  0' ' push 0' 'push 0 ' 'push +0' 'push 4294967296' 'push x' 'pull 0' 'pull 0 -1' 'deliver 0' 'deliver 0 ' \
    'deliver 0 x' 'deliver 0 K' 'deliver 0 k-' 'deliver 18446744073709551616 -' 'edit 0 insert' 'edit 0 replace t1 1' 'edit 0 insert t1 - t=a' \
    'edit 0 insert t1 1 t=%0a' 'edit 0 insert t1 1 t=%FF' 'edit 0 insert t1 1 x=AB' 'edit 0 insert t1 1 x=0' \
    'edit 0 insert t1 9223372036854775808 t=a' 'edit 0 insert t1 +1 t=a' 'edit 0 update t1 - t=a' 'edit 0 delete t1 -' 'catch 0' 'catch 0 -1' \
    'catch 0 10 1' 'catch 0 4294967296' \
    widen 'widen 1' 'widen 1 0' 'widen 1 0 t1' 'widen 1 0 t1 ' 'widen 1 0 t1 3 ' 'widen 1 0 t1 3 4' 'widen  1 0 t1 3' 'widen 1 0 t1  3' 'widen x 0 t1 3' \
    'widen -1 0 t1 3' 'widen +1 0 t1 3' 'widen 1 - t1 3' 'widen 1 0 t1 -3' 'widen 1 0 t1 x' 'widen 1 0 t1 4294967296' 'widen 18446744073709551616 0 t1 3' \
    'widen 1 18446744073709551616 t1 3' 'widen 1 0 t%1 3' 'widen 1 0 t%FF 3' 'widen 1 0 t%c3%a9 3'; do
    expect 1 "$line\n" '' 'sync: line 1\n' world 1 t1:10
done
expect 1 'edit 0 insert t1 1 t=v1\nnonsense\n' '' 'sync: line 2\n' world 1 t1:10
expect 1 'push 0\npush 0\nedit 0 update t1 - t=v1\n' '' 'sync: line 3\n' world 1 t1:10

# ---- so many replicas as no memory holds; table words and command lines that are refused

expect 1 '' '' 'sync: Memory\n' world 4294967295 t1:10
expect 2 'push 0\n' '' 'sync: table t1:12\n' world 1 t1:12
for words in 'world' 'world x t1:10' 'world 4294967296 t1:10'; do
    expect 2 '' '' 'sync: command line\n' $words
done

[ "$failed" -eq 0 ] || exit 1
echo "worlds: $runs scripts, each with its status, output and errors"
