# Compares what SQLite and the library make of the cases of `bench/rebase.sh`: awk -f rebase.awk EXPECTED TOLD, where the first
# file is SQLite's. Each case has the rows that are left on both ways: the local rows with the remote changeset applied ("local"),
# and the remote rows with the rebased local changeset applied ("remote"). It fails unless both leave the same rows on either way,
# and the library's ways lead to the same rows, without a conflict at the end, wherever each answer was lawful.

# Reads the next case of a file, and what both sides did at the places of conflicts, where the file tells it.
function read_case(file, rows, kinds,    line, words) {
    delete rows
    delete kinds
    while ((getline line < file) > 0) {
        split(line, words, " ")
        if (words[1] == "place") {
            kinds[words[2] " " words[3]] = substr(line, length(words[1] words[2] words[3]) + 4)
        } else if (words[1] == "local" || words[1] == "remote") {
            # Behind a letter, so that no bytes are compared as numbers.
            rows[words[1] " " words[2] " " words[3]] = "x" words[4]
        } else if (words[1] != "case") {
            rows[words[1]] = words[2]
        }
        if (words[1] == "met") return 1
    }
    return 0
}

# Compares the rows of a place.
function compare_place(place, kind,    here, there) {
    here = "local " place
    there = "remote " place
    if (theirs[here] != ours[here]) applied_apart++
    if (theirs[there] != ours[there]) rebased_apart[kind]++
    if (theirs[here] != theirs[there]) {
        sqlite_open[kind]++
        sqlite_closes = 0
    }
    if (ours[here] != ours[there]) {
        library_open[kind]++
        library_closes = 0
    }
}

function compare_case(    name, words, seen, kind) {
    sqlite_closes = library_closes = lawful = 1
    for (name in kinds) {
        places[kinds[name]]++
        if (kinds[name] ~ /not lawful/) lawful = 0
    }
    for (name in ours) theirs[name] = theirs[name]
    for (name in theirs) {
        split(name, words, " ")
        if (words[2] == "" || (words[2] " " words[3]) in seen) continue
        seen[words[2] " " words[3]] = 1
        kind = kinds[words[2] " " words[3]]
        compare_place(words[2] " " words[3], kind == "" ? "no conflict" : kind)
    }
    if (theirs["asked"] != ours["asked"]) applied_apart++
    cases[lawful]++
    sqlite_cases[lawful] += sqlite_closes
    library_cases[lawful] += library_closes
    sqlite_met[lawful] += theirs["met"]
    library_met[lawful] += ours["met"]
}

function print_kinds(    kind) {
    print "the local change over the remote one, and the answer: places; of these, where the two ways lead to different rows, by"
    print "SQLite's rebaser and by the library's; where the rebased changesets of the two leave different rows"
    places["no conflict"] += 0
    for (kind in places) {
        if (kind == "no conflict" && sqlite_open[kind] + library_open[kind] + rebased_apart[kind] == 0) continue
        printf "  %-42s %6d: %d and %d; %d\n", kind, places[kind], sqlite_open[kind], library_open[kind], rebased_apart[kind] | "sort"
    }
    close("sort")
}

function print_cases(lawful, which) {
    printf "%d cases %s: the two ways lead to the same rows in %d by SQLite's rebaser and in %d by the library's; the rebased ", cases[lawful],
        which, sqlite_cases[lawful], library_cases[lawful]
    printf "changesets met %d and %d conflicts\n", sqlite_met[lawful], library_met[lawful]
}

BEGIN {
    while (read_case(ARGV[1], theirs, kinds)) {
        if (!read_case(ARGV[2], ours, none)) {
            print "WRONG: the library told fewer cases"
            exit 1
        }
        compare_case()
    }
    print_cases(1, "with lawful answers alone")
    print_cases(0, "with other answers too")
    print_kinds()
    for (kind in rebased_apart) differ += rebased_apart[kind]
    if (applied_apart > 0) print "WRONG: the two apply remote changesets in different ways"
    if (differ > 0) print "WRONG: the two rebase in different ways"
    if (library_cases[1] != cases[1]) print "WRONG: the library's two ways lead to different rows though each answer was lawful"
    if (library_met[1] > 0) print "WRONG: the library's rebased changesets met conflicts though each answer was lawful"
    if (cases[1] == 0 || cases[0] == 0) print "WRONG: there are no cases of a kind"
    exit cases[1] == 0 || cases[0] == 0 || applied_apart > 0 || differ > 0 || library_cases[1] != cases[1] || library_met[1] > 0
}
