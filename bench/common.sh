# What the scripts of this folder share: where things are, and how the programs are built. To be read by `.`, with
# `bench` set to this folder. Scripts that run side by side are given a folder each to write into, as BENCH_OUT.

out="${BENCH_OUT:-$bench/out}"
sqlite_flags="-DSQLITE_ENABLE_SESSION -DSQLITE_ENABLE_PREUPDATE_HOOK"
crate="$bench/../crates/cs_ffi"
library="${library:-}"

# Whether a C program against SQLite with its session extension can be built. What is built prints SQLite's version.
can_build() {
    mkdir -p "$out"
    printf '%s\n' '#include <sqlite3.h>' '#include <stdio.h>' \
        'int main(int count, char **words) { return count > 1 ? sqlite3session_create(0, *words, 0) : puts(sqlite3_libversion()) < 0; }' \
        > "$out/probe.c"
    cc $sqlite_flags "$out/probe.c" -o "$out/probe" -lsqlite3 2> "$out/probe.log"
}

# Makes it so where the package manager and the rights are there.
need_sqlite() {
    can_build && return 0
    command -v apt-get > /dev/null || return 1
    { apt-get update && apt-get install -y libsqlite3-dev; } > "$out/apt.log" 2>&1
    can_build
}

# The same of the `sqlite3` shell.
need_shell() {
    command -v sqlite3 > /dev/null && return 0
    command -v apt-get > /dev/null || return 1
    mkdir -p "$out"
    { apt-get update && apt-get install -y sqlite3; } > "$out/apt_shell.log" 2>&1
    command -v sqlite3 > /dev/null
}

# The folder of the toolchain.
toolchain() {
    local rt
    rt="$(command -v rt)" || return 1
    dirname "$(dirname "$(readlink -f "$rt")")"
}

# The toolchain's C part, which gives the library its memory (malloc).
heap_library() {
    echo "$(toolchain)/c/liblibc_c.a"
}

# The toolchain's C part for the system, of which SQLite's engine names the number of an error.
system_library() {
    echo "$(toolchain)/c/libos_c.a"
}

# Proves and builds the library of a crate, where none was given: build_library [CRATE], of cs_ffi where none is named.
build_library() {
    local of="${1:-cs_ffi}"
    [ -z "$library" ] || return 0
    mkdir -p "$out"
    (cd "$bench/../crates/$of" && rt lib > "$out/rt_lib_$of.log" 2>&1) || {
        echo "the library isn't built: see $out/rt_lib_$of.log" >&2
        return 1
    }
    library="$bench/../crates/$of/out/lib$of.a"
}

# The program that runs the drawn cases by the library: where the gate or an earlier run left it, else it is proved and built.
need_runner() {
    runner="$bench/../crates/beside_sqlite/out/beside_sqlite"
    [ -x "$runner" ] && return 0
    mkdir -p "$out"
    (cd "$bench/../crates/beside_sqlite" && rt run < /dev/null > "$out/runner.log" 2>&1) || {
        echo "the program that runs the cases isn't built: see $out/runner.log" >&2
        return 1
    }
}

# Checks the crate of a library once more, and builds the library, over the crates below as `rt ci` has just proved and left them, as that builds its
# programs. `rt lib` takes none of those, and proves each of them again. BEGUN is a file written as `rt ci` began: where what stands of a crate is older,
# `rt ci` has put back what it found there, which may be of other sources, and nothing is built: build_library_behind_gate BEGUN CRATE
build_library_behind_gate() {
    local begun="$1" of="$2" kit crates below
    kit="$(toolchain)" || return 1
    crates="$(cd "$bench/../crates" && pwd)"
    set -- --crate-name "$of" src/lib.rt --crate-type staticlib --jobs 1 --extern "std=$kit/rlibs/std.rlib" -L "dependency=$kit/rlibs"
    set -- "$@" --antt-project "$kit/rattle/logic/antt-project.json" --logic-built "$kit/logic_built"
    set -- "$@" --toolchain "$kit/toolchain" --backend llvm -o "out/lib$of.a"
    for below in $(sed -n "s/^$of .*: *//p" "$bench/../crates.txt"); do
        [ ! -e "$kit/rlibs/$below.rlib" ] || set -- "$@" --extern "$below=$kit/rlibs/$below.rlib"
    done
    for below in $(crates_below "$of"); do
        [ "$below" != "$of" ] || continue
        [ "$crates/$below/out/rlib/$below.rlib" -nt "$begun" ] || return 1
        set -- "$@" --extern "$below=$crates/$below/out/rlib/$below.rlib"
    done
    mkdir -p "$crates/$of/out"
    (cd "$crates/$of" && "$kit/bin/rattle" build "$@")
}

build_capture() {
    cc -O2 -Wall -Wextra $sqlite_flags "$bench/sqlite_capture.c" -o "$out/sqlite_capture" -lsqlite3
}

# A program of this folder over the library and SQLite; further words are what else it is linked with.
build_program() {
    local name="$1"
    shift
    cc -O2 -Wall -Wextra $sqlite_flags "$bench/$name.c" "$library" "$@" "$(heap_library)" -lsqlite3 -lpthread -ldl -lm \
        -o "$out/$name"
}

# The crates that are named, and all below them, one a line.
crates_below() {
    awk -v wanted="$*" '
        /^#/ { next }
        { name = $1; sub(/:$/, "", name); sub(/^[^:]*: */, ""); deps[name] = $0 }
        END {
            count = split(wanted, queue, " ")
            for (at = 1; at <= count; at++) {
                name = queue[at]
                if (seen[name]++ || !(name in deps)) continue
                print name
                more = split(deps[name], below, " ")
                for (k = 1; k <= more; k++) queue[++count] = below[k]
            }
        }' "$bench/../crates.txt"
}

# Copies crates and all below them, with what their proofs left, into a repository of its own: copy_crates FOLDER CRATE ...
copy_crates() {
    local into="$1"
    shift
    mkdir -p "$into/crates"
    cp "$bench/../HANDLES" "$into/"
    for crate_below in $(crates_below "$@"); do
        cp -r "$bench/../crates/$crate_below" "$into/crates/"
        grep "^$crate_below[ :]" "$bench/../crates.txt" >> "$into/crates.txt"
    done
}

# Proves and builds the Rattle program NAME.rattle of this folder, with rows.rattle where that is a module of it. It uses these crates
# and libraries of the kit: build_rattle NAME USED... It is made over copies of them and of all crates below, in a repository of its
# own outside this one, since the gate takes no source that is no crate's. A crate is copied with what its proof left: behind `rt check`
# or `rt lib` it isn't proved again; what `rt ci` leaves isn't taken. The invariants of its loops stand in NAME.invariants, each behind a
# line `== FUNCTION`.
build_rattle() {
    local name="$1" work
    shift
    mkdir -p "$out"
    work="$(mktemp -d)"
    mkdir -p "$work/crates/$name/src"
    copy_crates "$work" "$@"
    echo "$name: $*" >> "$work/crates.txt"
    cp "$bench/$name.rattle" "$work/crates/$name/src/main.rt"
    ! grep -q '^mod rows;' "$bench/$name.rattle" || cp "$bench/rows.rattle" "$work/crates/$name/src/rows.rt"
    [ ! -f "$bench/$name.invariants" ] || awk -v proofs="$work/crates/$name/proofs" '
        /^== / { into = proofs "/" $2; system("mkdir -p " into); into = into "/Invariants.antt"; next }
        { print > into }' "$bench/$name.invariants"
    : > "$work/crates/$name/stdin"
    if (cd "$work/crates/$name" && rt run > "$out/${name}_build.log" 2>&1); then
        cp "$work/crates/$name/out/$name" "$out/$name"
        rm -rf "$work"
    else
        rm -rf "$work"
        echo "the program isn't built: see $out/${name}_build.log" >&2
        return 1
    fi
}

# Times two sides by turns, so that both meet the machine as it is at the moment: what `theirs` and `ours` print, so many times one after
# the other, goes into a line each of the file that is named. Each prints the nanoseconds it took, and then what has to agree.
take_turns() {
    turn=0
    : > "$2"
    while [ "$turn" -lt "$1" ]; do
        echo "$(theirs) $(ours)" >> "$2"
        turn=$((turn + 1))
    done
}

# The ratio of our time to theirs in the turn at a quarter and in that at three quarters, of turns whose times stand in these columns.
turn_ratios() {
    awk -v theirs="$2" -v ours="$3" '{ print $ours / $theirs }' "$1" | sort -g |
        awk '{ all[NR] = $1 } END { printf "%.2f to %.2f", all[int((NR + 3) / 4)], all[int((3 * NR + 3) / 4)] }'
}

# What the figures depend on beside the code: the machine, and the compilers of what is compared.
print_machine() {
    echo "processor: $(sed -n 's/^model name[^:]*: *//p' /proc/cpuinfo | head -n 1), $(nproc) of them"
    echo "toolchain: $(rt version); $(cc --version | head -n 1); $(rustc --version)"
}

# The same, and the version of SQLite that is compared with. After need_sqlite.
print_machine_and_sqlite() {
    print_machine
    echo "SQLite: $("$out/probe")"
}
