# What the scripts share that run the built program as a person would. To be read by `.`, with `program` set to its path.
# A run's status, output and errors are compared with what they have to be.

dir="$(mktemp -d)"
trap 'rm -rf "$dir"' EXIT
failed=0
runs=0
# How long a run may take.
seconds=20

# expect STATUS INPUT OUTPUT ERRORS WORD..: runs the program on the words. In INPUT, OUTPUT and ERRORS `\n` ends a line.
expect() {
    status=$1
    printf %b "$2" > "$dir/input"
    printf %b "$3" > "$dir/output_wanted"
    printf %b "$4" > "$dir/errors_wanted"
    shift 4
    expect_files "$status" "$@"
}

# expect_files STATUS WORD..: the same of an input that stands in the file `input` already, and of what `output_wanted` and
# `errors_wanted` hold.
expect_files() {
    status=$1
    shift
    ended=0
    timeout "$seconds" "$program" "$@" < "$dir/input" > "$dir/output" 2> "$dir/errors" || ended=$?
    compare "$status" "$@"
}

# compare STATUS WORD..: compares a run that ended so, with `ended`, and left `output` and `errors`.
compare() {
    status=$1
    shift
    runs=$((runs + 1))
    [ "$ended" -eq "$status" ] || tell "ended with $ended in place of $status" "$@"
    cmp -s "$dir/output" "$dir/output_wanted" || tell "wrote $(head -c 200 "$dir/output")" "$@"
    cmp -s "$dir/errors" "$dir/errors_wanted" || tell "told $(head -c 200 "$dir/errors")" "$@"
}

tell() {
    what=$1
    shift
    echo "sync $*: $what (input: $(head -c 200 "$dir/input"))" >&2
    failed=1
}
