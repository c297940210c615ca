# For the tests of programs, which source it: what they compare, and how an input comes to a program. Counts `runs`, and those that
# `differ`; what is left behind in $work goes at the end.
work=$(mktemp -d)
trap 'rm -rf "$work"' EXIT

runs=0
differ=0

# in_pieces SIZE..: copies its input in pieces of these sizes, then the rest. The pauses let the program take each piece
# by itself; without them the pipe would join them again.
in_pieces() {
    local size
    for size in "$@"; do
        dd bs="$size" count=1 status=none
        sleep 0.002
    done
    cat
}

# compare NAME EXPECTED STATUS: what was printed into $work/printed, and how the program ended.
compare() {
    runs=$((runs + 1))
    [ "$3" -eq 0 ] || printf '%s: ended with %s\n' "$1" "$3"
    if ! cmp -s "$2" "$work/printed"; then
        printf '%s: printed (+) is not what was expected (-)\n' "$1"
        diff -u "$2" "$work/printed" | sed -n '4,12p'
    elif [ "$3" -eq 0 ]; then
        return
    fi
    differ=$((differ + 1))
}

# check PROGRAM NAME INPUT EXPECTED SIZE..: the input as a file, then through a pipe in pieces of these sizes. Where the program ends
# before it took all pieces, its own end counts and not that of the pipe.
check() {
    local program=$1 name=$2 input=$3 expected=$4
    shift 4
    "$program" <"$input" >"$work/printed"
    compare "$name" "$expected" $?
    in_pieces "$@" <"$input" | "$program" >"$work/printed"
    compare "$name, in pieces" "$expected" "${PIPESTATUS[1]}"
}

# all_alike: says how many runs there were, and whether none differed.
all_alike() {
    printf '%s runs, %s differ\n' "$runs" "$differ"
    [ "$differ" -eq 0 ]
}
