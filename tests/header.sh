#!/usr/bin/env bash
# header.sh HEADER ARCHIVE: compiles tests/header.c with the header, links it with the archive and runs it. Then it exchanges the names of
# two fields in a copy of the header, for every two fields of every struct. Each copy must not compile, for its sizes and places; and where
# both fields have one type, so that nothing but what they mean has changed, the calls alone must notice: compiled without the test of
# places, the program runs and answers 1. Prints what goes by unnoticed; exits with 1 where something did.
set -uo pipefail
cd "$(dirname "$0")/.." || exit 2

header=${1:?the header}
archive=${2:?the archive}
work=$(mktemp -d)
trap 'rm -rf "$work"' EXIT
failed=0

# build FOLDER [OPTION..]: tests/header.c with the header of this folder.
build() {
    local folder=$1
    shift
    gcc -std=c11 -Wall -Wextra -Werror -I"$folder" "$@" tests/header.c "$archive" -o "$work/program" 2>"$work/said"
}

# fields: a line STRUCT NAME TYPE for each field of the header; a type may have several words.
fields() {
    awk '/^struct [a-z_]+ \{$/ { struct = $2; next }
        /^\};/ { struct = "" }
        struct != "" && /^    [a-z].*;/ {
            declared = $0
            sub(/;.*/, "", declared)
            count = split(declared, words, " ")
            name = words[count]
            type = words[1] (count > 2 ? " " words[2] : "")
            if (sub(/\[.*/, "", name)) type = type "[]"
            print struct, name, type
        }' "$header"
}

# exchange STRUCT A B: the header with the names of two fields of this struct exchanged, where they are declared.
exchange() {
    local declared='s/^\([^;]* \)'
    sed "/^struct $1 {\$/,/^};/ { $declared$2\([;[]\)/\1@\2/; $declared$3\([;[]\)/\1$2\2/; $declared@\([;[]\)/\1$3\2/ }" "$header"
}

# unnoticed WHAT
unnoticed() {
    printf '%s\n' "$1"
    failed=1
}

mkdir "$work/as_it_is" "$work/exchanged"
cp "$header" "$work/as_it_is/tailsprig.h"
if ! build "$work/as_it_is"; then
    cat "$work/said"
    exit 1
fi
"$work/program" || exit 1

pairs=0
by_calls=0
fields >"$work/fields"
while read -r struct a type; do
    while read -r struct_b b type_b; do
        if [ "$struct" != "$struct_b" ] || [[ ! "$a" < "$b" ]]; then
            continue
        fi
        pairs=$((pairs + 1))
        exchange "$struct" "$a" "$b" >"$work/exchanged/tailsprig.h"
        if build "$work/exchanged" || ! grep -q 'static assertion failed' "$work/said"; then
            unnoticed "$struct: $a and $b can be exchanged, and every size and place is right"
        fi
        [ "$type" = "$type_b" ] || continue
        by_calls=$((by_calls + 1))
        if ! build "$work/exchanged" -DCALLS_ALONE; then
            unnoticed "$struct: with $a and $b exchanged the calls do not compile"
            continue
        fi
        "$work/program" >"$work/printed"
        [ "$?" -eq 1 ] || unnoticed "$struct: $a and $b can be exchanged, and every answer is right"
    done <"$work/fields"
done <"$work/fields"

printf 'the header fits; %s exchanges of two fields, %s of them seen by the calls alone\n' "$pairs" "$by_calls"
[ "$by_calls" -gt 20 ] || unnoticed 'hardly any fields were found'
exit "$failed"
