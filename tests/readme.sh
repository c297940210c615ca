#!/usr/bin/env bash
# readme.sh README [KEPT_OUT..]: runs every block of commands (```sh) of README, each by itself in this folder, as it stands. Where a
# block of text (```text) follows, that is what the commands have to print, byte for byte. A block of C (```c) has to be a file of
# examples/, so that it is compiled where that file is. A block that has a line beginning with one of KEPT_OUT is not run: what
# installs, and what runs this. Prints what fails; exits with 1 where something did, and with 2 where there is nothing to run.
set -uo pipefail

readme=${1:?the README}
shift
work=$(mktemp -d)
trap 'rm -rf "$work"' EXIT

# The blocks, as files NNN.sh, NNN.text and NNN.c in their order.
awk -v work="$work" '
    /^```/ && file == "" { if ($0 != "```") file = sprintf("%s/%03d.%s", work, ++blocks, substr($0, 4)); next }
    /^```/ { close(file); file = ""; next }
    file != "" { print > file }' "$readme"

ran=0
failed=0

# fail WHAT FILE: says what is wrong, and with which block.
fail() {
    printf '%s: %s:\n' "$readme" "$1"
    sed 's/^/    /' "$2"
    failed=$((failed + 1))
}

is_kept_out() {
    local block=$1 word
    shift
    for word in "$@"; do
        grep -q "^$word" "$block" && return 0
    done
    return 1
}

for block in "$work"/*.sh; do
    [ -f "$block" ] || break
    is_kept_out "$block" "$@" && continue
    ran=$((ran + 1))
    bash -euo pipefail "$block" >"$work/printed" 2>"$work/said" </dev/null || { cat "$work/said"; fail 'a command failed' "$block"; }
    number=$(basename "$block" .sh)
    expected=$(printf '%s/%03d.text' "$work" $((10#$number + 1)))
    if [ -f "$expected" ] && ! diff -u "$expected" "$work/printed" >"$work/difference"; then
        fail 'what a command prints is not what stands below it' "$work/difference"
    fi
done

for block in "$work"/*.c; do
    [ -f "$block" ] || break
    same=0
    for example in examples/*.c; do
        cmp -s "$block" "$example" && same=1
    done
    [ "$same" -eq 1 ] || fail 'a program that is no file of examples/' "$block"
done

printf '%s blocks of commands ran, %s failed\n' "$ran" "$failed"
[ "$ran" -gt 0 ] || exit 2
[ "$failed" -eq 0 ]
