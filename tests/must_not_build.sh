#!/usr/bin/env bash
# must_not_build.sh: an item number passed where a bit number belongs must not build. Adds such a line to a copy of the crate
# `items` and expects the type error; the same line with a bit number must not give it.
set -uo pipefail
cd "$(dirname "$0")/.." || exit 2

work=$(mktemp -d)
trap 'rm -rf "$work"' EXIT
cp -r crates crates.txt "$work" || exit 2
source=$work/crates/items/src/lib.rt

# type_error ARGUMENT: what a check says of has_bit with this argument, where it is about types.
type_error() {
    cp crates/items/src/lib.rt "$source"
    printf '\nfn passed(b: u8) -> bool {\n    has_bit(b, %s)\n}\n' "$1" >>"$source"
    (cd "$work/crates/items" && rt check 2>&1) | grep -F 'error[mismatched-types]'
}

expected='expected `Bit`, found `Item`'
case $(type_error 'Item(3)') in
*"$expected"*) ;;
*) printf 'an item built where a bit belongs\n' && exit 1 ;;
esac
if type_error 'Bit(3)'; then
    printf 'a bit did not build where a bit belongs\n'
    exit 1
fi
printf 'an item does not build where a bit belongs, and a bit does\n'
