#!/usr/bin/env bash
# listing.sh PROGRAM DIR: runs the listing program on every DIR/NAME.bits and compares what it prints, byte for byte,
# with NAME.listing; then on the example of document 01, on what is no recording (no input, bytes that are no bits, a
# last line without its line feed), and on an input larger than the blocks that a program reads. Each input comes once
# as a file and once through a pipe in pieces of odd sizes. Prints what differs; exits with 1 on a difference and with 2
# where there is nothing to run.
set -uo pipefail

program=${1:?the listing program}
recordings=${2:?the folder of the recordings}
. "$(dirname "$0")/programs.sh"

# say NAME INPUT LINE..: an input with the escapes of printf %b, and the lines expected behind the header.
say() {
    local name=$1 input=$2
    shift 2
    printf '%b' "$input" >"$work/input"
    { printf 'bit\twhat\toctets\tspan\n'; [ $# -eq 0 ] || printf '%b\n' "$@"; } >"$work/expected"
    check "$program" "$name" "$work/input" "$work/expected" 1 7 13
}

command -v "$program" >/dev/null || { printf '%s: no program\n' "$program"; exit 2; }
for bits in "$recordings"/*.bits; do
    [ -f "$bits" ] || { printf '%s: no recordings\n' "$recordings"; exit 2; }
    check "$program" "$bits" "$bits" "${bits%.bits}.listing" 1 7 2 31 1 64 10
done

ci=111111111100000000010100000111
ones=1111111111
cj=000000000100000000010000000001
say 'the example of document 01' "$ci$ones$cj\n" '39\tCI\tC1\t30' '69\tCJ\t-\t-'
say 'the example without its line feed' "$ci$ones$cj" '39\tCI\tC1\t30' '69\tCJ\t-\t-'
say 'the example, a bit a line' "$(fold -w 1 <<<"$ci$ones$cj")" '39\tCI\tC1\t30' '69\tCJ\t-\t-'
say 'no input' ''
say 'line feeds alone' '\n\n\n'
say 'bits that report nothing' '0101\n'
say 'bytes that are no bits' 'x11111 11111\r\n' '0\tR1\t-\t-' '5\tR1\t-\t-' '10\tR1\t-\t-'
say 'the bytes 0, 255 and 2' '1\0\03772' '1\tR1\t-\t-' '1\tR1\t-\t-' '1\tR1\t-\t-'
say 'bytes that are no bits, in a message' "11111x11111${ci#"$ones"}${ones}y" '5\tR1\t-\t-' '39\tCI\tC1\t30' '40\tR1\t-\t-'
say 'bytes that are no bits, in a span' "${ones}0x000000001${ci: -10}1y111111111" '11\tR1\t-\t-' '31\tR1\t-\t-' '39\tCI\tC1\t30'
say 'a menu without octets' "${ones}0000001111$ones" '29\tMENU\t-\t20'
say 'a sequence cut short' "${ci}10${ones}" '31\tR13\t-\t-'

# Copies of a menu, with a line feed after each 61 bits: a copy ends with the ten 1s of the next.
copies=20000
awk -v copies="$copies" 'BEGIN {
    for (i = 0; i < copies; i++) printf "1111111111000000111101000001110101000101011001000100000100110010101001"
    print "1111111111"
}' | fold -w 61 >"$work/menus"
awk -v copies="$copies" 'BEGIN {
    print "bit\twhat\toctets\tspan"
    for (i = 0; i < copies; i++) printf "%d\tMENU\tC1 45 13 90 2A\t70\n", 79 + 70 * i
}' >"$work/menus.listing"
check "$program" "$copies menus" "$work/menus" "$work/menus.listing" 1 4095 65537 7 65535 131073

all_alike
