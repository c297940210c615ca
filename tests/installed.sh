#!/usr/bin/env bash
# installed.sh: installs below a new folder, and builds with what is there alone: the first example with the archive, with the shared
# library, and by what the description for pkg-config says; tests/header.c with the shared library too, so that every call of it is made.
# Then it uninstalls, and no file may be left. Run behind `make`. Prints what is wrong; exits with 1 where something is.
set -uo pipefail
cd "$(dirname "$0")/.." || exit 2

work=$(mktemp -d)
trap 'rm -rf "$work"' EXIT
prefix=$work/prefix
description=$prefix/lib/pkgconfig/tailsprig.pc

fail() {
    printf '%s\n' "$1"
    exit 1
}

# described FIELD: a line of the description, with its prefix filled in.
described() {
    sed -n "s|^$1: ||p" "$description" | sed "s|\${prefix}|$(sed -n 's/^prefix=//p' "$description")|"
}

# prints_the_same NAME FLAG..: the first example, built with these flags, prints what it prints with the archive of target/.
prints_the_same() {
    local name=$1
    shift
    gcc -std=c11 examples/first.c "$@" -o "$work/first" || fail "$name: does not link"
    LD_LIBRARY_PATH=$prefix/lib "$work/first" >"$work/printed" || fail "$name: does not run"
    cmp -s "$work/expected" "$work/printed" || fail "$name: prints something else"
}

# needs_the_library FILE: a program that looks for the shared library when it starts, by the first two numbers of the version and no others.
needs_the_library() {
    grep -zaqxF "libtailsprig.so.${version%.*}" "$1" || fail "$1 does not need the shared library of its version"
}

gcc -std=c11 -Iinclude examples/first.c target/staticlib/libtailsprig.a -o "$work/first" && "$work/first" >"$work/expected" || fail 'run make first'
make --silent install PREFIX="$prefix" || fail 'make install failed'
version=$(described Version)
grep -qxF "#define TAILSPRIG_VERSION \"$version\"" "$prefix/include/tailsprig.h" || fail "version '$version' is not that of the header"

prints_the_same 'the archive' -I"$prefix/include" "$prefix/lib/libtailsprig.a"
prints_the_same 'the shared library' -I"$prefix/include" -L"$prefix/lib" -ltailsprig
needs_the_library "$work/first"
read -ra flags <<<"$(described Cflags) $(described Libs)"
prints_the_same 'the description' "${flags[@]}"
if command -v pkg-config >/dev/null; then
    export PKG_CONFIG_PATH=$prefix/lib/pkgconfig
    [ "$(pkg-config --modversion tailsprig)" = "$version" ] || fail 'pkg-config names another version'
    read -ra flags <<<"$(pkg-config --cflags --libs tailsprig)"
    prints_the_same 'pkg-config' "${flags[@]}"
fi
gcc -std=c11 -Wall -Wextra -Werror -I"$prefix/include" tests/header.c -L"$prefix/lib" -ltailsprig -o "$work/header" || fail 'tests/header.c does not link'
needs_the_library "$work/header"
LD_LIBRARY_PATH=$prefix/lib "$work/header" || fail 'the shared library does not fit the header'

make --silent uninstall PREFIX="$prefix" || fail 'make uninstall failed'
left=$(find "$prefix" ! -type d)
[ -z "$left" ] || fail "left behind: $left"
printf 'installed, linked in each way, and uninstalled\n'
