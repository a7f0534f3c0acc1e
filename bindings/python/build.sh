#!/bin/sh
# Compiles the shared library that the Python package loads in a checkout: build/python/library-SUM.so, from portable/denkumari.c and the inline functions of
# the header, by CC or the first of cc, gcc and clang. SUM is that of the sources, so that what lies there is never another's; where it is there already
# nothing is done. An installed package has its own (setup.py).
set -eu
. "$(dirname "$(readlink -f -- "$0")")/../../tools/start.sh"
words_at_most 0 "$@"
cd "$home"
sources='portable/denkumari.c include/denkumari.h bindings/python/denkumari/_words.c'
# shellcheck disable=SC2086
sum=$(cat $sources | sha256sum | cut -c 1-16)
library=build/python/library-$sum.so
[ ! -f "$library" ] || exit 0
for compiler in "${CC:-cc}" gcc clang ''; do
    [ -z "$compiler" ] || ! command -v "$compiler" >/dev/null 2>&1 || break
done
[ -n "$compiler" ] || say "there is no C compiler: cc, gcc and clang are not on the PATH"
mkdir -p build/python || say "build/ cannot be written"
new=build/python/.library.$$
trap 'rm -f -- "$new"' EXIT
trap 'exit 130' HUP INT TERM
"$compiler" -std=c99 -O2 -fPIC -shared -Iinclude -o "$new" portable/denkumari.c bindings/python/denkumari/_words.c >&2 || say "the library was not compiled"
mv -f -- "$new" "$library" || say "the library was not compiled"
# those of other sources
for one in build/python/library-????????????????.so; do
    [ "$one" = "$library" ] || rm -f -- "$one"
done
