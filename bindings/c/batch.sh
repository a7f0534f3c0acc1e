#!/bin/sh
# Runs build/bindings/batch (bindings/build.sh makes it) on standard input, a side of oracle/compare.py:
# batch.sh [--spans] [--tables] [--structs] [--padding] [--long] [--fill N] [--page N] [--to 1|2] [--room N]. It is x86-64 code; on another machine an
# emulator runs it (tools/run --file).
set -eu
. "$(dirname "$(readlink -f -- "$0")")/../../tools/start.sh"
value=
for one in "$@"; do
    case $value:$one in
    :--spans | :--tables | :--structs | :--padding | :--long) ;;
    :--fill | :--page | :--to | :--room) value=$one ;;
    :*) say "there is no option $one (--help says what there is)" ;;
    *)
        a_number "$value" "$one"
        value=
        ;;
    esac
done
[ -z "$value" ] || say "$value wants a number"
[ -x "$home/build/bindings/batch" ] || say "build/bindings/batch is not built (bindings/build.sh)"
exec "$home/tools/run" --file "$home/build/bindings/batch" "$@"
