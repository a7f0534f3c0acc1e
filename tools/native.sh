# shellcheck shell=sh
# Starts the command denkumari (command/) for the tools that are its commands; they read it, nobody runs it. The command is compiled once into build/, by any
# C compiler, from command/ and from portable/, the proved functions as C. That takes some seconds and needs no kit. Where portable/ is no longer what was
# printed (portable/PRINTED) nothing is started. As installed (tools/install) nothing is compiled.
[ "${0##*/}" != native.sh ] || . "$(dirname "$(readlink -f -- "$0")")/start.sh"
here=$(readlink -f -- "$0") || exit 2
home=${here%/*}
while [ -n "$home" ] && [ ! -f "$home/crates.txt" ]; do
    home=${home%/*}
done

give_up() {
    echo "${here#"$home/"}: $1" >&2
    exit 2
}

# What the command is made from, in one number: also what portable/ is to have been printed from, which is looked at where it is compiled.
native_sum() (
    cd "$home" && sha256sum include/denkumari.h command/*.[ch] command/*.def portable/texts.[ch] portable/denkumari.c portable/PRINTED | sha256sum | cut -c 1-16
)

# compile_native FILE [COMMIT]: made under another name and then put in its place, so that two that start at once do no harm. --version says the commit; of what
# is built in a checkout it says none, since it stays good over commits that change none of its sources.
compile_native() {
    . "$home/tools/portable.sh"
    { is_fresh texts.c && is_fresh texts.h && is_fresh denkumari.c; } ||
        give_up "portable/ is not what was printed (portable/PRINTED): tools/portable --fresh says which file"
    for compiler in "${CC:-cc}" gcc clang tcc ''; do
        [ -z "$compiler" ] || ! command -v "$compiler" >/dev/null 2>&1 || break
    done
    [ -n "$compiler" ] || give_up "there is no C compiler: cc, gcc, clang and tcc are not on the PATH"
    [ ! -t 2 ] || echo "${here#"$home/"}: compiling the command from portable/ and command/, which takes some seconds" >&2
    mkdir -p "$home/build" || give_up "build/ cannot be written"
    sources=$(sed -n 's/^ \* sources: //p' "$home/portable/texts.c" "$home/portable/denkumari.c" | paste -sd ' ' -)
    # in a shell of its own, with which its traps end
    (
        new=$home/build/.denkumari.$$
        trap 'rm -f -- "$new"' EXIT
        trap 'exit 130' HUP INT TERM
        if ! "$compiler" -std=c99 -O2 -DDENKUMARI_KIT="\"$printed_kit\"" -DDENKUMARI_SOURCES="\"$sources\"" ${2:+-DDENKUMARI_COMMIT="\"$2\""} \
            -I"$home/include" -I"$home/portable" -o "$new" "$home"/command/*.c "$home/portable/texts.c" "$home/portable/denkumari.c" >&2 ||
            ! mv -f -- "$new" "$1"; then give_up "the command was not compiled"; fi
    ) || exit
    # those of other sources
    [ "${1%/*}" = "$home/build" ] || return 0
    for one in "$home"/build/denkumari-????????????????; do
        [ "$one" = "$1" ] || rm -f -- "$one"
    done
}

# find_native: the command's file, in `native`.
find_native() {
    native=$home/bin/denkumari
    [ ! -f "$home/INSTALLED" ] || return 0
    native=$home/build/denkumari-$(native_sum)
    [ -x "$native" ] || compile_native "$native"
}

# start_native COMMAND ..: in the script's place.
start_native() {
    find_native
    exec "$native" "$@"
}

# with_pictures COMMAND ..: the command, or the script that draws what it shows.
with_pictures() {
    command=$1
    shift
    for one in "$@"; do
        case $command:$one in
        map:--svg | compare:--svg | verify:--svg | map:--html) exec "$home/tools/${command}_${one#--}" "$@" ;;
        esac
    done
    start_native "$command" "$@"
}

# The tools that are commands read this file and do nothing else.
case ${here##*/} in
layout | map | compare | words | ihex | srec | rehex | bench | convert | verify) with_pictures "${here##*/}" "$@" ;;
denkumari)
    [ "$#" -gt 0 ] || start_native
    [ "$1" != form ] || { shift && exec "$home/tools/form" "$@"; }
    with_pictures "$@"
    ;;
esac
