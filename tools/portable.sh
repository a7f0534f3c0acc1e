# shellcheck shell=sh
# Whether portable/ is what was printed, and from what; scripts read it behind start.sh, nobody runs it. It wants sha256sum and awk: no kit, no Python.
#
# The sum of some crates' sources is that of the lines that sha256sum prints for crates.txt and for each src/**/*.rt of those crates and of all that they stand
# on by crates.txt, sorted by their paths as bytes.
[ "${0##*/}" != portable.sh ] || . "$(dirname "$(readlink -f -- "$0")")/start.sh"
. "$home/tools/crates.sh"
. "$home/tools/prove.sh"

# sources_sum CRATE ..
sources_sum() (
    cd "$home" || exit 2
    {
        echo crates.txt
        stands_on "$@" | while IFS= read -r folder; do find "$folder/src" -type f -name '*.rt'; done
    } | LC_ALL=C sort | while IFS= read -r file; do sha256sum "$file" || echo "$file cannot be read"; done | sha256sum | cut -d ' ' -f 1
)

# printed_from FILE: the crates whose functions a file of portable/ has, and the sum of their sources.
printed_from() {
    case $1 in
    denkumari.c) echo "$crate_library" ;;
    *) sed 's/::.*//' "$home/portable/roots.txt" | LC_ALL=C sort -u ;;
    esac
}
# shellcheck disable=SC2046
sum_for() {
    sources_sum $(printed_from "$1")
}

# What portable/PRINTED says: the kit that printed portable/, the commit whose sources it was printed from, and the sum of these for each file.
# shellcheck disable=SC2034
files='denkumari.c texts.c texts.h'
printed_kit=$(sed -n 's/^kit: //p' "$home/portable/PRINTED")
# shellcheck disable=SC2034
printed_commit=$(sed -n 's/^commit: //p' "$home/portable/PRINTED")
sources_of() {
    sed -n 's/^ \* sources: //p' "$home/portable/$1"
}

# is_fresh FILE: whether a file of portable/ is what was printed: nobody has changed it since, and its head names the kit and the sources of portable/PRINTED.
is_fresh() {
    printed=$home/portable/$1
    [ -f "$printed" ] && [ "$(sed -n 's/^ \* kit: //p' "$printed")" = "$printed_kit" ] && grep -qxF "sources: $(sources_of "$1") $1" "$home/portable/PRINTED" \
        && [ "$(sed -n 's/^ \* text: //p' "$printed")" = "$(sed '1,/^ \*\/$/d' "$printed" | sha256sum | cut -d ' ' -f 1)" ]
}
