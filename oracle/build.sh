#!/bin/sh
# Builds the judge, customasm's own files, unchanged, with stand-ins for what is missing: oracle/build.sh [--edit FILE] [--flags "RUSTC FLAGS"] [FOLDER]
#
# Builds the judge into FOLDER/judge (default build/oracle, which git ignores). It needs rustc, and no crate and no network.
#
# CUSTOMASM_SRC names a checkout of customasm at commit a45db8ff31, or a folder that holds the seven files of oracle/pinned.sha256 under their own paths.
# Default: ../shared/docs/src, beside the repository. The files' hashes must be the pinned ones. They are copied into FOLDER and never committed.
#
# --edit FILE    apply one changed line to the copy, as `file:`, `old:` and `new:` of FILE say (see oracle/mutants)
# --flags "..."  flags of rustc instead of "-C opt-level=2 -C overflow-checks=on"
set -eu
. "$(dirname "$(readlink -f -- "$0")")/../tools/start.sh"
root=$home
edit=
flags="-C opt-level=2 -C overflow-checks=on"
while [ $# -gt 0 ]; do
    case "$1" in
    --edit | --flags)
        [ $# -ge 2 ] || say "$1 wants a value"
        if [ "$1" = --edit ]; then edit=$2; else flags=$2; fi
        shift 2
        ;;
    *) break ;;
    esac
done
words_at_most 1 "$@"
[ -z "$edit" ] || [ -f "$edit" ] || say "$edit is no file"
command -v rustc >/dev/null 2>&1 || say "there is no rustc"
source=${CUSTOMASM_SRC:-$root/../shared/docs/src}
folder=${1:-$root/build/oracle}

if [ ! -f "$source/src/lib.rs" ]; then
    say "no customasm at $source: set CUSTOMASM_SRC (--help says how)"
fi
(cd "$source" && sha256sum --check --quiet "$root/oracle/pinned.sha256") || {
    say "the files at $source are not those of customasm a45db8ff31"
}

rm -rf "$folder/src" "$folder/main"
mkdir -p "$folder/src"
cp -R "$root/oracle/standins/." "$folder/src/"
cp -R "$root/oracle/judge" "$folder/main"
while read -r _ path; do
    mkdir -p "$(dirname "$folder/$path")"
    cp "$source/$path" "$folder/$path"
    chmod u+w "$folder/$path"
done < "$root/oracle/pinned.sha256"

if [ -n "$edit" ]; then
    python3 "$root/oracle/edit.py" "$edit" "$folder"
fi

# The copied files are not ours to tidy: their warnings are let be.
# shellcheck disable=SC2086
rustc --edition 2021 $flags -A warnings --crate-type rlib --crate-name customasm \
    --out-dir "$folder" "$folder/src/lib.rs"
# shellcheck disable=SC2086
rustc --edition 2021 $flags --crate-name judge --extern "customasm=$folder/libcustomasm.rlib" \
    -o "$folder/judge" "$folder/main/main.rs"
"$folder/judge" --selftest > "$folder/selftest"
