#!/bin/sh
# The bridge for customasm, compiled with customasm's own files and the proved library, and held against customasm's own answers: bridge.sh [LAYOUTS [SEED]]
# 20,000 layouts and seed 1 if not given, the grids of oracle/generate.py among them. It needs rustc, python3 and what oracle/build.sh needs;
# oracle/bridge/README.md tells the rest. The archive is built first where it is not there. Says what it skipped for want of something.
set -eu
. "$(dirname "$(readlink -f -- "$0")")/../tools/start.sh"
. "$home/tools/launch.sh"
words_at_most 2 "$@"
layouts=${1:-20000}
seed=${2:-1}
a_number LAYOUTS "$layouts"
a_number SEED "$seed"
folder=$home/build/bridge
for needed in rustc python3; do
    command -v "$needed" >/dev/null 2>&1 || {
        echo "skipped: the bridge for customasm, for want of $needed"
        exit 0
    }
done
[ -f "${CUSTOMASM_SRC:-$home/../shared/docs/src}/src/lib.rs" ] || {
    echo "left out: the bridge for customasm, since customasm's files are not here (CUSTOMASM_SRC)"
    exit 0
}
[ "$(uname -m)" = x86_64 ] || {
    echo "left out: the bridge for customasm, since the archive is x86-64 code"
    exit 0
}
build_archive
archive=$home/${archive%/*}
"$home/oracle/build.sh" "$folder"
rustc --edition 2021 -O -D warnings --crate-type rlib --crate-name denkumari -L "native=$archive" -l static=denkumari \
    --out-dir "$folder" "$home/bindings/rust/src/lib.rs"
# customasm's crate once more, with the bridge in its place; the other files are not ours to tidy: their warnings are let be
cp "$home/oracle/bridge/bridge.rs" "$folder/src/asm/bridge.rs"
echo 'pub mod bridge;' >>"$folder/src/asm/mod.rs"
checked() { rustc --edition 2021 -C opt-level=2 -C overflow-checks=on -L "$folder" --extern "denkumari=$folder/libdenkumari.rlib" "$@"; }
checked -A warnings --crate-type rlib --crate-name customasm --out-dir "$folder" "$folder/src/lib.rs"
checked -D warnings --crate-name bridge --extern "customasm=$folder/libcustomasm.rlib" -o "$folder/bridge" "$home/oracle/bridge/main.rs"
python3 "$home/oracle/generate.py" "$seed" "$layouts" --batch >"$folder/layouts"
"$folder/bridge" <"$folder/layouts"
