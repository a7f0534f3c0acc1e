#!/bin/sh
# Builds the proved archive and the programs over it: target/staticlib/libdenkumari.a, and in build/bindings the C programs batch, test, store, overlays,
# records, reasons, maps, stack, structs, calls_time and orders_time, structs_cpp where there is a C++ compiler, and, where a Rust compiler has the x86-64
# target, the Rust ones batch_rust, worked_rust, calls_rust, store_rust and overlays_rust. Says what it skipped for want of something, and what it left out
# since this machine cannot run it.
#
# Not on x86-64, CC names a C compiler for it (default x86_64-linux-gnu-gcc; Debian: gcc-x86-64-linux-gnu libc6-dev-amd64-cross), and CXX one for C++
# (x86_64-linux-gnu-g++; g++-x86-64-linux-gnu). RUSTC names the Rust compiler.
set -eu
. "$(dirname "$(readlink -f -- "$0")")/../tools/start.sh"
. "$home/tools/launch.sh"
words_at_most 0 "$@"
cd "$home"
target=x86_64-unknown-linux-gnu
# the archive is x86-64 code: there it can always be linked, and elsewhere only by a compiler for it
if [ "$(uname -m)" = x86_64 ]; then
    cc=${CC:-cc} cxx=${CXX:-c++} skipped=skipped
else
    cc=${CC:-x86_64-linux-gnu-gcc} cxx=${CXX:-x86_64-linux-gnu-g++} skipped='left out'
fi
rustc=${RUSTC:-rustc}

out=build/bindings
rm -rf "$out"
mkdir -p "$out"
build_archive
cp "$archive" "$out/libdenkumari.a"

if ! command -v "$cc" >/dev/null; then
    echo "$skipped: the C programs, for want of a C compiler for x86-64 ($cc)"
    echo "$skipped: the Rust programs, for want of a C compiler for x86-64 ($cc), which links them"
    exit 0
fi
for program in batch test store overlays readback stack records reasons maps calls_time orders_time; do
    "$cc" -std=c11 -O2 -Wall -Wextra -Werror -static -pthread -o "$out/$program" "bindings/c/$program.c" "$out/libdenkumari.a"
done
"$cc" -std=c99 -O2 -Wall -Wextra -Wshadow -Wpedantic -Werror -static -o "$out/structs" bindings/c/structs.c "$out/libdenkumari.a"
echo "built: libdenkumari.a and the C programs"
if command -v "$cxx" >/dev/null; then
    for standard in c++20 c++11; do
        "$cxx" -x c++ -std="$standard" -O2 -Wall -Wextra -Wshadow -Wpedantic -Werror -static -o "$out/structs_cpp" bindings/c/structs.c \
            -x none "$out/libdenkumari.a"
    done
    echo "built: the C++ program"
else
    echo "$skipped: the C++ program, for want of a C++ compiler for x86-64 ($cxx)"
fi

has_target() {
    "$rustc" --version >/dev/null 2>&1 && set -- "$("$rustc" --print target-libdir --target "$target" 2>/dev/null)"/libstd-*.rlib && [ -f "$1" ]
}
has_target || {
    echo "$skipped: the Rust programs, for want of a Rust compiler with the target $target ($rustc)"
    exit 0
}
rust() { "$rustc" --edition 2021 -O -D warnings --target "$target" -C linker="$cc" "$@"; }
rust --crate-type rlib --crate-name denkumari -L "$out" -l static=denkumari --out-dir "$out" bindings/rust/src/lib.rs
for program in batch worked; do
    rust --extern "denkumari=$out/libdenkumari.rlib" -o "$out/${program}_rust" "bindings/rust/examples/$program.rs"
done
rust --extern "denkumari=$out/libdenkumari.rlib" -o "$out/recorder_example" bindings/rust/examples/recorder.rs
for tests in calls store overlays readback recorder reasons; do
    rust --test --extern "denkumari=$out/libdenkumari.rlib" -o "$out/${tests}_rust" "bindings/rust/tests/$tests.rs"
done
# the loader and the libraries that these programs want, for where they run under an emulator
"$cc" -print-file-name=ld-linux-x86-64.so.2 >"$out/loader"
echo "built: the Rust crate and its programs"
