#!/bin/sh
# Builds the archive and its callers (bindings/build.sh) and runs them: document 01's worked example, refusals, buffers that must be left alone,
# the stack that each call takes, and random layouts, whose answers have to be those of oracle/model.py. test.sh [LAYOUTS [SEED]], 4,000 and 1 if not
# given. Says what it skipped for want of something, and what it left out since this machine cannot run it.
set -eu
. "$(dirname "$(readlink -f -- "$0")")/../tools/start.sh"
. "$home/tools/launch.sh"
words_at_most 2 "$@"
layouts=${1:-4000}
seed=${2:-1}
a_number LAYOUTS "$layouts"
a_number SEED "$seed"
cd "$home"
out=build/bindings
bindings/build.sh
[ -x "$out/test" ] || exit 0
find_emulator || {
    echo "left out: the C and Rust programs, for want of an emulator for x86-64"
    exit 0
}

# a program of C that tests itself: its last line, and whether it found a fault
tested() {
    name=$1
    shift
    said=$(launch_file "$@") || {
        echo "$name: $said"
        exit 1
    }
    echo "$name: $said"
}
tested C "$out/test" examples/worked.form
tested "C, the store" "$out/store"
tested "C, stack" "$out/stack"
tested "C, overlays" "$out/overlays"
tested "C, read-back" "$out/readback"
tested "C, reasons" "$out/reasons"
tested "C, maps" "$out/maps"
tested "C, structs" "$out/structs"
if [ -x "$out/structs_cpp" ]; then
    tested "C++, structs" "$out/structs_cpp"
fi

compare() {
    name=$1
    shift
    launch_file "$@" <"$out/layouts" >"$out/answers"
    if ! cmp -s "$out/expected" "$out/answers"; then
        echo "$name: an answer differs from the model's:"
        diff "$out/expected" "$out/answers" | head -4
        exit 1
    fi
    echo "$name: $(wc -l <"$out/answers") layouts, each answer the model's"
}
# draw KIND: layouts of a kind (oracle/generate.py), for what follows
draw() {
    python3 oracle/generate.py "$seed" "$layouts" "$1" >"$out/layouts"
}
# against NAME [CHOICE ..]: the answers of C, from files and from tables, against the model's, under these choices
against() {
    under=$1
    shift
    python3 oracle/model.py --batch --padding "$@" <"$out/layouts" >"$out/expected"
    compare "C, from files$under" "$out/batch" --padding "$@"
    compare "C, from tables$under" "$out/batch" --tables --padding "$@"
    compare "C, from structs$under" "$out/batch" --structs --padding "$@"
}
# converted FORM [ROOM]: the files in that form, against oracle/convert.py
converted() {
    python3 oracle/convert.py --batch --to "$1" ${2:+--room "$2"} <"$out/layouts" >"$out/expected"
    compare "C, to form $1${2:+ in $2 bytes}" "$out/batch" --to "$1" ${2:+--room "$2"}
}
models() {
    draw --form-2
    converted 1
    converted 1 200
    against ", form 2"
    against ", form 2, full fill" --fill 1
    draw --paged
    against ", in the profile" --page 16
    against ", in the profile, full fill" --page 16 --fill 1
    draw --batch
    converted 2
    converted 2 200
    against ", full fill" --fill 1
    against ""
    python3 oracle/model.py --batch <"$out/layouts" >"$out/expected"

    # the bench, on cases of its own
    python3 oracle/bench.py --generate "$seed" "$layouts" >"$out/cases"
    python3 oracle/bench.py --expected <"$out/cases" >"$out/expected_cases"
    launch_file "$out/overlays" --batch <"$out/cases" >"$out/answers_cases"
    if ! cmp -s "$out/expected_cases" "$out/answers_cases"; then
        echo "the bench: an answer differs from the model's:"
        diff "$out/expected_cases" "$out/answers_cases" | head -4
        exit 1
    fi
    echo "C, the bench: $(wc -l <"$out/answers_cases") cases, each answer the model's"

    # read-backs, on cases of their own
    python3 oracle/readback.py --generate "$seed" "$layouts" >"$out/cases"
    python3 oracle/readback.py --expected <"$out/cases" >"$out/expected_cases"
    launch_file "$out/readback" --batch <"$out/cases" >"$out/answers_cases"
    if ! cmp -s "$out/expected_cases" "$out/answers_cases"; then
        echo "read-backs: an answer differs from the model's:"
        diff "$out/expected_cases" "$out/answers_cases" | head -4
        exit 1
    fi
    echo "C, read-backs: $(wc -l <"$out/answers_cases") cases, each answer the model's"

    # files of records, whole and damaged, and calls that write them
    python3 oracle/damage.py "tools/run --file $out/records" --every 0 --random "$layouts" --writes "$layouts" --seed "$seed" >"$out/said" || {
        cat "$out/said"
        exit 1
    }
    echo "C, records: $(cut -d: -f2 <"$out/said" | cut -c2-)"
}
if command -v python3 >/dev/null; then
    models
else
    echo "skipped: random layouts held against the models, for want of python3"
fi

[ -x "$out/batch_rust" ] || exit 0
# The kit's emulator is made for the kit's own programs and does not run these.
if [ -n "$emulator" ]; then
    emulator=$(command -v qemu-x86_64) || {
        echo "left out: running the Rust programs, for want of qemu-x86_64 (Debian: qemu-user)"
        exit 0
    }
    loader=$(cat "$out/loader")
    started() { "$emulator" "$loader" --library-path "$(dirname "$loader")" "$@"; }
else
    started() { "$@"; }
fi
started "$out/worked_rust" >"$out/answers"
printf 'passes 1\nblock 0 10\nblock 20 10\nimage ffc002a800\n' | cmp - "$out/answers"
echo "Rust: the worked example"
for tests in calls store overlays readback recorder reasons; do
    started "$out/${tests}_rust" -q >"$out/answers" || {
        cat "$out/answers"
        exit 1
    }
    echo "Rust, $tests: $(grep "test result" "$out/answers")"
done
if command -v python3 >/dev/null; then
    launch_file() { started "$@"; }
    compare "Rust, from files" "$out/batch_rust"
fi
