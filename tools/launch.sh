# shellcheck shell=sh
# The launcher of the repository's programs, for tools/run and the scripts that run several; they read it behind start.sh, nobody runs it. Builds what is not
# built from the files that are here now, and starts x86-64 programs: by themselves, or under an emulator on another processor. Where they were installed
# (tools/install) nothing is built, and the kit is not asked.
[ "${0##*/}" != launch.sh ] || . "$(dirname "$(readlink -f -- "$0")")/start.sh"
. "$home/tools/crates.sh"
installed='' programs=$home/target/bin
if [ -f "$home/INSTALLED" ]; then
    installed=yes programs=$home/bin
else
    . "$home/tools/prove.sh"
fi

wants_rt() {
    command -v rt >/dev/null 2>&1 || say "the Rattle kit's command rt is not on the PATH"
}

# What a crate's product was made from, and the product, in one number: the kit, the files of the crate and of those that it stands on. No file's time is
# asked, so a product stays good over a checkout and back, and is not good where a file changed and kept its time.
sum_of() (
    cd "$home" || exit 2
    {
        rt version
        uname -m
        sed 's/#.*//' crates.txt
        # shellcheck disable=SC2046
        find $(stands_on "$1") \( -name must-fail -o -name out \) -prune -o -type f -exec sha256sum {} + | LC_ALL=C sort
        sha256sum <"$2"
    } 2>/dev/null | sha256sum
)

is_built() {
    [ -f "$home/$2" ] && [ -f "$home/target/sum/$1" ] && [ "$(cat "$home/target/sum/$1")" = "$(sum_of "$1" "$2")" ]
}

# One build at a time in one folder; the lock goes with the process.
alone() {
    exec 9>"$home/target/sum/lock" || exit 2
    ! command -v flock >/dev/null 2>&1 || flock 9
}

# build CRATE PRODUCT VERB MADE WORDS: runs `rt VERB` in the crate's folder where the product is not that of the files that are here, and takes what it made in
# the crate's out/. What is proved is said as it goes. `rt run` also starts the program, with nothing to read: how that ends does not matter here.
build() {
    wants_rt
    is_listed "$1" || say "there is no crate $1"
    ! is_built "$1" "$2" || return 0
    mkdir -p "$home/target/sum" "$home/${2%/*}" || say "target/ cannot be written"
    log=target/sum/$1.log
    (
        alone
        ! is_built "$1" "$2" || exit 0
        echo "building $5: its crates are proved first, which takes some minutes where nothing is proved yet" >&2
        cd "$home" || exit 2
        rm -f "crates/$1/out/$4"
        {
            run_rt "$3" "$1"
            echo "status $?"
        } 2>&1 | progress "$log" || [ "$3" = run ] || exit 1
        [ -f "crates/$1/out/$4" ] && kept "$1" "crates/$1/out/$4" "$2" || exit 1
    ) || {
        [ ! -f "$home/$log" ] || tail -n 5 "$home/$log" >&2
        say "$5 was not built: $log has the whole account"
    }
}
build_program() {
    if [ -n "$installed" ]; then
        [ -x "$programs/$1" ] || say "the program $1 is not installed"
        return 0
    fi
    [ -f "$home/crates/$1/src/main.rt" ] || say "there is no program $1"
    build "$1" "target/bin/$1" run "$1" "the program $1"
}
# The archive, under the name that callers link it by.
archive=target/staticlib/lib$crate_library.a
build_archive() {
    build "$crate_archive" "$archive" lib "lib$crate_archive.a" "the archive"
}

# What `rt ci` has just built, kept for who comes next: its programs, and the archive, built over the libraries that it proved. For tools/test alone, which
# calls it right behind `rt ci`: nothing here looks whether what lies in out/ is of the files that are here. What is not there is built when it is asked for.
take_from_ci() (
    cd "$home" || exit 2
    mkdir -p target/sum target/bin target/staticlib || say "target/ cannot be written"
    alone
    for one in crates/*/src/main.rt; do
        [ -f "$one" ] || continue
        one=${one#crates/} one=${one%%/*}
        [ ! -f "crates/$one/out/$one" ] || kept "$one" "crates/$one/out/$one" "target/bin/$one"
    done
    kit=$(dirname "$(rt doc)")
    set -- --crate-name "$crate_archive" src/lib.rt --extern "std=$kit/rlibs/std.rlib" -L "dependency=$kit/rlibs" --links "$crate_archive="
    deps=$(sed 's/#.*//' crates.txt | sed -n "s/^${crate_archive}[^:]*://p")
    for one in $deps; do
        if is_listed "$one"; then from=$home/crates/$one/out/rlib; else from=$kit/rlibs; fi
        set -- "$@" --extern "$one=$from/$one.rlib"
    done
    for one in $(stands_on "$crate_archive" | grep -vxF "crates/$crate_archive"); do
        set -- "$@" -L "dependency=$home/$one/out/rlib" --links "${one#crates/}="
    done
    mkdir -p "crates/$crate_archive/out" && cd "crates/$crate_archive" || exit 2
    "$kit/bin/rattle" build "$@" --crate-type staticlib --antt-project "$kit/rattle/logic/antt-project.json" --logic-built "$kit/logic_built" --jobs 2 \
        --toolchain "$kit/toolchain" -o "out/lib$crate_archive.a" >"$home/target/sum/$crate_archive.log" 2>&1 </dev/null || {
        tail -n 5 "$home/target/sum/$crate_archive.log"
        echo "the archive is not built over what rt ci left: rt lib builds it"
        exit 0
    }
    cd "$home" && kept "$crate_archive" "crates/$crate_archive/out/lib$crate_archive.a" "$archive"
)
# kept CRATE MADE PRODUCT: under another name first, so that nobody finds a part of it.
kept() {
    cp "$2" "$3.part" && mv -f "$3.part" "$3" && sum_of "$1" "$3" >"target/sum/$1"
}

# An emulator of x86-64: none where the machine is one, else the kit's, else Debian's. Status 1 says that it wants one and there is none.
find_emulator() {
    emulator=
    [ "$(uname -m)" != x86_64 ] || return 0
    find_parts
    for emulator in "${parts:-/none}/bin/qemu-x86_64" "$(command -v qemu-x86_64)" "$(command -v qemu-x86_64-static)"; do
        [ ! -x "$emulator" ] || return 0
    done
    emulator=
    return 1
}
parts=
find_parts() {
    [ -n "$parts" ] || [ -n "$installed" ] || parts=${RATTLE_HOME:-$(dirname "$(rt doc)")}/toolchain
}

# launch NAME ..: a program of target/bin, with the kit's own C library. launch_file FILE ..: a program that stands by itself. With `by=exec` it takes the
# script's place; else every write of its answer is checked, and one that failed ends the script.
by=
launch() {
    program=$programs/$1
    shift
    find_parts
    loader=${parts:+$parts/lib/ld-linux-x86-64.so.2}
    if [ -n "$loader" ] && [ -f "$loader" ]; then
        launch_file "$loader" --library-path "$parts/lib" "$program" "$@"
    else
        launch_file "$program" "$@"
    fi
}
launch_file() {
    find_emulator || say "this is $(uname -m), and there is no emulator of x86-64"
    if [ -n "$by" ]; then
        $by ${emulator:+"$emulator"} "$@"
    else
        checked ${emulator:+"$emulator"} "$@"
    fi
}
# A program does not see that a write failed, on a full disk say, and cat does: the answer goes through cat. The statuses of both come back in `ends`.
checked() {
    { ends=$({
        {
            "$@" 3>&- 4>&-
            echo "$?" >&3
        } | cat >&4 3>&-
        echo "$?" >&3
    } 3>&1); } 4>&1
    case $ends in
    *'
0') [ "${ends%?0}" = 0 ] ;;
    *) say "the program's answer could not be written to the temporary folder: is there room in ${TMPDIR:-/tmp}?" ;;
    esac
}
