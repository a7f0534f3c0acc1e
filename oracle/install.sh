#!/bin/sh
# The installation as one without the kit and without the checkout has it: oracle/install.sh. Installs into a folder whose path has blanks, runs every command
# there with nothing on the PATH but the system's own, and holds the answers against the checkout's; compiles and runs a program in C, C++ and, where cargo is,
# Rust over the installed library; takes the installation away, after which nothing is left; makes the packages of tools/release, and checks them: the tar file
# unpacked and taken away by its own list, the package for Debian installed into a folder and purged, and what is in the zip file for Windows.
set -u
. "$(dirname "$(readlink -f -- "$0")")/../tools/start.sh"
. "$home/tools/launch.sh"
words_at_most 0 "$@"
cd "$home" || exit 2
make_room
wrong=0
fault() {
    echo "$1"
    wrong=1
}
[ "$(uname -m)" = x86_64 ] || {
    echo "left out: the installation, since its archive is x86-64 code"
    exit 0
}
into="$room/a prefix"
# a CDPATH leads nobody astray
mkdir -p "$room/astray/examples" "$room/astray/tools/awk"
CDPATH=$room/astray tools/install "$into" >"$room/said" 2>&1 || {
    cat "$room/said"
    exit 1
}
[ -f "$into/share/doc/denkumari/examples/worked.form" ] || fault "the examples are not installed"
mkdir "$room/elsewhere"
# a command of the installation, without the kit and from another folder
there() {
    (cd "$room/elsewhere" && PATH=/usr/bin:/bin && unset RATTLE_HOME CDPATH && "$into/bin/denkumari" "$@") >"$room/out" 2>"$room/err" </dev/null
}
# as COMMAND ..: its answer, status and words are those of the checkout's tool
as() {
    name=$1
    shift
    "tools/$name" "$@" >"$room/here" 2>"$room/here_err" </dev/null
    wanted=$?
    there "$name" "$@"
    got=$?
    sed "s,^tools/,denkumari ," "$room/here_err" >"$room/here_words"
    if [ "$got" -ne "$wanted" ] || ! cmp -s "$room/here" "$room/out" || ! cmp -s "$room/here_words" "$room/err"; then
        fault "denkumari $name $*: status $got and not $wanted, or another answer than the checkout's: $(cat "$room/err")"
    fi
}
examples=$home/examples
as layout "$examples/worked.form"
as layout "$examples/clamp-mark-after.form"
as layout --page 64 --fill full "$examples/banks.form"
tools/layout "$examples/banks.form" >"$room/banks.layout"
as map "$examples/banks.form"
as map --svg "$examples/sequencer.form"
as map --html "$examples/sequencer.form"
as words "$examples/clamp-mark-after.form" 'refused 12 0 128'
as words "$examples/worked.form" 'refused 9 1'
as ihex "$examples/banks.form" --load 0x8000
cp "$room/here" "$room/banks.hex"
as srec "$examples/banks.form" --width 2
as rehex "$room/banks.hex" --to srec
as bench "$room/banks.hex" "$room/banks.hex"
as verify "$examples/banks.form" "$room/banks.hex" --load 0x8000
as verify "$examples/banks.form" "$room/banks.hex"
# a bad file is explained there too
sed '1s/.$/!/' "$room/banks.hex" >"$room/bad.hex"
as rehex "$room/bad.hex"
grep -q 'line 1' "$room/err" || fault "denkumari rehex of a bad file names no line: $(cat "$room/err")"
as bench "$room/banks.hex" "$room/bad.hex"
as convert "$examples/banks.form" --to 2
as layout "$room/none"
as compare "$examples/worked.form" "$examples/banks.form"
if command -v python3 >/dev/null 2>&1; then
    as compare --svg "$examples/worked.form" "$examples/banks.form"
    as verify --svg "$examples/banks.form" "$room/banks.hex"
    as form "$examples/worked.form"
fi
for command in layout map compare words ihex srec rehex bench verify convert; do
    there "$command" --help || fault "denkumari $command --help: its status is not 0"
    ! grep -q 'tools/' "$room/out" || fault "denkumari $command --help speaks of tools/"
done
there --version
[ "$(head -n 1 "$room/out")" = "denkumari $(sed -n 's/^#define DENKUMARI_VERSION "\(.*\)"$/\1/p' include/denkumari.h)" ] || fault "denkumari --version"
grep -qx "commit $(git -c safe.directory='*' rev-parse HEAD 2>/dev/null || echo 'not recorded').*" "$room/out" || fault "denkumari --version has another commit"
grep -qx "sources $(sed -n 's/^ \* sources: //p' portable/texts.c portable/denkumari.c | paste -sd ' ' -)" "$room/out" ||
    fault "denkumari --version has other sources"
# texts name the command as it is called there, and the completion is the table's
if grep -rnE 'tools/(layout|map|compare|words|ihex|srec|rehex|bench|verify|convert|form|denkumari)\b' "$into/share/doc/denkumari" --include=*.md \
    >"$room/said"; then
    fault "an installed text names a tool of the checkout: $(head -n 1 "$room/said")"
fi
cmp -s command/denkumari.bash "$into/share/bash-completion/completions/denkumari" || fault "the completion for bash is not installed"
# the command once more, from its C alone
(cd "$into/share/denkumari/c" && "${CC:-cc}" -std=c99 -O2 -Iinclude -Iportable -o "$room/again" command/*.c portable/texts.c portable/denkumari.c) \
    >"$room/said" 2>&1 ||
    fault "the installed C of the command: $(head -n 3 "$room/said")"
"$room/again" layout "$examples/banks.form" >"$room/out"
tools/layout "$examples/banks.form" | cmp -s - "$room/out" || fault "the installed C prints another layout"
there nothing
[ $? -eq 2 ] || fault "denkumari nothing: its status is not 2"
there
[ $? -eq 2 ] || fault "denkumari without a command: its status is not 2"

# a program over the installed library, by pkg-config where that is
flags="-I'$into/include' -L'$into/lib' -ldenkumari"
! command -v pkg-config >/dev/null 2>&1 || flags=$(PKG_CONFIG_PATH="$into/lib/pkgconfig" pkg-config --cflags --libs denkumari)
cat >"$room/main.c" <<'C'
#include <denkumari_tables.h>
int main(void)
{
    struct dk_tables none = dk_no_tables();
    struct dk_room room = dk_no_room();
    return dk_build_tables(&none, &room).refusal == DK_BANK_COUNT ? 0 : 1;
}
C
compiled() { # LANGUAGE COMPILER WORD ..
    language=$1
    shift
    command -v "$1" >/dev/null 2>&1 || {
        echo "skipped: the installed library in $language, for want of a compiler ($1)"
        return
    }
    eval "\"\$@\" \"\$room/main.c\" -x none $flags -o \"\$room/main\"" 2>"$room/err" || fault "the installed library in $language: $(cat "$room/err")"
    "$room/main" || fault "the installed library in $language: the program failed"
    echo "installed: the library in $language"
}
compiled C "${CC:-cc}" -x c
compiled C++ "${CXX:-c++}" -x c++
if command -v cargo >/dev/null 2>&1; then
    (cd "$into/share/denkumari/rust" && CARGO_TARGET_DIR=$room/cargo cargo run --offline -q --example worked) >"$room/out" 2>"$room/err" ||
        fault "the installed crate: $(tail -n 3 "$room/err")"
    tools/layout examples/worked.form | cmp -s - "$room/out" || fault "the installed crate's example prints something else"
    echo "installed: the Rust crate"
else
    echo "left out: the installed Rust crate, for want of cargo"
fi

# once more over itself, and away: nothing is left
: >"$into/share/of another"
tools/install "$into" >"$room/said" 2>&1 || fault "a second installation: $(cat "$room/said")"
tools/install --uninstall "$into" >"$room/said" 2>&1 || fault "tools/install --uninstall: $(cat "$room/said")"
[ "$(find "$into" -type f -o -type l | wc -l)" -eq 1 ] ||
    fault "the installation leaves files behind, or takes another's away: $(find "$into" -type f | head -n 3)"
[ -e "$into/share/of another" ] || fault "tools/install --uninstall takes another's file away"
if tools/install --uninstall "$into" >"$room/said" 2>&1; then fault "an installation that is not there can be taken away"; fi

# the tar file
echo '12 passed, 1 failed' >"$room/gate"
if tools/release --gate "$room/gate" "$room/release" >"$room/said" 2>&1; then fault "tools/release takes a gate that failed"; fi
echo '12 passed, 0 failed' >"$room/gate"
tools/release --gate "$room/gate" "$room/release" >"$room/said" 2>&1 || fault "tools/release: $(cat "$room/said")"
mkdir "$room/unpacked"
tar -xzf "$room"/release/*.tar.gz -C "$room/unpacked" --strip-components=1 || fault "the tar file cannot be unpacked"
(cd "$room/release" && sha256sum -c --quiet ./*.sha256) || fault "the tar file's checksum"
(cd "$room/unpacked" && sha256sum -c --quiet SHA256SUMS) || fault "the checksums in the tar file"
[ "$(cat "$room/unpacked/GATE")" = '12 passed, 0 failed' ] || fault "GATE in the tar file"
cmp -s KIT "$room/unpacked/KIT" || fault "KIT in the tar file"
(cd "$room/unpacked" && find . -type f ! -name SHA256SUMS ! -name CONTENTS | sed 's,^\./,,' | LC_ALL=C sort) >"$room/files"
sed '1,5d' "$room/unpacked/CONTENTS" | cut -f 2 | LC_ALL=C sort | cmp -s - "$room/files" || fault "CONTENTS is not what is inside"
into=$room/unpacked
as layout "$examples/worked.form"
: >"$into/share/of another"
(cd / && PATH=/usr/bin:/bin "$into/lib/denkumari/tools/uninstall") >"$room/said" 2>&1 || fault "the tar file's uninstall: $(cat "$room/said")"
[ "$(cd "$into" && find . -type f -o -type l)" = "./share/of another" ] || fault "the tar file's list leaves behind: $(find "$into" -type f | head -n 3)"

# The package for Debian, installed into an empty root, whose dpkg knows nothing, and purged: its own files, and then none.
into_root() {
    dpkg --root="$room/root" --log=/dev/null --force-not-root --force-script-chrootless --force-depends "$@" >"$room/said" 2>&1 ||
        fault "dpkg $1: $(tail -n 3 "$room/said")"
}
debian() {
    dpkg-deb -f "$1" Package Version Architecture Depends >"$room/control" || fault "the package for Debian has no control file"
    grep -qx 'Architecture: amd64' "$room/control" || fault "the package for Debian is for another machine: $(cat "$room/control")"
    mkdir -p "$room/root/var/lib/dpkg/info" "$room/root/var/lib/dpkg/updates" "$room/root/var/lib/dpkg/triggers" && : >"$room/root/var/lib/dpkg/status"
    into_root -i "$1"
    into=$room/root/usr
    as layout "$examples/banks.form"
    as ihex "$examples/banks.form" --load 0x8000
    # as root runs it: python3 keeps compiled scripts
    ! command -v python3 >/dev/null 2>&1 || as form "$examples/worked.form"
    [ -f "$into/share/man/man1/denkumari.1.gz" ] || fault "the package for Debian has no manual page"
    [ -f "$into/share/bash-completion/completions/denkumari" ] || fault "the package for Debian has no completion"
    into_root -P denkumari
    [ -z "$(find "$room/root" ! -type d ! -path "$room/root/var/lib/dpkg/*")" ] ||
        fault "the package for Debian leaves files: $(find "$into" -type f | head -n 3)"
    [ ! -e "$room/root/usr/lib/denkumari" ] || fault "the package for Debian leaves a folder"
    echo "installed: the package for Debian, and purged without a trace"
}
if command -v dpkg >/dev/null 2>&1 && command -v dpkg-deb >/dev/null 2>&1; then
    debian "$room"/release/denkumari_*_amd64.deb
else
    echo "left out: the package for Debian: dpkg is not installed"
fi

# the zip file for Windows: whole, and its command run where wine is there
if [ -f "$(find "$room/release" -name '*-windows.zip')" ]; then
    mkdir "$room/windows"
    python3 -m zipfile -e "$room"/release/*-windows.zip "$room/windows" || fault "the zip file for Windows cannot be unpacked"
    (cd "$room"/windows/* && sha256sum -c --quiet SHA256SUMS) || fault "the checksums in the zip file for Windows"
    [ "$(head -c 2 "$room"/windows/*/denkumari.exe)" = MZ ] || fault "the command for Windows is no program of Windows"
    # Debian's wine64 has no name on the PATH of its own
    wine=$(command -v wine || command -v wine64 || command -v /usr/lib/wine/wine64) || wine=
    under_wine() { (cd "$room"/windows/* && WINEPREFIX=$room/wine WINEDEBUG=-all "$wine" denkumari.exe "$@") 2>"$room/err" | tr -d '\r'; }
    if [ -n "$wine" ]; then
        under_wine layout "$examples/banks.form" | cmp -s - "$room/banks.layout" ||
            fault "the command for Windows prints another layout: $(tail -n 1 "$room/err")"
        under_wine ihex "$examples/banks.form" --load 0x8000 | cmp -s - "$room/banks.hex" || fault "the command for Windows writes other records"
        sed '1s/1234E7$/1235E6/' "$room/banks.hex" >"$room/turned.hex"
        for dump in banks turned; do
            tools/verify "$examples/banks.form" "$room/$dump.hex" --load 0x8000 >"$room/here" 2>/dev/null
            under_wine verify "$examples/banks.form" "$room/$dump.hex" --load 0x8000 | cmp -s - "$room/here" ||
                fault "the command for Windows verifies $dump.hex otherwise: $(tail -n 1 "$room/err")"
        done
        grep -q 'should be 34' "$room/here" || fault "a turned bit is not found"
        # its server keeps the folder for a while
        if server=$(command -v wineserver || command -v /usr/lib/wine/wineserver); then
            WINEPREFIX=$room/wine "$server" -k || :
            WINEPREFIX=$room/wine "$server" -w || :
        fi
        echo "installed: the command for Windows, under wine"
    else
        echo "left out: a run of the command for Windows: wine is not installed"
    fi
else
    echo "left out: the zip file for Windows: x86_64-w64-mingw32-gcc is not installed (Debian: gcc-mingw-w64-x86-64)"
fi
[ "$wrong" -eq 0 ] && echo "installation: all as it should be"
exit "$wrong"
