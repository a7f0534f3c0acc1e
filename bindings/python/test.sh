#!/bin/sh
# Tests the Python package: test.sh [CASES [SEED]], 400 and 1 if not given. Compiles its library (build.sh), then holds the package to the C calls, to the
# native command and to document 01's worked example on CASES drawn layouts, files of records and dumps, good and damaged; runs the examples of its documents;
# and installs it, and its source distribution, into a folder of its own from a copy whose path has blanks. PYTHON names the interpreter (python3). Says what
# it skipped for want of something, and what it left out.
set -eu
. "$(dirname "$(readlink -f -- "$0")")/../../tools/start.sh"
words_at_most 2 "$@"
cases=${1:-400}
seed=${2:-1}
a_number CASES "$cases"
a_number SEED "$seed"
cd "$home"
python=${PYTHON:-python3}
command -v "$python" >/dev/null 2>&1 || {
    echo "skipped: the Python package: $python is not installed"
    exit 0
}
compiler=
for one in "${CC:-cc}" gcc clang; do
    [ -n "$compiler" ] || ! command -v "$one" >/dev/null 2>&1 || compiler=$one
done
[ -n "$compiler" ] || {
    echo "skipped: the Python package: there is no C compiler"
    exit 0
}
bindings/python/build.sh
# the command that the words are held to
tools/layout --help >/dev/null
make_room
rm -rf build/python/programs
cd bindings/python
held env PYTHONDONTWRITEBYTECODE=1 DENKUMARI_CASES="$cases" DENKUMARI_SEED="$seed" "$python" -m unittest -v tests.test_layouts tests.test_records \
    tests.test_verify tests.test_manners >"$room/said" 2>&1 || {
    cat "$room/said"
    exit 1
}
# what a test left out, by its reason
sed -n "s/^.* skipped '\(.*\)'\$/left out: \1/p" "$room/said" | LC_ALL=C sort -u
echo "Python $("$python" -c 'import platform; print(platform.python_version())'): $(grep '^Ran ' "$room/said"), $cases cases, seed $seed"

# the installation, from a copy
cd "$home"
copy="$room/a copy"
mkdir -p "$copy/bindings"
cp -R bindings/python "$copy/bindings/"
mkdir "$copy/portable" "$copy/include" "$copy/command"
cp portable/denkumari.c "$copy/portable/"
cp include/denkumari.h "$copy/include/"
cp command/refusals.def "$copy/command/"
cp NOTICE crates.txt "$copy/"
if ! "$python" -m venv "$room/an environment" >"$room/said" 2>&1; then
    echo "left out: the installation: $python makes no environment (Debian: python3-venv)"
    exit 0
fi
there="$room/an environment/bin/python"
"$there" -c 'import setuptools' 2>/dev/null || {
    echo "left out: the installation: setuptools does not come with an environment of $python"
    exit 0
}
# installed FOLDER: from there, without the network, and asked for the worked example
installed() {
    # without optimisation it is compiled in less time
    held env CFLAGS=-O0 "$there" -m pip install --quiet --disable-pip-version-check --no-cache-dir --no-index --no-build-isolation --force-reinstall "$1" >"$room/said" 2>&1 || {
        cat "$room/said"
        exit 1
    }
    said=$(cd / && "$there" -c 'import denkumari as d, sys; print(d.Layout.from_file(sys.argv[1]).build().digits(), d.__file__)' \
        "$home/examples/worked.form")
    case $said in
    "ffc002a800 $room/an environment/"*) ;;
    *) say "installed from $1 it says $said" ;;
    esac
}
installed "$copy/bindings/python"
(cd "$copy/bindings/python" && rm -rf build ./*.egg-info && "$there" setup.py --quiet sdist --dist-dir "$room" >"$room/said" 2>&1) || {
    cat "$room/said"
    exit 1
}
set -- "$room"/denkumari-*.tar.gz
(cd "$room" && mkdir "an sdist" && tar -xzf "$1" -C "an sdist" --strip-components 1)
installed "$room/an sdist"
echo "installed by pip from a checkout and from its source distribution, in paths with blanks"
