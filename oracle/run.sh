#!/bin/sh
# Builds the judge and compares: run.sh [words of compare.py, whose --help says which]. oracle/README.md tells the rest.
set -eu
. "$(dirname "$(readlink -f -- "$0")")/../tools/start.sh"
# words that compare.py does not know are said before anything is built
python3 "$home/oracle/compare.py" --try "$@"
"$home/oracle/build.sh"
exec python3 "$home/oracle/compare.py" "$@"
