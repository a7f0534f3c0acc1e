#!/bin/sh
# The models by themselves and beside the proved programs, in seconds: oracle/models.sh [CASES]. Recorded answers, the examples, the formats' public
# descriptions, every order of a few offers, and CASES drawn cases (60 if not given) for each program.
set -eu
. "$(dirname "$(readlink -f -- "$0")")/../tools/start.sh"
words_at_most 1 "$@"
cases=${1:-60}
a_number CASES "$cases"
command -v python3 >/dev/null 2>&1 || {
    echo "skipped: the models, for want of python3"
    exit 0
}
cd "$home/oracle"
python3 check.py
python3 recorded.py --built
python3 records.py --selftest
python3 orders.py
python3 programs.py --cases "$cases"
