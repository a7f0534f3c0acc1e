# shellcheck shell=sh disable=SC2034
# The crates that scripts name, each here alone: `crate_ROLE=NAME`. Shell scripts read it by tools/launch.sh, Python by oracle/manners.py.
[ "${0##*/}" != crates.sh ] || . "$(dirname "$(readlink -f -- "$0")")/start.sh"
crate_layout=layout
crate_mapper=prog_map
crate_station=prog_records
crate_rehex=prog_rehex
crate_reason=prog_reason
crate_bencher=prog_overlay
crate_converter=prog_convert
crate_library=denkumari
# the thin crate over it whose exports are the calls of include/denkumari.h
crate_archive=denkumari_c
