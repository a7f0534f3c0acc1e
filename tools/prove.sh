# shellcheck shell=sh disable=SC2154
# What stands on what by crates.txt, which crates are here, and how one is proved; tools/launch.sh reads it, nobody runs it. Everything here runs in the
# repository's folder.
[ "${0##*/}" != prove.sh ] || . "$(dirname "$(readlink -f -- "$0")")/start.sh"

# is_listed CRATE: whether crates.txt lists it; the kit's own libraries are not there.
is_listed() {
    grep -qE "^$1( [^:]*)?:" "$home/crates.txt"
}

# The folders of some crates and of those that they stand on.
stands_on() {
    awk -v names="$*" '
        { sub(/#.*/, "") }
        match($0, /^[^:]*:/) {
            line = substr($0, RLENGTH + 1)
            one = substr($0, 1, RLENGTH - 1)
            # (`NAME staticlib`)
            sub(/ .*/, "", one)
            needs[one] = line
        }
        function reach(one,    word, i, n) {
            if (!(one in needs) || (one in seen)) return
            seen[one] = 1
            print "crates/" one
            n = split(needs[one], word, " ")
            for (i = 1; i <= n; i++) reach(word[i])
        }
        END { wanted = split(names, name, " "); for (k = 1; k <= wanted; k++) reach(name[k]) }' crates.txt
}

# progress LOG CRATE ..: what rt says, from standard input, goes into the log, and of each function that was proved a line goes to standard error once a
# minute. The last line of the input is `status N`, rt's status.
progress() {
    log_file=$1
    began=$(date +%s) told=0 status=2 count=0
    while IFS= read -r text; do
        case $text in
        'status '*)
            status=${text#status }
            continue
            ;;
        esac
        printf '%s\n' "$text" >&3
        case $text in
        'fn '*': proved'*) count=$((count + 1)) ;;
        *) continue ;;
        esac
        took=$(($(date +%s) - began))
        [ "$((took / 60))" -le "$told" ] || {
            told=$((took / 60))
            echo "$count functions proved, $took s: ${text%%: proved*}" >&2
        }
    done 3>"$log_file"
    [ "$status" = 0 ]
}

# run_rt VERB CRATE: in the crate's folder, where rt proves what the crate stands on first.
run_rt() {
    (cd "crates/$2" && rt "$1" </dev/null)
}
