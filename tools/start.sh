# shellcheck shell=sh
# What every shell script here begins with; they read it, nobody runs it: the repository's folder `home`, found through symlinks and from any directory, the
# script's own name `tool`, its --help, what it says when it gives up, and a temporary folder that goes whatever ends the script.
here=$(readlink -f -- "$0") || exit 2
home=${here%/*}
while [ ! -f "$home/crates.txt" ]; do
    home=${home%/*}
    [ -n "$home" ] || {
        echo "$0: there is no crates.txt above it" >&2
        exit 2
    }
done
tool=${here#"$home/"}

# Nothing was done: status 2.
say() {
    echo "$tool: $1" >&2
    exit 2
}

# The lines at the head of the script, at once wherever --help stands, or in the first place alone where the rest is not the script's own. Where it was
# installed (tools/install) it goes by the name that it has there.
usage() {
    {
        sed -n '1{/^#!/d;};/^# shellcheck /d;/^[^#]/q;/^$/q;s/^# \{0,1\}//p' "$here" || exit 2
        [ ! -f "$home/INSTALLED" ] || echo "As installed, every program is built already: no run proves or builds one."
    } | if [ -f "$home/INSTALLED" ]; then sed 's,tools/\([a-z]\),denkumari \1,g'; else cat; fi || exit 2
    exit 0
}
for one in "$@"; do
    [ "$one" != --help ] || usage
    [ -z "${only_first:-}" ] || break
done
case $tool in
tools/*.sh) say "other scripts read this, nobody runs it" ;;
esac
if [ -f "$home/INSTALLED" ]; then
    tool="denkumari ${tool#tools/}"
    tool=${tool#denkumari denkumari}
    tool=${tool:-denkumari}
fi

# The words of a script that takes none, or at most so many, none of them an option.
words_at_most() {
    most_words=$1
    shift
    for one in "$@"; do
        case $one in
        -?*) say "there is no option $one (--help says what there is)" ;;
        esac
    done
    [ "$#" -le "$most_words" ] || say "more words than $most_words: $* (--help says what there is)"
}
a_number() {
    case $2 in
    '' | *[!0-9]*) say "$1 is a number, and not '$2'" ;;
    esac
}

# Whether a machine runs the tests by itself, which says so by CI=true.
in_ci() {
    case ${CI:-} in
    '' | 0 | false | no) return 1 ;;
    esac
}

# The temporary folder `room`. A command that may wait for long, for its input say, is run by `held`, so that a signal ends it at once.
room='' child=''
leave() {
    [ -z "$room" ] || rm -rf -- "$room"
}
stopped() {
    trap '' HUP INT TERM
    [ -z "$child" ] || kill "$child" 2>/dev/null
    exit "$1"
}
make_room() {
    trap leave EXIT
    trap 'stopped 129' HUP
    trap 'stopped 130' INT
    trap 'stopped 143' TERM
    room=$(trap '' HUP INT TERM && mktemp -d 2>/dev/null) || say "no temporary folder can be made"
}
held() {
    { "$@" <&3 3<&- & } 3<&0
    child=$!
    wait "$child"
    set -- "$?"
    child=
    return "$1"
}
