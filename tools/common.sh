# shellcheck shell=sh disable=SC2034,SC2154
# What the scripts that draw share; they read it, nobody runs it. A script sets `takes`, its options with a value, `flags`, those without, and `most`, how
# many files.
. "$(dirname "$(readlink -f -- "$0")")/start.sh"
. "$home/tools/native.sh"
fill='' page='' image_room='' names='' output='' part='' file='' files=0

# A number, decimal or in hex after 0x, as decimal.
number() {
    digits=$2 base=''
    case $2 in
    0[xX]*) digits=${2#0?} base=0x ;;
    esac
    case $base$digits in
    0x | '' | 0x*[!0-9a-fA-F]*) say "$1 wants a number, decimal or in hex after 0x, and not '$2'" ;;
    0x*) ;;
    *[!0-9]*) say "$1 wants a number, decimal or in hex after 0x, and not '$2'" ;;
    esac
    digits=$(printf '%s' "$digits" | sed 's/^0*//')
    [ "${#digits}" -gt 10 ] || value=$(($base${digits:-0}))
    if [ "${#digits}" -gt 10 ] || [ "$value" -gt 4294967295 ]; then
        say "$1 goes up to 4294967295, and $2 is more"
    fi
}

# One of some words.
word() {
    value=''
    for one in $3; do
        [ "$one" != "$2" ] || value=$2
    done
    [ -n "$value" ] || say "$1 wants one of: $3; and not '$2'"
}

# Reads the command line, options and files in any order; --option=value is --option value, and behind -- every word is a file.
options() {
    only_files=''
    while [ "$#" -gt 0 ]; do
        name=$1
        case $only_files$name in
        --)
            only_files=' '
            shift
            continue
            ;;
        --?*=*)
            shift
            set -- "${name%%=*}" "${name#*=}" "$@"
            name=$1
            case " $takes " in
            *" $name "*) ;;
            *) say "there is no option $name with a value (--help says what there is)" ;;
            esac
            ;;
        -?*)
            case " ${flags:-} " in
            *" $name "*)
                shift
                continue
                ;;
            esac
            case " $takes " in
            *" $name "*) ;;
            *) say "there is no option $name (--help says what there is)" ;;
            esac
            [ "$#" -ge 2 ] || say "$name wants a value"
            ;;
        *)
            [ -n "$name" ] || say "the name of a file is empty"
            files=$((files + 1))
            [ "$files" -le "$most" ] || say "more files than $most"
            file=$name
            shift
            continue
            ;;
        esac
        case $name in
        --page) number "$name" "$2" && page=$value ;;
        --room) number "$name" "$2" && image_room=$value ;;
        --fill) word "$name" "$2" 'inherited full' && fill=$value ;;
        --names)
            [ -n "$2" ] || say "the name of a file is empty"
            names=$2
            ;;
        -o)
            [ -n "$2" ] || say "the name of a file is empty"
            output=$2
            ;;
        esac
        shift 2
    done
}

# A file that can be read.
readable() {
    [ -n "$1" ] || say "a file is missing (--help says how to call it)"
    [ ! -d "$1" ] || say "$1 is a folder"
    [ -r "$1" ] || say "$1 cannot be read"
}

# take FILE LIMIT: the command is there, and the file, or standard input for -, is where it can be read more than once; no more of it is read than shows that it
# is too long.
take() {
    from=$1
    if [ "$from" != - ]; then
        readable "$from"
    elif ! (: 3<&0) 2>/dev/null; then
        say "standard input is closed"
    fi
    find_native
    make_room
    if [ "$from" = - ]; then
        held head -c "$2" >"$room/source" 2>/dev/null || say "standard input cannot be read"
        from=$room/source
    elif [ ! -f "$from" ]; then
        held head -c "$2" <"$from" >"$room/source" 2>/dev/null || say "$from cannot be read"
        from=$room/source
    fi
}

# The answer in a file of its own: made beside its place with the mode of the file that it replaces, and moved there when it is whole, so that nobody finds a
# part of it.
leave() {
    [ -z "$part" ] || rm -f -- "$part"
    [ -z "$room" ] || rm -rf -- "$room"
}
deliver() {
    [ ! -e "$1" ] || [ -f "$1" ] || say "$1 is not a regular file"
    place=$(readlink -f -- "$1") || say "there is no folder for $1"
    for one in "$file" "${names_file:-$file}"; do
        [ "$place" != "$(readlink -f -- "$one")" ] || say "$1 is an input, and is not written over"
    done
    mode=$(printf '%o' "$((0666 & ~$(umask)))")
    [ ! -e "$place" ] || mode=$(stat -c %a -- "$place") || say "$1 could not be written"
    part=$(mktemp "${place%/*}/.part.XXXXXX" 2>/dev/null) || say "no file can be made beside $1"
    { cat "$room/said" >"$part" && chmod "$mode" "$part" && mv -f -- "$part" "$place"; } 2>/dev/null || say "$1 could not be written"
    part=
}
