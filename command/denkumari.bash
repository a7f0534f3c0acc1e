# Completion of denkumari for bash; command/pages/pages.c printed it from command/help.def.
_denkumari() {
    local word=${COMP_WORDS[COMP_CWORD]} before=${COMP_WORDS[COMP_CWORD-1]} words=
    COMPREPLY=()
    if [ "$COMP_CWORD" -eq 1 ]; then
        words="layout map compare words ihex srec rehex bench verify convert form --help --version"
    else
        case ${COMP_WORDS[1]}:$before in
        layout:--fill) words="inherited full" ;;
        map:--fill) words="inherited full" ;;
        compare:--fill) words="inherited full" ;;
        words:--to) words="1 2" ;;
        words:--fill) words="inherited full" ;;
        ihex:--fill) words="inherited full" ;;
        srec:--width) words="2 4" ;;
        srec:--fill) words="inherited full" ;;
        rehex:--width) words="2 4" ;;
        rehex:--to) words="hex srec" ;;
        verify:--fill) words="inherited full" ;;
        convert:--to) words="1 2" ;;
        layout:*) [ "${word#-}" = "$word" ] || words="--fill --page --names --json -o --help" ;;
        map:*) [ "${word#-}" = "$word" ] || words="--svg --html --lines --fill --page --room --names --json -o --help" ;;
        compare:*) [ "${word#-}" = "$word" ] || words="--svg --fill --names --json -o --help" ;;
        words:*) [ "${word#-}" = "$word" ] || words="--to --fill --page --names --help" ;;
        ihex:*) [ "${word#-}" = "$word" ] || words="--load --whole --fill --page --room -o --help" ;;
        srec:*) [ "${word#-}" = "$word" ] || words="--load --whole --width --fill --page --room -o --help" ;;
        rehex:*) [ "${word#-}" = "$word" ] || words="--load --width --to -o --help" ;;
        bench:*) [ "${word#-}" = "$word" ] || words="--load --range --check --json -o --help" ;;
        verify:*) [ "${word#-}" = "$word" ] || words="--svg --load --whole --fill --page --room --names --json -o --help" ;;
        convert:*) [ "${word#-}" = "$word" ] || words="--to -o --help" ;;
        form:*) [ "${word#-}" = "$word" ] || words="--make --names -o --help" ;;
        esac
    fi
    [ -z "$words" ] || COMPREPLY=($(compgen -W "$words" -- "$word"))
}
complete -o default -o bashdefault -F _denkumari denkumari
