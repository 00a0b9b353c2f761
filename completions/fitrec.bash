# Completes the words of fitrec in bash.
_fitrec() {
    local word=${COMP_WORDS[COMP_CWORD]} options=
    COMPREPLY=()
    if [ "$COMP_CWORD" -eq 1 ]; then
        COMPREPLY=($(compgen -W 'show table check replay record save repair salvage split plain shift join simulate version help --help' -- "$word"))
        return
    fi
    case ${COMP_WORDS[1]} in
        help) COMPREPLY=($(compgen -W 'show table check replay record save repair salvage split plain shift join simulate version' -- "$word")); return ;;
        show) options='--utc --json --profile --gpx --help' ;;
        table) options='--utc --raw --profile --message --fields --each --null --help' ;;
        check) options='--each --null --json --help' ;;
        replay) options='--checked --help' ;;
        record) options='--commit --help' ;;
        save) options='--earlier --help' ;;
        repair) options='--verify --help' ;;
        salvage) options='--all --skip --like --plain --finish --help' ;;
        split) options='--all --help' ;;
        plain) options='--help' ;;
        shift) options='--by --start --help' ;;
        join) options='--as-given --help' ;;
        simulate) options='--checked --choices --help' ;;
        version) options='--help' ;;
    esac
    case $word in
        -*) COMPREPLY=($(compgen -W "$options" -- "$word")) ;;
    esac
}
# Where the function has no answer, the shell completes the name of a file.
complete -o default -F _fitrec fitrec
