# shellcheck shell=bash
# Completion for bash: the commands of tmx, the options of each, files for FILE and RECORDING, and folders for DIR.

# The options of a command, or those of tmx itself where the word is no command.
_tmx_options() {
    case $1 in
    frames) echo "--settings -h --help" ;;
    summary) echo "--settings --strict -h --help" ;;
    packets) echo "--settings --binary --report --checkpoint --stop-after --resume --strict -h --help" ;;
    extract) echo "--settings --report --checkpoint --stop-after --resume --strict -h --help" ;;
    split) echo "--settings --dir --report --checkpoint --stop-after --resume --strict -h --help" ;;
    fields) echo "--settings --definition --apid --binary --report --checkpoint --stop-after --resume --strict -h --help" ;;
    *) echo "-h --help -V --version" ;;
    esac
}

# Gives what compgen finds for the word that is typed: words, files or folders. Names are quoted where they have to be.
_tmx_give() {
    [ "$1" = -W ] || compopt -o filenames 2>/dev/null
    mapfile -t COMPREPLY < <(compgen "$@")
}

_tmx() {
    local current=${COMP_WORDS[COMP_CWORD]} before=${COMP_WORDS[COMP_CWORD - 1]}
    # In --NAME=VALUE the sign is a word of its own.
    if [ "$current" = "=" ]; then
        current=
    elif [ "$before" = "=" ]; then
        before=${COMP_WORDS[COMP_CWORD - 2]}
    fi
    COMPREPLY=()
    case $before in
    --settings | --report | --checkpoint | --resume | --definition) _tmx_give -f -- "$current" ;;
    --dir) _tmx_give -d -- "$current" ;;
    --stop-after | --apid) ;;
    *)
        if [[ $current = -* ]]; then
            _tmx_give -W "$(_tmx_options "${COMP_WORDS[1]}")" -- "$current"
        elif [ "$COMP_CWORD" = 1 ]; then
            _tmx_give -W "frames packets extract split fields summary" -- "$current"
        else
            _tmx_give -f -- "$current"
        fi
        ;;
    esac
}

complete -F _tmx tmx
