#compdef tmx
# Completion for zsh: the commands of tmx, the options of each, files for FILE and RECORDING, and folders for DIR.

_tmx() {
    local curcontext=$curcontext state
    local -a commands options
    commands=(
        'frames:list the frames'
        'packets:list the packets'
        'extract:give the octets of the packets'
        'split:give the octets of the packets, a file for each application'
        'fields:read the fields of the packets of an application'
        'summary:sum up what came and what was lost'
    )
    _arguments -C \
        '(- : *)'{-h,--help}'[print help]' \
        '(- : *)'{-V,--version}'[print the version]' \
        '1:COMMAND:->command' \
        '*::WORD:->word'
    if [[ $state = command ]]; then
        _describe COMMAND commands
        return
    fi
    [[ $state = word ]] || return
    options=('(- : *)'{-h,--help}'[print help]')
    case $words[1] in
    frames|packets|extract|split|fields|summary)
        options+=('--settings=[the settings of the recording]:FILE:_files')
        ;|
    split)
        options+=('--dir=[the folder for the files]:DIR:_files -/')
        ;|
    fields)
        options+=('--definition=[the definition of the fields]:FILE:_files')
        options+=('--apid=[the application, 0 to 2047]:N:')
        ;|
    packets|fields)
        options+=('--binary[octets in place of lines or rows]')
        ;|
    packets|extract|split|fields)
        options+=('--report=[the file of the report]:FILE:_files')
        options+=('--checkpoint=[the checkpoint to write after the run]:FILE:_files')
        options+=('--stop-after=[how many records further to stop]:N:')
        options+=('--resume=[the checkpoint to go on from]:FILE:_files')
        ;|
    packets|extract|split|fields|summary)
        options+=('--strict[status 4 or 5 by what is bad or lost]')
        ;|
    esac
    _arguments $options '1:RECORDING:_files'
}

_tmx "$@"
