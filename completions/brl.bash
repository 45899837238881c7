# Completions of the words of brl for bash. They need no other file; bash-completion loads them by
# their name where it is installed.

# The candidates for the word at the cursor, one of each line of the input.
_brl_reply() {
    local line
    COMPREPLY=()
    while IFS= read -r line; do
        COMPREPLY+=("$line")
    done
}

# Files whose names begin with the word at the cursor.
_brl_files() {
    compopt -o filenames 2>/dev/null
    _brl_reply < <(compgen -f -- "$1")
}

# Folders whose names begin with it.
_brl_folders() {
    compopt -o filenames 2>/dev/null
    _brl_reply < <(compgen -d -- "$1")
}

_brl() {
    # help takes one of the other commands
    local commands='translate clash trace rules unused slips explain search clashes check survey cut'
    local word=${COMP_WORDS[COMP_CWORD]} command='' option='' at operands=0
    [[ $word == '=' ]] && word=''

    # The command, the option that waits for its value, and the operands before the cursor.
    for ((at = 1; at < COMP_CWORD; at++)); do
        case ${COMP_WORDS[at]} in
            --accept | --form | --first | --kind | --limit | --only | --path | --without | --write) option=${COMP_WORDS[at]} ;;
            =) ;;
            *)
                if [[ -n $option ]]; then
                    option=''
                elif [[ ${COMP_WORDS[at]} == -* ]]; then
                    :
                elif [[ -z $command ]]; then
                    command=${COMP_WORDS[at]}
                else
                    ((operands++))
                fi
                ;;
        esac
    done

    local options='--help'
    case $command in
        '') options='--help --version' ;;
        translate) options='--form --lacking --path --help' ;;
        clash | trace) options='--escapes --lines --path --help' ;;
        rules | explain) options='--path --help' ;;
        search) options='--limit --without --only --accept --path --help' ;;
        clashes) options='--first --kind --tsv --limit --without --only --accept --prune --write --path --help' ;;
        unused) options='--limit --without --only --path --help' ;;
        slips) options='--tsv --path --help' ;;
        check) options='--without --only --accept --path --help' ;;
        survey) options='--brief --only --path --help' ;;
        cut) options='--rewrite --only --path --help' ;;
        help) options='' ;;
    esac

    COMPREPLY=()
    if [[ $option == --form ]]; then
        _brl_reply < <(compgen -W 'ascii unicode' -- "$word")
    elif [[ $option == --kind ]]; then
        _brl_reply < <(compgen -W 'alike rules cells case several begins word asdigit number sets again unseen braille' -- "$word")
    elif [[ $option == --path ]]; then
        _brl_folders "$word"
    elif [[ $option == --accept || $option == --write ]]; then
        _brl_files "$word"
    elif [[ -n $option ]]; then
        return
    elif [[ $word == -* ]]; then
        _brl_reply < <(compgen -W "$options" -- "$word")
    elif [[ -z $command ]]; then
        _brl_reply < <(compgen -W "$commands help" -- "$word")
    else
        case $command:$operands in
            translate:0 | clash:0 | trace:0 | rules:0 | unused:0 | slips:0 | clashes:0 | search:[01] | check:[01] | survey:* | cut:0) _brl_files "$word" ;;
            cut:1) _brl_folders "$word" ;;
            help:0) _brl_reply < <(compgen -W "$commands" -- "$word") ;;
        esac
    fi
}

complete -F _brl brl
