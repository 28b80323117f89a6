# Completion of wit-explain for bash: the commands, the options, and files.
_wit_explain() {
    local current=${COMP_WORDS[COMP_CWORD]} before=${COMP_WORDS[COMP_CWORD - 1]} options
    # bash parts --color=always at the `=`
    if [[ $before == = && $COMP_CWORD -gt 1 ]]; then
        before=${COMP_WORDS[COMP_CWORD - 2]}
    elif [[ $current == = ]]; then
        before=${COMP_WORDS[COMP_CWORD - 1]} current=''
    fi
    COMPREPLY=()
    if [[ $before == --color ]]; then
        mapfile -t COMPREPLY < <(compgen -W 'auto always never' -- "$current")
    elif [ "$COMP_CWORD" -eq 1 ]; then
        options='check format show text bin encode embed decode layout diff call bind --help --version'
        mapfile -t COMPREPLY < <(compgen -W "$options" -- "$current")
    elif [[ ${COMP_WORDS[1]} == bind && $COMP_CWORD -eq 2 && $current != -* ]]; then
        mapfile -t COMPREPLY < <(compgen -W 'c guest ts python' -- "$current")
    elif [[ $current == -* ]]; then
        case ${COMP_WORDS[1]} in
            check | show) options='--json --color --help' ;;
            format) options='--check --color --help' ;;
            layout) options='--svg --json --color --help' ;;
            bin) options='-o --output --color --help' ;;
            encode | embed) options='-o --output --world --color --help' ;;
            call) options='--svg --color --help' ;;
            text | decode | diff | bind) options='--color --help' ;;
            *) options=--help ;;
        esac
        [[ ${COMP_WORDS[1]} != bind || ${COMP_WORDS[2]} != guest ]] || options="--world $options"
        mapfile -t COMPREPLY < <(compgen -W "$options" -- "$current")
    else
        compopt -o default
    fi
}
complete -F _wit_explain wit-explain
