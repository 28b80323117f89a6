# Completion of witcall for bash: the commands, --with, and files.
_witcall() {
    local current=${COMP_WORDS[COMP_CWORD]}
    COMPREPLY=()
    if [ "$COMP_CWORD" -eq 1 ]; then
        mapfile -t COMPREPLY < <(compgen -W 'show layout text bin call' -- "$current")
    elif [[ $current == -* ]]; then
        mapfile -t COMPREPLY < <(compgen -W --with -- "$current")
    else
        # bash's own completion of files, which knows ~ and parts --with=FILE at the `=`
        compopt -o default
    fi
}
complete -F _witcall witcall
