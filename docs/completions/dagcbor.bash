# Completion of `dagcbor` for bash: its words, and files. Source this file.
_dagcbor() {
    local now=${COMP_WORDS[COMP_CWORD]}
    if [ "$COMP_CWORD" -eq 1 ]; then
        mapfile -t COMPREPLY < <(compgen -W "check links" -- "$now")
    else
        mapfile -t COMPREPLY < <(compgen -f -- "$now")
    fi
}
complete -o filenames -F _dagcbor dagcbor
