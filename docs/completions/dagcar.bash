# Completion of `dagcar` for bash: its words, and files. Source this file.
_dagcar() {
    local now=${COMP_WORDS[COMP_CWORD]}
    if [ "$COMP_CWORD" -eq 1 ]; then
        mapfile -t COMPREPLY < <(compgen -W "check inspect verify list get tree at prove ls cat records record record-proof commit changes filter merge split index event name one show make --help --version" -- "$now")
    else
        mapfile -t COMPREPLY < <(compgen -f -- "$now")
    fi
}
complete -o filenames -F _dagcar dagcar
