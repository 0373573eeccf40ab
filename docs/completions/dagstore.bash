# Completion of `dagstore` for bash: its words, and files. Source this file.
_dagstore() {
    local now=${COMP_WORDS[COMP_CWORD]}
    if [ "$COMP_CWORD" -eq 2 ]; then
        mapfile -t COMPREPLY < <(compgen -W "import put export get at ls cat has tree check list count roots remove gc add-root drop-root serve --help --version" -- "$now")
    else
        mapfile -t COMPREPLY < <(compgen -f -- "$now")
    fi
}
complete -o filenames -F _dagstore dagstore
