# shellcheck shell=bash
# Completions of smap-page for bash.

_smap_page() {
    local current=${COMP_WORDS[COMP_CWORD]}
    COMPREPLY=()
    if [[ ${COMP_WORDS[COMP_CWORD - 1]} == --base ]]; then return; fi
    if [[ $current == -* ]]; then
        mapfile -t COMPREPLY < <(compgen -W '--base --help --trace --version' -- "$current")
    else
        compopt -o filenames
        mapfile -t COMPREPLY < <(compgen -f -- "$current")
    fi
}

complete -F _smap_page smap-page
