# SPDX-License-Identifier: MIT
# Completion of msat-descriptor's words for bash.
_msat_descriptor() {
    local word=${COMP_WORDS[COMP_CWORD]}
    COMPREPLY=()
    case "$COMP_CWORD ${COMP_WORDS[1]}" in
    "1 "*) COMPREPLY=($(compgen -W "check derive update" -- "$word")) ;;
    "2 derive") COMPREPLY=($(compgen -W "--testnet --regtest --branch" -- "$word")) ;;
    "3 derive") [[ ${COMP_WORDS[2]} == --[tr]* ]] && COMPREPLY=($(compgen -W "--branch" -- "$word")) ;;
    esac
}
complete -o default -F _msat_descriptor msat-descriptor
