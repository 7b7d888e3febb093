# SPDX-License-Identifier: MIT
# Completion of msat's words for bash. A TEXT is written by hand, or by "$(cat FILE)".
_msat() {
    local word=${COMP_WORDS[COMP_CWORD]}
    COMPREPLY=()
    case $COMP_CWORD in
    1) COMPREPLY=($(compgen -W "script asm tree check satisfy run gen policy plan audit trace decode lines" -- "$word")) ;;
    2)
        case ${COMP_WORDS[1]} in
        script | asm | tree | check) COMPREPLY=($(compgen -W "--consensus" -- "$word")) ;;
        satisfy) COMPREPLY=($(compgen -W "--malleable --consensus" -- "$word")) ;;
        gen) COMPREPLY=($(compgen -W "$(seq 30)" -- "$word")) ;;
        esac
        ;;
    3)
        case "${COMP_WORDS[1]} ${COMP_WORDS[2]}" in
        "satisfy --malleable") COMPREPLY=($(compgen -W "--consensus" -- "$word")) ;;
        esac
        ;;
    esac
}
complete -o default -F _msat msat
