# SPDX-License-Identifier: MIT
# Completion of msat-explain's words for bash.
_msat_explain() {
    local word=${COMP_WORDS[COMP_CWORD]}
    COMPREPLY=()
    case ${COMP_WORDS[COMP_CWORD - 1]} in
    -f | --file | --keys | --assets | --html) COMPREPLY=($(compgen -f -- "$word")) ;;
    --color) COMPREPLY=($(compgen -W "auto always never" -- "$word")) ;;
    --key | --branch | --index) ;;
    *) COMPREPLY=($(compgen -W "-f --file --key --keys --assets --branch --index --html --json --consensus --color --help --version" -- "$word")) ;;
    esac
}
complete -o default -F _msat_explain msat-explain
