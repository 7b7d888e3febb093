# SPDX-License-Identifier: MIT
# Completion of msat-psbt's words for bash. The PSBT comes on standard input.
_msat_psbt() {
    local word=${COMP_WORDS[COMP_CWORD]}
    COMPREPLY=()
    case "$COMP_CWORD ${COMP_WORDS[1]}" in
    "1 "*) COMPREPLY=($(compgen -W "finalize inspect extract hashes verify combine lines" -- "$word")) ;;
    "2 finalize" | "2 inspect" | "2 hashes") COMPREPLY=($(compgen -W "--unverified" -- "$word")) ;;
    esac
}
complete -o default -F _msat_psbt msat-psbt
