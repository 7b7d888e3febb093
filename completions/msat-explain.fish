# SPDX-License-Identifier: MIT
# Completion of msat-explain's words for fish.
complete -c msat-explain -f
complete -c msat-explain -s f -l file -r -F -d 'a file that holds the condition'
complete -c msat-explain -l key -x -d 'NAME=HEX: the digits of a name, or a key of a Script'
complete -c msat-explain -l keys -r -F -d 'a file of JSON with the digits of names'
complete -c msat-explain -l assets -r -F -d 'an asset file: what it makes possible'
complete -c msat-explain -l branch -x -d 'the branch of a descriptor'
complete -c msat-explain -l index -x -d 'the index of a descriptor'
complete -c msat-explain -l html -r -F -d 'writes one page to this file'
complete -c msat-explain -l json -d 'prints JSON in place of text'
complete -c msat-explain -l consensus -d 'by the limits of consensus, not by those of policy'
complete -c msat-explain -l color -x -a 'auto always never' -d 'whether the text is coloured'
complete -c msat-explain -l help -d 'says which words there are'
complete -c msat-explain -l version -d 'says the version'
