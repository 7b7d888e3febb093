# SPDX-License-Identifier: MIT
# Completion of msat's words for fish. A TEXT is written by hand, or by "(cat FILE)".
complete -c msat -f
complete -c msat -n __fish_use_subcommand -a script -d 'the Script of a valid text'
complete -c msat -n __fish_use_subcommand -a asm -d 'the instructions of the Script of a valid text, with the node that wrote each'
complete -c msat -n __fish_use_subcommand -a tree -d 'the nodes of a text, each with its type, and which letter fits'
complete -c msat -n __fish_use_subcommand -a check -d 'what is known of a sane text'
complete -c msat -n __fish_use_subcommand -a satisfy -d 'a satisfaction of a text, with an asset file on standard input'
complete -c msat -n __fish_use_subcommand -a run -d 'the run of a script on a stack, with a run file on standard input'
complete -c msat -n __fish_use_subcommand -a gen -d 'a large condition of N children, satisfied both ways'
complete -c msat -n __fish_use_subcommand -a policy -d 'what a sane text demands, without Script'
complete -c msat -n __fish_use_subcommand -a plan -d 'which keys to ask for a signature, with a plan file on standard input'
complete -c msat -n __fish_use_subcommand -a audit -d 'by which rows a stack satisfies a text, with a run file on standard input'
complete -c msat -n __fish_use_subcommand -a trace -d 'the run of a script step by step, alone or for a text, with a run file on standard input'
complete -c msat -n __fish_use_subcommand -a decode -d 'the text that a Script is read back as'
complete -c msat -n __fish_use_subcommand -a lines -d 'the answer to a question on each line of standard input'
complete -c msat -n '__fish_seen_subcommand_from satisfy' -l malleable -d 'the lightest satisfaction, which others may be able to change'
complete -c msat -n '__fish_seen_subcommand_from script asm tree check satisfy' -l consensus -d 'by the limits of consensus, not by those of policy'
complete -c msat -n '__fish_seen_subcommand_from gen' -a '(seq 30)'
