# SPDX-License-Identifier: MIT
# Completion of msat-descriptor's words for fish.
complete -c msat-descriptor -f
complete -c msat-descriptor -n __fish_use_subcommand -a check -d 'what a descriptor is, and whether its condition is sane'
complete -c msat-descriptor -n __fish_use_subcommand -a derive -d 'the addresses, Scripts and texts that it gives'
complete -c msat-descriptor -n __fish_use_subcommand -a update -d 'a PSBT with what it says of its inputs and outputs'
complete -c msat-descriptor -n '__fish_seen_subcommand_from derive' -l testnet -d 'addresses of the test network'
complete -c msat-descriptor -n '__fish_seen_subcommand_from derive' -l regtest -d 'addresses of a private network'
complete -c msat-descriptor -n '__fish_seen_subcommand_from derive' -l branch -d 'the branch, counted from 0'
