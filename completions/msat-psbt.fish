# SPDX-License-Identifier: MIT
# Completion of msat-psbt's words for fish. The PSBT comes on standard input.
complete -c msat-psbt -f
complete -c msat-psbt -n __fish_use_subcommand -a finalize -d 'the PSBT with each input that is Ready made final'
complete -c msat-psbt -n __fish_use_subcommand -a inspect -d 'what the transaction does with the money, and what each input demands and lacks'
complete -c msat-psbt -n __fish_use_subcommand -a extract -d 'the network transaction of a PSBT whose inputs are all final'
complete -c msat-psbt -n __fish_use_subcommand -a hashes -d 'what the signatures of each input sign'
complete -c msat-psbt -n __fish_use_subcommand -a verify -d 'whether the final fields of each input are valid'
complete -c msat-psbt -n __fish_use_subcommand -a combine -d 'the PSBT that holds what several of one transaction hold'
complete -c msat-psbt -n __fish_use_subcommand -a lines -d 'an answer to each line of standard input, in order'
complete -c msat-psbt -n '__fish_seen_subcommand_from finalize inspect hashes' -l unverified -d 'no signature is looked at'
