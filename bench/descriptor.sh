#!/bin/sh
# How `msat-descriptor derive D 0 COUNT` grows: instructions at several numbers of indices, of the product and of the plain program that does the same
# with the same multiplication of the generator; what both print is compared byte for byte. D is a 2-of-3 `sortedmulti`, or a key with a later one.
. "$(dirname "$0")/lib.sh"
wants valgrind rustc
"$top/prove" msat-descriptor || stop "msat-descriptor isn't proved and built"
program=$top/crates/msat_descriptor/out/msat_descriptor
plain descriptor_baseline
first=xpub661MyMwAqRbcFW31YEwpkMuc5THy2PSt5bDMsktWQcFF8syAmRUapSCGu8ED9W6oDMSgv6Zz8idoc4a6mr8BDzTJY47LJhkJ8UB7WEGuduB
second=xpub6CatWdiZiodmUeTDp8LT5or8nmbKNcuyvz7WyksVFkKB4RHwCD3XyuvPEbvqAQY3rAPshWcMLoP2fMFMKHPJ4ZeZXYVUhLv1VMrjPC7PW6V
third=xpub68Gmy5EdvgibQVfPdqkBBCHxA5htiqg55crXYuXoQRKfDBFA1WEjWgP6LHhwBZeNK1VTsfTFUHCdrfp1bgwQ9xv5ski8PX9rL2dZXvgGDnw
two_of_three="wsh(sortedmulti(2,$first/<0;1>/*,[73c5da0a/84h/0h/0h]$second/<0;1>/*,[3442193e/0h]$third/<0;1>/*))"
key_or_later_key="wsh(or_d(pk([73c5da0a/84h/0h/0h]$second/<0;1>/*),and_v(v:pkh($first/7/<0;1>/*),older(144))))"

measure() {
    "$program" derive "$2" 0 "$3" >"$work/proved.out"
    "$plain" "$2" 0 "$3" >"$work/plain.out"
    grep -q '^address' "$work/plain.out" || stop "$1 $3: nothing is derived"
    cmp -s "$work/proved.out" "$work/plain.out" || stop "$1 $3: the outputs differ"
    count "$program" derive "$2" 0 "$3"
    proved=$counted
    count "$plain" "$2" 0 "$3"
    row derive "$1" "$3" ${#2} "$proved" "$counted"
}

columns command shape size bytes proved plain
for size in 1 100 200 1000 2000; do
    measure two_of_three "$two_of_three" "$size"
done
for size in 1 100 200; do
    measure key_or_later_key "$key_or_later_key" "$size"
done
finish
