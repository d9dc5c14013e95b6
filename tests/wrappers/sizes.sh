# shellcheck shell=sh disable=SC2154,SC2034 # lib.sh sets what is used here, and reads what is set
# The sizes of metadata: what thin-provisioning-tools 1.1.0 answer to these calls, and what they refuse, with 2 or 64

while IFS='|' read -r recorded answer call; do
    [ "$recorded" -ne 64 ] || recorded=2
    # shellcheck disable=SC2086 # several words
    try "$recorded" $call
    if [ "$recorded" -eq 0 ]; then
        out "$answer"
        notes
    else
        out
        notes_have "${call%% *}: "
        notes_have "usage: ${call%% *} "
    fi
done <"$here/tests/wrappers/sizes.txt"

for tool in $sizes; do
    for word in -h --help; do
        try 0 "$tool" $word
        notes
        grep -q "^usage: $tool " out || bad 'no synopsis'
    done
    for word in -V --version; do
        try 0 "$tool" $word
        out "$tool (pdata_tools) $release"
        notes
    done
done

# Where 1.1.0 counts past 2^64 and gives less, it is the greatest answer
for call in 'thin_metadata_size -b64k -s1t -m18446744073709551615' 'thin_metadata_size -b1g -s9p -m18446744073709476735' \
    'cache_metadata_size --nr-blocks 18446744073709551615' 'cache_metadata_size --nr-blocks 1000000000000000000' \
    'cache_metadata_size --block-size 64k --device-size 18446744073709551615b'; do
    # shellcheck disable=SC2086 # several words
    try 0 $call
    out '33292800 sectors'
done

# What is said of the words
refused() {
    said=$1
    shift
    try 2 "$@"
    sed -n "s/^$1: //p" notes | sed '/^the nearest form is/d' >rest
    printf '%s\n' "$said" >wanted
    same wanted rest
}
refused '--max-thins has no value: NUMBER is wanted' thin_metadata_size -b 64k -s 1t -m ''
refused '--max-thins is a number below 2^64, and not 1k' thin_metadata_size -b 64k -s 1t -m 1k
refused '--max-hint-width is a number below 2^32, and not 4294967296' cache_metadata_size --nr-blocks 1 --max-hint-width 4294967296
refused '--block-size is a multiple of 64 KiB, and 1 GiB at most, and not 32k' thin_metadata_size -b 32k -s 1t -m 1
refused '--pool-size is at least a block, and not 1' thin_metadata_size -b 64k -s 1 -m 1
refused '--device-size is a number with a unit, as 64k or 1t, or of sectors, below 2^64 bytes, and not 1Z' \
    cache_metadata_size --block-size 64k --device-size 1Z
refused '--unit is one of b s k K m M g G t T p P e E, and not x' cache_metadata_size --nr-blocks 1 -u x
refused '--numeric-only is alone, or has =short or =long behind it, and not =x' cache_metadata_size --nr-blocks 1 -n=x
refused '--pool is none of its words; the nearest is --pool-size
1t stands without an option before it' thin_metadata_size -b 64k --pool 1t -m 1
refused '--block-size doesn'"'t go with the others" cache_metadata_size --nr-blocks 1 --block-size 64k
# a full disk
if [ -c /dev/full ]; then
    try 6 sh -c 'cache_metadata_size --nr-blocks 1 >/dev/full'
fi
