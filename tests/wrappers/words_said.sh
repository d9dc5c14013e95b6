# shellcheck shell=sh disable=SC2154,SC2153,SC2034 # what is used here is set before, and what is set is read there
# What the commands say beyond the program: of words that aren't known, of files that are no metadata, of a program that can't be
# started, and of too little room and memory

# What is said of the words, between the program's line and the synopsis
wrong_words() {
    said=$1
    shift
    try 2 "$@"
    out
    sed -n "s/^$1: //p" notes | sed '/^the nearest form is/d' >rest
    printf '%s\n' "$said" >wanted
    same wanted rest
}
wrong_words 'DEVICE is wanted' thin_check
wrong_words '--no-such-word is none of its words' thin_check --no-such-word
wrong_words '--untill is none of its words; the nearest is --until' thin_check --untill walk thin-pool.img
wrong_words '--clear is none of its words; the nearest is --clear-needs-check-flag' cache_check --clear cache.img
wrong_words '--until has no value: STAGE is wanted' thin_check --until
wrong_words 'no stage is called all' thin_check --until all thin-pool.img
wrong_words 'leak.img is one name too many' thin_check thin-pool.img leak.img
wrong_words '--shared comes twice' thin_dump --shared --shared thin-pool.img
wrong_words 'with --until super neither leaks pass nor a flag is cleared' thin_check --until super --clear-needs-check-flag thin-pool.img
wrong_words '--clear-needs-check-flag is none of its words' era_check --clear-needs-check-flag era.img
wrong_words '-o DEVICE is wanted' thin_restore -i thin-pool.txt
wrong_words 'thin-pool.txt stands without an option before it' thin_restore thin-pool.txt
wrong_words '--region takes two numbers, as 5..10, and not 5..4' thin_rmap --region 5..4 thin-pool.img
wrong_words '--region takes two numbers, as 5..10, and not 05..6' thin_rmap --region 05..6 thin-pool.img
wrong_words '--number is a number up to 10000, without zeros before it, and not 0' thin_generate --number 0
wrong_words '--written-since is a number up to 4294967295, without zeros before it, and not 4294967296' \
    era_invalidate --written-since 4294967296 era.img
wrong_words '--metadata-version is 1 or 2, and not 3' cache_restore --metadata-version 3 -i cache.txt -o cache.img
wrong_words '--origin-device DEVICE is wanted' cache_writeback --metadata-device cache.img --fast-device fast.img
# the nearest form of a tool that has more of them
nearest() {
    said=$1
    shift
    try 2 "$@"
    notes_have "$1: the nearest form is: $1 $said"
}
search='--transaction-id N --data-block-size SECTORS --nr-data-blocks BLOCKS'
nearest '[--shared] -i DEVICE -o DEVICE' thin_repair -i lost.img
nearest "[--shared] -i DEVICE -o DEVICE $search" thin_repair -i lost.img -o fresh.img --transaction-id 5 --data-block-size 128
notes_have 'thin_repair: --nr-data-blocks BLOCKS is wanted'
nearest '--dry-run [--shared] -i DEVICE' thin_repair --dry-run -i lost.img -o fresh.img
notes_have "thin_repair: -o doesn't go with the others"
nearest "[--shared] -i DEVICE -o DEVICE --mapping-root N --details-root N $search" \
    thin_repair -i lost.img -o fresh.img --mapping-root 1 --transaction-id 5 --data-block-size 128 --nr-data-blocks 4000
notes_have 'thin_repair: --details-root N is wanted'

# The help has a line for each option of the synopsis
for tool in $tools $sizes; do
    try 0 "$tool" --help
    sed '/^  -/,$d' out | tr -d '[]' | tr -s ' ' '\n' | grep '^-' | sort -u >wanted
    sed -n 's/^  \(-[^ ]*\) .*/\1/p' out | sort -u >got
    comm -23 wanted got >missing
    [ ! -s missing ] || bad "nothing is said of $(cat missing)"
    awk '/^  / && length > 110 { exit 1 }' out || bad 'a line is too long'
done

# Files that are packed, or are XML, in the place of metadata or of a text
for packed in xz gzip; do
    if command -v $packed >/dev/null; then
        $packed -c thin-pool.img >packed.img
        for tool in thin_check thin_dump thin_ls cache_check era_check; do
            try 1 $tool packed.img
            notes_have "$tool: packed.img is compressed by $packed: unpack it first, as with $packed -dk"
        done
        $packed -c thin-pool.txt >packed.txt
        zeros fresh.img 1024
        try 3 thin_restore -i packed.txt -o fresh.img
        notes_have 'pdata_tools: line 1: '
        notes_have "thin_restore: packed.txt is compressed by $packed: unpack it first, as with $packed -dk"
        try 1 thin_repair -i packed.img -o fresh.img
        notes_have "thin_repair: packed.img is compressed by $packed"
    fi
done
awk 'BEGIN { for (i = 0; i < 400; i++) print "<superblock uuid=\"\" time=\"0\">" }' >pool.xml
try 1 thin_check pool.xml
notes 'thin_check: pool.xml is XML, as thin-provisioning-tools have it, and nothing here reads that'

# A program that gives no answer isn't a fault of the metadata

mkdir unanswered
# a command with another program
with_program() {
    sed "s|^program=.*|program=$tmp/unanswered/program|" "$1" >"unanswered/$2"
    chmod +x "unanswered/$2"
}
# the program is missing, is empty, may not be run, is of a system with another C library, ends with a status of no tool, or by a signal
make_program() {
    rm -f unanswered/program
    case $1 in
    missing) ;;
    empty) : >unanswered/program ;;
    closed) echo 'exit 0' >unanswered/program ;;
    library) printf '#!/bin/sh\necho "version GLIBC_2.99 not found" >&2\nexit 1\n' >unanswered/program ;;
    loader) printf '#!/no/such/loader\n' >unanswered/program ;;
    status) printf '#!/bin/sh\n[ $# -gt 0 ] || exec %s\nexit 9\n' "$PROGRAM" >unanswered/program ;;
    KILL | SEGV) printf '#!/bin/sh\n[ $# -gt 0 ] || exec %s\nkill -s %s $$\n' "$PROGRAM" "$1" >unanswered/program ;;
    esac
    case $1 in
    missing | closed) ;;
    *) chmod +x unanswered/program ;;
    esac
}
for kind in missing empty closed library loader status KILL SEGV; do
    make_program $kind
    program=$tmp/unanswered/program
    case $kind in
    missing) said="$program can't be started: it isn't there. Nothing is known of the metadata" ;;
    empty) said="$program can't be started: it is empty. Nothing is known of the metadata" ;;
    closed) said="$program can't be started: there is no permission to run it. Nothing is known of the metadata" ;;
    status) said="$program ended with status 9, which is none of its own, and gave no answer" ;;
    KILL | SEGV) said="$program was ended by the signal $kind, and gave no answer" ;;
    *) said="$program can't be started: it is of another system, with a newer C library, or a limit or the memory is too low. Nothing is known of the metadata" ;;
    esac
    case $kind in
    KILL) wanted_status=137 ;;
    SEGV) wanted_status=139 ;;
    *) wanted_status=8 ;;
    esac
    for tool in thin_check cache_check thin_dump thin_ls thin_repair thin_restore; do
        with_program "$prefix/sbin/$tool" $tool
        case $tool in
        thin_repair) set -- -i leak.img -o fresh.img ;;
        thin_restore) set -- -i thin-pool.txt -o fresh.img ;;
        *) set -- thin-pool.img ;;
        esac
        try $wanted_status "unanswered/$tool" "$@"
        out
        notes_have "$tool: $said"
    done
    for tool in thin_check cache_check thin_repair cache_repair thin_dump; do
        with_program "$lvm/$tool" $tool
        case $tool in
        *_repair) set -- -i leak.img -o fresh.img ;;
        *) set -- thin-pool.img ;;
        esac
        try 1 "unanswered/$tool" "$@"
        notes_have "$tool: $said"
        ! grep -q -e 'has faults' -e 'the superblock of' notes || bad 'a fault of the metadata is told'
    done
done
rm -rf unanswered

# The least number of blocks that fits is what a dry run tells, whatever room there was, and a larger one has room
try 0 thin_repair --dry-run -i leak.img
plain_need=$(awk '$1 == "keeps" { print $5 }' out)
shared_need=$(awk '$1 == "keeps" { print $7 }' out)
for blocks in 1 2 17 $((plain_need - 1)); do
    zeros fresh.img "$blocks"
    for option in --unshared --shared; do
        [ "$option" = --shared ] && need=$shared_need || need=$plain_need
        [ "$blocks" -lt "$need" ] || continue
        try 4 thin_repair $option -i leak.img -o fresh.img
        notes_have "thin_repair: a block has 4 KiB: $need blocks are the least that fits, lvcreate -L $(((need + 255) / 256))M"
    done
done
# by what the program says of a device of many blocks, or of none
for words in '870 512 870' '5 0 6' '16320 1 16320' '16321 1 16322' '32640 16321 32640' '32641 16320 32643'; do
    # shellcheck disable=SC2086 # three numbers
    set -- $words
    # shellcheck disable=SC2016 # the inner shell's
    try 0 sh -c '. "$0/commands/running" && least_room "$1"' "$here" "pdata_tools: no room: need $1, blocks $2"
    [ "$(cat out)" = "$3" ] || bad "$(cat out) and not $3"
done

# Too little memory or stack

# shellcheck disable=SC3045 # a shell without such limits is skipped
if (ulimit -v 1048576 && ulimit -s 1024) 2>/dev/null; then
    # (with less the shell itself may not start, or a tool that it calls)
    seen=''
    for limit in 3000 3200 3400 3600 3800 4000 4200 4400; do
        what="thin_check with $limit KiB of address space"
        tries=$((tries + 1))
        (ulimit -v $limit && exec thin_check thin-pool.img) >out 2>notes
        case $? in
        0) [ "$(cat out)" = clean ] || bad 'status 0, and not clean' ;;
        7)
            seen=yes
            notes_have "thin_check: the address space is limited to $limit KiB (ulimit -v), of which the program takes 1664 for its stack"
            ;;
        2 | 8 | 12[67]) [ ! -s out ] || bad 'a report of a program that did not run' ;;
        *) bad 'another status' ;;
        esac
    done
    [ -n "$seen" ] || bad 'no limit was too low for the stack alone'
    try 139 sh -c 'ulimit -s 1024 && exec thin_check thin-pool.img'
    notes_have 'thin_check: the stack is limited to 1024 KiB, and the program takes 1664 of it when it begins: ulimit -s 8192'
else
    skip 'too little memory, as the shell has no such limit'
fi

# The command pdata_tools names the tools, and is the program else

names_tools=$prefix/sbin/pdata_tools
for word in -h --help; do
    try 0 "$names_tools" $word
    grep -x ' *[a-z]*_[a-z]*' out | tr -d ' ' >kept
    printf '%s\n' "$tools" >wanted
    same kept wanted
    notes
done
try 0 "$names_tools" --version
out "pdata_tools $release"
try 0 "$names_tools" thin_check thin-pool.img
out clean
notes
for words in '' '--help thin_check' '-h -h' 'thin_check --help'; do
    # shellcheck disable=SC2086 # several words
    try 2 "$names_tools" $words
    out
    notes 'pdata_tools: the words spell no request'
done
# shellcheck disable=SC2016 # the inner shell's
for shell in sh bash 'busybox sh'; do
    command -v "${shell%% *}" >/dev/null || continue
    for closed in '<&-' '>&-' '2>&-' '<&- >&- 2>&-'; do
        try 0 sh -c "$shell $names_tools thin_check thin-pool.img $closed"
        try 1 sh -c "$shell $names_tools thin_dump -o dumped.txt damaged.img $closed"
    done
done

# Several regions, each as if it were asked for alone

for region in 100..102 0..3 640..650; do
    thin_rmap --region $region thin-pool.img
done >each.txt
try 0 thin_rmap --region 100..102 --region 0..3 --region=640..650 thin-pool.img
same out each.txt
notes
try 0 thin_rmap --region 100..102 -o regions.txt --region 0..3 thin-pool.img --region 640..650
out
same regions.txt each.txt
try 0 thin_rmap --region 100..101 thin-pool.img
out 'block 100 device 3 virtual 100'
try 1 thin_rmap --region 100..102 --region 0..3 damaged.img
out
notes 'fault meta 183 checksum' 'faults 1'
# (a file stays as it is then)
try 1 thin_rmap --region 100..102 --region 0..3 -o regions.txt damaged.img
same regions.txt each.txt
try 6 thin_rmap --region 100..102 --region 0..3 -o missing/regions.txt thin-pool.img
notes_have 'thin_rmap: the folder missing/ isn'"'t there"
try 2 thin_rmap --region 100..102 --region all thin-pool.img
out
notes_have 'thin_rmap: --region takes two numbers, as 5..10, and not all'
try 2 pdata_tools thin_rmap --region 100..102 --region 0..3 thin-pool.img

# A word of era_dump for what it always does

try 0 era_dump --logical era.img
same out era.txt
notes
try 0 era_dump --logical -o dumped.txt era.img
same dumped.txt era.txt
try 2 thin_dump --logical thin-pool.img
notes_have 'thin_dump: --logical is none of its words'

# The two numbers of a pool's superblock behind a report without faults, as thin-provisioning-tools print them

for words in '' --super-block-only '--until super' '--until whole'; do
    # shellcheck disable=SC2086 # several words
    try 0 thin_check $words thin-pool.img
    out clean TRANSACTION_ID=5 METADATA_FREE_BLOCKS=1000
    notes
done
for words in -q '--super-block-only -q' '--until super -q'; do
    # shellcheck disable=SC2086 # several words
    try 0 thin_check $words thin-pool.img
    out
done
# not of a pool with faults, nor of another kind, nor by the program or for LVM
try 1 thin_check --super-block-only lost.img
out 'fault meta 0 checksum' 'faults 1'
for kind in cache era; do
    try 0 ${kind}_check --super-block-only $kind.img
    out clean
done
try 1 thin_check damaged.img
try 0 pdata_tools thin_check thin-pool.img
out clean
try 0 "$lvm/thin_check" thin-pool.img
out clean
