# shellcheck shell=sh disable=SC2154,SC2034 # lib.sh sets what is used here, and reads what is set
# The command thin_trim: unused data blocks read zeros afterwards and the others what they read; and when nothing is discarded

# A pool of 12 data blocks of 4 KiB, of which two devices use 0, 1, 5 and 9; and its data, with a block behind its end
{
    printf '%s\n' 'thin 1' 'pool 00000000-0000-0000-0000-000000000000 0 0 8 12' 'device 1 3 0 0 0' 'map 0 0 2 0' 'map 7 5 1 0'
    printf '%s\n' 'device 2 2 0 0 0' 'map 0 0 1 0' 'map 1 9 1 0' end
} >trim.txt
zeros meta.img 64
pdata_tools thin_restore -i trim.txt -o meta.img
cp meta.img meta-before.img
for block in 0 1 2 3 4 5 6 7 8 9 10 11 12; do
    fill "\\$(printf '%o' $((160 + block)))" >block
    cat block >>before.img
    case $block in
    0 | 1 | 5 | 9 | 12) ;;
    *) zeros block 1 ;;
    esac
    cat block >>trimmed.img
done
trim() {
    wanted_status=$1
    shift
    try "$wanted_status" thin_trim "$@" --metadata-dev meta.img --data-dev data.img
}
is_untouched() {
    same data.img before.img
    same meta.img meta-before.img
}

# What nothing uses, what would be discarded, and what is
cp before.img data.img
try 0 thin_trim --list meta.img
out 'unused 2 3' 'unused 6 3' 'unused 10 2'
trim 0 --dry-run
out 'discard 2 3' 'discard 6 3' 'discard 10 2' 'discards 8 of 12 data blocks, 32768 bytes'
notes
is_untouched
if command -v fallocate >/dev/null && fallocate -p -o 0 -l 4096 block 2>/dev/null; then
    for words in '' '' --quiet; do
        # shellcheck disable=SC2086 # a word, or none
        trim 0 $words
        if [ -z "$words" ]; then out 'discarded 8 of 12 data blocks, 32768 bytes'; else out; fi
        notes
        same data.img trimmed.img
        same meta.img meta-before.img
    done
    cp before.img data.img
    try 0 thin_trim --data-dev=data.img --metadata-dev=meta.img
    same data.img trimmed.img
    # a pool whose metadata a kernel made, with the flag "needs check" and without it
    dd if=/dev/zero of=large.img bs=65536 seek=4000 count=0 2>/dev/null
    dd if=before.img of=large.img bs=65536 seek=3999 conv=notrunc 2>/dev/null
    try 1 thin_trim --metadata-dev set.img --data-dev large.img
    out
    notes 'thin_trim: set.img has the flag "needs check", which thin_check(8) clears: nothing is discarded'
    try 0 thin_rmap --region 3999..4000 thin-pool.img
    out
    dd if=large.img bs=65536 skip=3999 2>/dev/null | head -c 53248 >kept
    same kept before.img
    try 0 thin_trim --metadata-dev thin-pool.img --data-dev large.img
    [ "$(dd if=large.img bs=65536 skip=3999 2>/dev/null | tr -d '\000' | wc -c)" -eq 0 ] || bad 'an unused block is there'
    rm large.img
else
    skip 'what is discarded of a file, as fallocate or its file system has no holes'
fi

# Nothing is discarded: of metadata with faults, of data that is too short, in one file, and with wrong words
cp before.img data.img
for image in leak short damaged lost; do
    try 1 thin_trim --metadata-dev $image.img --data-dev data.img
    out
    notes_have 'fault '
    notes_have 'faults '
done
dd if=before.img of=data.img bs=4096 count=11 2>/dev/null
cp data.img kept
trim 4
out
notes 'thin_trim: data.img has room for 11 data blocks, and the pool has 12: nothing is discarded'
trim 4 --dry-run
same data.img kept
cp before.img data.img
try 2 thin_trim --metadata-dev meta.img --data-dev meta.img
notes 'thin_trim: meta.img and meta.img are one file: nothing is opened'
wrong_trim() {
    said=$1
    shift
    try 2 thin_trim "$@"
    out
    notes_have "thin_trim: $said"
    notes_have 'usage: thin_trim --list'
}
wrong_trim '--data-dev DEVICE is wanted' --metadata-dev meta.img
wrong_trim '--metadata-dev DEVICE is wanted' --data-dev data.img
wrong_trim '--data-dev comes twice' --metadata-dev meta.img --data-dev data.img --data-dev data.img
wrong_trim '--dry-run comes twice' --dry-run --metadata-dev meta.img --data-dev data.img --dry-run
wrong_trim "--list doesn't go with the others" --list --metadata-dev meta.img --data-dev data.img
wrong_trim '--force is none of its words' --force --metadata-dev meta.img --data-dev data.img
wrong_trim 'the nearest form is: ' --dry-run meta.img
try 2 pdata_tools thin_trim --metadata-dev meta.img --data-dev data.img
try 5 thin_trim --metadata-dev missing.img --data-dev data.img
notes 'pdata_tools: device fault' "thin_trim: missing.img isn't there"
for words in '' --dry-run; do
    # shellcheck disable=SC2086 # a word, or none
    try 5 thin_trim $words --metadata-dev meta.img --data-dev missing.img
    notes "thin_trim: missing.img isn't there"
    # shellcheck disable=SC2086
    try 5 thin_trim $words --metadata-dev meta.img --data-dev full
    notes 'thin_trim: full is a folder'
done
is_untouched

# A trim that fails, and one that is stopped, in the middle: it ends there
mkdir failing temporary
cat >failing/fallocate <<END
#!/bin/sh
[ "\$1" != --help ] || { echo punch-hole; exit 0; }
echo "\$*" >>'$tmp/called'
[ -e '$tmp/second' ] || { : >'$tmp/second'; exit 0; }
[ ! -s '$tmp/number' ] || kill -s TERM "\$(cat '$tmp/number')"
echo 'fallocate: no holes' >&2
exit 1
END
chmod +x failing/fallocate
try 5 env PATH="$tmp/failing:$PATH" "$prefix/sbin/thin_trim" --metadata-dev meta.img --data-dev data.img
out
notes "thin_trim: it ends at data block 6 of data.img, which couldn't be discarded: fallocate: no holes"
printf '%s\n' '-o 8192 -l 12288 -p data.img' '-o 24576 -l 12288 -p data.img' >wanted
same called wanted
rm second
# shellcheck disable=SC2016 # the inner shell's
try 143 env PATH="$tmp/failing:$PATH" TMPDIR=temporary \
    sh -c 'echo $$ >number; exec "$0" --metadata-dev meta.img --data-dev data.img' "$prefix/sbin/thin_trim"
out
notes_have 'thin_trim: stopped: of data.img unused data blocks alone were discarded; run this again for the others'
[ "$(wc -l <called)" -eq 4 ] || bad 'it went on'
[ -z "$(ls temporary)" ] || bad 'a file is left in the temporary folder'
rm number
printf '#!/bin/sh\n' >failing/fallocate
try 5 env PATH="$tmp/failing:$PATH" "$prefix/sbin/thin_trim" --metadata-dev meta.img --data-dev data.img
notes 'thin_trim: there is no fallocate of util-linux'

# A block device that nothing is behind, what the kernel would say of it, and what it is discarded with; and a device in use
if mknod held b 250 250 2>/dev/null && [ -b held ]; then
    sys=$tmp/sys/250:250
    mkdir -p "$sys/holders" "$sys/slaves" looking discarding
    : >mounts
    echo 104 >"$sys/size"
    sed -e "s|/sys/dev/block|$tmp/sys|g" -e "s|/proc/self/mountinfo|$tmp/mounts|" -e 's|^\( *twin=\)/dev/mapper/.*|\1twin.img|' \
        "$prefix/sbin/thin_trim" >looking/thin_trim
    chmod +x looking/thin_trim
    cat >discarding/blkdiscard <<END
#!/bin/sh
echo 'blkdiscard: held contains existing file system (ext4).' >&2
echo "\$*" >>'$tmp/called'
END
    cat >discarding/dmsetup <<END
#!/bin/sh
echo "dmsetup \$1 \$2 \$3" >&2
case \$1 in
table) echo 0 104 linear 254:0 2048 ;;
create) cat >&2 ;;
esac
END
    chmod +x discarding/*
    rm called
    try 0 env PATH="$tmp/discarding:$PATH" looking/thin_trim --metadata-dev meta.img --data-dev held
    out 'discarded 8 of 12 data blocks, 32768 bytes'
    notes
    printf '%s\n' '-o 8192 -l 12288 held' '-o 24576 -l 12288 held' '-o 40960 -l 8192 held' >wanted
    same called wanted
    # what LVM activated read-only is written by way of a device of the same place, here a file, but for a dry run
    mkdir "$sys/dm"
    echo LVM-of-a-pool-tdata >"$sys/dm/uuid"
    echo 1 >"$sys/ro"
    rm called
    try 0 env PATH="$tmp/discarding:$PATH" looking/thin_trim --dry-run --metadata-dev meta.img --data-dev held
    notes
    [ ! -e called ] || bad 'something was discarded'
    cp before.img twin.img
    try 0 env PATH="$tmp/discarding:$PATH" looking/thin_trim --metadata-dev meta.img --data-dev held
    notes_have 'thin_trim: held is read-only, as LVM activates it: it is written by way of twin.img'
    notes_have 'dmsetup remove --retry pdata_tools-'
    same twin.img trimmed.img
    rm -r "$sys/dm" "$sys/ro"
    # a large run goes in pieces
    echo 67108864 >"$sys/size"
    sed -e 's/ 8 12$/ 2097152 32/' trim.txt >large.txt
    zeros large.img 64
    pdata_tools thin_restore -i large.txt -o large.img
    rm -f called
    try 0 env PATH="$tmp/discarding:$PATH" looking/thin_trim --metadata-dev large.img --data-dev held
    tail -n 2 called >kept
    printf '%s\n' '-o 10737418240 -l 17179869184 held' '-o 27917287424 -l 6442450944 held' >wanted
    same kept wanted
    rm called
    # a device that is too short, and one in use
    echo 67108863 >"$sys/size"
    try 4 env PATH="$tmp/discarding:$PATH" looking/thin_trim --metadata-dev large.img --data-dev held
    mkdir -p "$sys/holders/dm-7/dm"
    echo vg-pool-tpool >"$sys/holders/dm-7/dm/name"
    for words in '' --dry-run; do
        for devices in '--metadata-dev large.img --data-dev held' '--metadata-dev held --data-dev data.img'; do
            # shellcheck disable=SC2086 # several words
            try 5 env PATH="$tmp/discarding:$PATH" looking/thin_trim $words $devices
            notes 'thin_trim: held is in use by dm-7 (vg-pool-tpool): nothing is written'
        done
    done
    try 5 looking/thin_trim --list held
    [ ! -e called ] || bad 'something was discarded'
else
    skip 'a block device that is trimmed, as only root makes block devices'
fi
is_untouched
