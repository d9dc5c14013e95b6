# shellcheck shell=sh disable=SC2154,SC2034 # lib.sh sets what is used here, and reads what is set
# What a name is of: one file twice, a text, less than all of it, a disk that is full, a device in use

# Two names of one file

ln thin-pool.img hard.img
ln -s thin-pool.img soft.img
cp thin-pool.img before.img
zeros fresh.img 1024
for name in thin-pool.img ./thin-pool.img hard.img soft.img "$tmp/soft.img"; do
    try 2 thin_repair -i thin-pool.img -o "$name"
    out
    notes "thin_repair: thin-pool.img and $name are one file: nothing is opened"
    try 2 thin_repair --input=thin-pool.img --output "$name"
    try 2 thin_dump -o "$name" thin-pool.img
    notes "thin_dump: thin-pool.img and $name are one file: nothing is opened"
    try 2 thin_restore -i "$name" -o thin-pool.img
    try 2 thin_shrink -i thin-pool.img -o fresh.img --data "$name" --nr-blocks 2
    try 2 thin_shrink -i fresh.img -o thin-pool.img --data "$name" --nr-blocks 2
    try 2 cache_writeback --metadata-device thin-pool.img --fast-device "$name" --origin-device fresh.img
    try 2 cache_writeback --metadata-device fresh.img --fast-device thin-pool.img --origin-device "$name"
    try 1 "$lvm/thin_repair" -i thin-pool.img -o "$name"
    notes "thin_repair: thin-pool.img and $name are one file: nothing is opened" \
        'thin_repair: nothing is repaired; see pdata_tools-lvm(8)'
    # and so does the program
    try 5 pdata_tools thin_repair -i thin-pool.img -o "$name"
    notes 'pdata_tools: device fault'
    try 6 pdata_tools thin_dump -o "$name" thin-pool.img
    out
    notes 'pdata_tools: source or sink fault'
    try 5 pdata_tools thin_restore -i "$name" -o thin-pool.img
    try 5 pdata_tools thin_shrink -i thin-pool.img -o "$name" --data fresh.img --nr-blocks 2
    try 5 pdata_tools thin_shrink -i thin-pool.img -o fresh.img --data "$name" --nr-blocks 2
    try 5 pdata_tools thin_shrink -i fresh.img -o thin-pool.img --data "$name" --nr-blocks 2
    try 5 pdata_tools cache_writeback --metadata-device thin-pool.img --fast-device "$name" --origin-device fresh.img
    try 5 pdata_tools cache_writeback --metadata-device thin-pool.img --fast-device fresh.img --origin-device "$name"
    try 5 pdata_tools cache_writeback --metadata-device fresh.img --fast-device thin-pool.img --origin-device "$name"
    same thin-pool.img before.img
done
# by the number of an open file, which is the image's own where it was free
try 2 sh -c 'thin_dump -o /dev/fd/7 thin-pool.img 7<thin-pool.img'
for number in 3 4 5 7; do
    try 6 sh -c "pdata_tools thin_dump -o /dev/fd/$number thin-pool.img $number<thin-pool.img"
    try 6 sh -c "pdata_tools thin_dump -o /dev/fd/$number thin-pool.img $number<&-"
    try 6 thin_dump -o /dev/fd/$number thin-pool.img
    same thin-pool.img before.img
done
# what is printed goes to the device: then it isn't opened, and nothing is said on it
for stream in '>>' '2>>'; do
    case $stream in
    '>>') wanted=5 ;;
    *) wanted=6 ;;
    esac
    try $wanted sh -c "pdata_tools thin_check --clear-needs-check-flag thin-pool.img ${stream}thin-pool.img"
    out
    same thin-pool.img before.img
    try 5 sh -c "thin_check --clear-needs-check-flag thin-pool.img ${stream}thin-pool.img"
    out
    case $stream in
    '>>') notes 'thin_check: what is printed goes to thin-pool.img: nothing is opened' ;;
    *) notes ;;
    esac
    try 1 sh -c "'$lvm/thin_check' --clear-needs-check-flag thin-pool.img ${stream}thin-pool.img"
    same thin-pool.img before.img
done
rm hard.img soft.img
if mknod one b 250 250 2>/dev/null && mknod other b 250 250 && mknod third b 250 251; then
    try 2 thin_repair -i one -o other
    notes 'thin_repair: one and other are one file: nothing is opened'
    try 5 thin_repair -i one -o third
else
    skip 'two names of one device, as only root makes block devices'
fi

# What a name holds that isn't metadata, or not all of it

try 1 thin_check thin-pool.txt
notes 'thin_check: thin-pool.txt is a text, as thin_dump prints it and thin_restore reads it'
try 1 cache_dump cache.txt
notes_have 'cache_dump: cache.txt is a text, as cache_dump prints it and cache_restore reads it'
echo '<superblock uuid="" time="0">' >pool.xml
zeros new.img 1024
try 3 thin_restore -i pool.xml -o new.img
notes 'pdata_tools: line 1: header' 'thin_restore: pool.xml is XML, as thin-provisioning-tools have it, and nothing here reads that'
try 3 thin_restore -i cache.txt -o new.img
notes 'pdata_tools: line 1: header' 'thin_restore: cache.txt is a text, as cache_dump prints it and cache_restore reads it'
for kind in thin-pool cache era; do
    dd if=$kind.img of=cut.img bs=4096 count=200 2>/dev/null
    blocks=$(($(wc -c <$kind.img) / 4096))
    try 1 ${kind%-pool}_check cut.img
    out 'fault meta 0 size' 'faults 1'
    notes "${kind%-pool}_check: cut.img has 200 blocks of 4 KiB, and its superblock says $blocks: $((blocks - 200)) are missing"
done
name=$(printf 'name\377.img')
cp thin-pool.img "$name"
try 2 thin_check "$name"
sed 1q notes >kept && mv kept notes
notes "thin_check: a word isn't UTF-8, and the program takes no such name: $name"
rm "$name"
# a full disk, and a pipe that nobody reads on
if [ -c /dev/full ]; then
    try 6 env PATH="$tmp/full:$PATH" "$prefix/sbin/thin_dump" -o /dev/full thin-pool.img
    notes 'pdata_tools: source or sink fault' 'thin_dump: there is no room in /dev/'
fi
try 0 sh -c '{ thin_generate --number 100; echo "$?" >code; } | sed 1q'
out 'thin 1'
notes
[ "$(cat code)" = 141 ] || bad "status $(cat code) and not 141"
try 0 sh -c '{ thin_dump damaged.img; echo "$?" >code; } | cat'
out
notes 'fault meta 183 checksum' 'faults 1'
[ "$(cat code)" = 1 ] || bad "status $(cat code) and not 1"

# A device in use: a block device that nothing is behind, and what the kernel would say of it

small_cache
small_pool
cp whole.img data.img
zeros smaller.img 16
if mknod held b 250 250 2>/dev/null && [ -b held ]; then
    sys=$tmp/sys/250:250
    mkdir -p "$sys/holders" "$sys/slaves"
    : >mounts
    looking() {
        sed -e "s|/sys/dev/block|$tmp/sys|g" -e "s|/proc/self/mountinfo|$tmp/mounts|" "$1" >"looking/${1##*/}"
        chmod +x "looking/${1##*/}"
    }
    mkdir looking sbin-looking
    for tool in $tools; do
        looking "$prefix/sbin/$tool"
    done
    mv looking/* sbin-looking
    for tool in thin_check cache_check thin_repair cache_repair thin_dump; do
        looking "$lvm/$tool"
    done
    # it isn't in use: the program can't open it
    try 5 sbin-looking/thin_restore -i thin-pool.txt -o held
    notes 'pdata_tools: device fault'
    try 6 sbin-looking/thin_dump -o held thin-pool.img
    out
    notes 'thin_dump: held is a block device: a text is put into a file'
    # a loop device, and the file that it is made over
    mkdir "$sys/loop"
    echo "$tmp/fresh.img" >"$sys/loop/backing_file"
    try 2 sbin-looking/thin_repair -i fresh.img -o held
    notes 'thin_repair: fresh.img and held are one file: nothing is opened'
    try 1 looking/thin_repair -i held -o fresh.img
    rm -r "$sys/loop"
    in_use='in use by dm-7 (vg-pool-tpool)'
    for way in holder mount; do
        if [ $way = holder ]; then
            mkdir -p "$sys/holders/dm-7/dm"
            echo vg-pool-tpool >"$sys/holders/dm-7/dm/name"
        else
            rm -r "$sys/holders/dm-7"
            echo '35 1 250:250 / /mnt/there rw - ext4 /dev/held rw' >mounts
            in_use='in use by the mount at /mnt/there'
        fi
        for tool in thin_restore cache_restore era_restore; do
            try 5 sbin-looking/$tool -i thin-pool.txt -o held
            notes "$tool: held is $in_use: nothing is written"
        done
        try 5 sbin-looking/thin_repair -i leak.img -o held
        notes "thin_repair: held is $in_use: nothing is written"
        try 5 sbin-looking/thin_rehearse --number 1 -o held
        notes "thin_rehearse: held is $in_use: nothing is written"
        try 5 sbin-looking/thin_check --clear-needs-check-flag held
        notes "thin_check: held is $in_use: nothing is written"
        for missing in metadata fast origin; do
            metadata=dirty.img fast=fast.img origin=origin.img
            eval "$missing=held"
            try 5 sbin-looking/cache_writeback --metadata-device $metadata --fast-device $fast --origin-device $origin
            notes "cache_writeback: held is $in_use: nothing is written"
        done
        for missing in input output third; do
            input=thin-pool.img output=fresh.img third=data.img
            eval "$missing=held"
            try 5 sbin-looking/thin_shrink -i $input -o $output --data $third --nr-blocks 2
            notes "thin_shrink: held is $in_use: nothing is written"
        done
        try 5 sbin-looking/thin_dump -o held thin-pool.img
        notes "thin_dump: held is $in_use: nothing is written"
        try 5 sbin-looking/thin_check --force held
        notes "thin_check: held is $in_use: it changes while it is read" 'pdata_tools: device fault'
        try 5 sbin-looking/thin_repair --force -i held -o fresh.img
        notes "thin_repair: held is $in_use: it changes while it is read" 'pdata_tools: device fault'
        try 1 looking/thin_check -q --clear-needs-check-flag held
        notes "thin_check: held is $in_use: nothing is written"
        try 1 looking/thin_check -q held
        notes_have "thin_check: held is $in_use: it changes while it is read"
        try 1 looking/thin_repair -i leak.img -o held
        notes "thin_repair: held is $in_use: nothing is written" "thin_repair: nothing is repaired; $page"
        try 1 looking/thin_dump held
        notes_have "thin_dump: held is $in_use: it changes while it is read"
    done
    # a partition of it that is in use
    : >mounts
    mkdir -p "$sys/held1/holders/dm-8"
    echo 1 >"$sys/held1/partition"
    echo 250:251 >"$sys/held1/dev"
    try 5 sbin-looking/thin_restore -i thin-pool.txt -o held
    notes 'thin_restore: held is in use by dm-8: nothing is written'
    rm -r "$sys/held1/holders/dm-8"
    echo '35 1 250:251 / /mnt/there rw - ext4 /dev/held1 rw' >mounts
    try 5 sbin-looking/thin_restore -i thin-pool.txt -o held
    notes 'thin_restore: held is in use by the mount at /mnt/there: nothing is written'
    : >mounts
    echo 1 >"$sys/ro"
    try 5 sbin-looking/thin_restore -i thin-pool.txt -o held
    notes 'pdata_tools: device fault' 'thin_restore: held is a read-only device'
    try 5 sbin-looking/thin_check --clear-needs-check-flag held
    notes 'pdata_tools: device fault' 'thin_check: held is a read-only device'
    # metadata that LVM activated alone is written by way of a device of the same place, here a file
    mkdir "$sys/dm" dmsetup
    echo LVM-of-a-pool-tmeta >"$sys/dm/uuid"
    cat >dmsetup/dmsetup <<END
#!/bin/sh
echo "dmsetup \$1 \$2 \$3" >&2
case \$1 in
table) echo 0 8192 linear 254:0 2048 ;;
create) cat >&2 ;;
esac
END
    chmod +x dmsetup/dmsetup
    sed -i 's|^\( *twin=\)/dev/mapper/.*|\1twin.img|' sbin-looking/thin_check
    cp set.img twin.img
    try 0 env PATH="$tmp/dmsetup:$PATH" sbin-looking/thin_check --clear-needs-check-flag held
    out clean
    sed 's/pdata_tools-[0-9]*/pdata_tools-N/' notes >kept && mv kept notes
    notes 'dmsetup table -j 250' 'dmsetup create pdata_tools-N-tmeta ' '0 8192 linear 254:0 2048' \
        'thin_check: held is read-only, as LVM activates it: it is written by way of twin.img' \
        'dmsetup remove --retry pdata_tools-N-tmeta'
    same twin.img thin-pool.img
    # and so is the data of a pool, and the metadata and the origin of a cache
    for part in tdata cmeta real; do
        echo LVM-of-a-pool-$part >"$sys/dm/uuid"
        case $part in
        tdata)
            set -- thin_shrink -i meta.img -o smaller.img --data held --nr-blocks 2
            zeros meta.img 16
            thin_restore -i pool.txt -o meta.img
            cp whole.img twin.img
            ;;
        cmeta)
            set -- cache_writeback --metadata-device held --fast-device fast.img --origin-device origin.img
            cp dirty.img twin.img
            ;;
        real)
            set -- cache_writeback --metadata-device meta.img --fast-device fast.img --origin-device held
            cp dirty.img meta.img
            zeros twin.img 4
            ;;
        esac
        sed -i 's|^\( *twin=\)/dev/mapper/.*|\1twin.img|' "sbin-looking/$1"
        tool=$1
        shift
        try 0 env PATH="$tmp/dmsetup:$PATH" "sbin-looking/$tool" "$@"
        notes_have "dmsetup remove --retry pdata_tools-"
        notes_have "$tool: held is read-only, as LVM activates it: it is written by way of twin.img"
    done
    # what a restore or a repair would write is left as it is
    try 5 env PATH="$tmp/dmsetup:$PATH" sbin-looking/thin_repair -i thin-pool.img -o held
    notes 'pdata_tools: device fault' 'thin_repair: held is a read-only device'
else
    skip 'a device in use, as only root makes block devices'
fi
