# shellcheck shell=sh disable=SC2154
# Unused data blocks are given back by thin_trim: of a pool of dmsetup's over a thin volume, and of a pool of LVM's. All that the volumes
# hold stays, the unused blocks of the first pool read zeros, and the pool below it gets its room back. Nothing is discarded by a dry run,
# of a pool in use, by metadata that isn't sound, or of a data device that is too short. A stop in the middle leaves the rest unused.
# disks: vda:1G vdb:512M
# What stands in the unused blocks of 64 KiB of a data device, and in the used ones: METADATA DATA, and how many blocks there are
unused_runs() { thin_trim --list "$1" | cut -d ' ' -f 2-; }
used_runs() {
    unused_runs "$1" | awk -v blocks="$2" '
        $1 > end { print end + 0, $1 - end }
        { end = $1 + $2 }
        END { if (end < blocks) print end + 0, blocks - end }'
}
read_runs() {
    while read -r first length; do
        dd if="$1" bs=64k skip="$first" count="$length" 2>/dev/null
    done
}
# How many bytes of the unused ones aren't zero, and a checksum of the used ones
unused_bytes() { unused_runs "$1" | read_runs "$2" | tr -d '\000' | wc -c; }
used_sum() { used_runs "$1" "$3" | read_runs "$2" | sha256sum; }
# Files on a volume, with their checksums in a file: DEVICE PART. They are of the parts of /dev/vdc, of a MiB each
fill_volume() {
    L mke2fs -F "$1"
    L mount -t ext4 "$1" /mnt
    for file in 0 1 2 3 4 5 6 7; do
        dd if=/dev/vdc of="/mnt/$file" bs=1M skip=$((8 * $2 + file)) count=1 2>/dev/null
    done
    (cd /mnt && sha256sum ./[0-7]) >"/tmp/files$2"
    L umount /mnt
}
# Whether the files are as they were: DEVICE PART
has_files() {
    mount -t ext4 -o ro "$1" /mnt || return 1
    (cd /mnt && sha256sum -c "/tmp/files$2" >/dev/null 2>&1)
    answer=$?
    umount /mnt
    return $answer
}
mkdir -p /mnt
L pvcreate -ff -y /dev/vda /dev/vdb
L vgcreate vg /dev/vda
L vgcreate vg2 /dev/vdb

say 'a pool of dmsetup over a thin volume'
L lvcreate -y --type thin-pool -L 512M --poolmetadatasize 4M --discards passdown -n below vg
L lvcreate -y -V 128M -T vg/below -n data
L lvcreate -y -L 4M -n meta vg
dd if=/dev/zero of=/dev/vg/meta bs=4096 count=1 oflag=direct conv=notrunc 2>/dev/null
# the pool ignores discards, so what a volume doesn't need any more stays in its data
table='0 262144 thin-pool /dev/vg/meta /dev/vg/data 128 0 2 skip_block_zeroing ignore_discard'
L dmsetup create above --table "$table"
for number in 0 1 2 4 5; do
    L dmsetup message above 0 "create_thin $number"
    L dmsetup create "volume$number" --table "0 131072 thin /dev/mapper/above $number"
    [ $number -gt 2 ] || fill_volume "/dev/mapper/volume$number" "$number"
done
L dmsetup suspend volume0
L dmsetup message above 0 'create_snap 3 0'
L dmsetup resume volume0
wr /dev/mapper/volume0 40 8 32
kept=$(sum /dev/mapper/volume0 0 64)
# two volumes in turn, of which one goes, so that there are many runs
for part in 0 1 2 3 4 5 6 7; do
    wr /dev/mapper/volume4 $part 1 $part
    wr /dev/mapper/volume5 $part 1 $part
done
for number in 1 5; do
    L dmsetup remove --retry "volume$number"
    L dmsetup message above 0 "delete $number"
done
trim() { L thin_trim "$@" --metadata-dev /dev/vg/meta --data-dev /dev/vg/data; }
trim
is 'the pool in use is refused' [ "$rc" = 5 ]
is 'it says by what it is in use' said 'is in use by .*above'
for number in 0 2 4; do
    L dmsetup remove --retry "volume$number"
done
L dmsetup remove --retry above
L thin_check /dev/vg/meta
is 'the metadata is clean' [ "$rc" = 0 ]
is 'what the deleted volumes held is still there' [ "$(unused_bytes /dev/vg/meta /dev/vg/data)" -gt 12582912 ]

say 'where nothing is discarded'
before=$(sum /dev/vg/meta 0 4)
data=$(sum /dev/vg/data 0 128)
is_untouched() { [ "$(sum /dev/vg/data 0 128)" = "$data" ] && [ "$(sum /dev/vg/meta 0 4)" = "$before" ]; }
trim --dry-run
is 'the dry run ends with 0' [ "$rc" = 0 ]
is 'it prints what is unused' [ "$(sed -n 's/^discard /unused /p' /tmp/said)" = "$(thin_trim --list /dev/vg/meta)" ]
is 'it says how much that is' said '^discards [0-9]* of 2048 data blocks, [0-9]* bytes$'
is 'it discards nothing' is_untouched
L dmsetup create short --table "0 $((2047 * 128)) linear /dev/vg/data 0"
L thin_trim --metadata-dev /dev/vg/meta --data-dev /dev/mapper/short
is 'a data device that is too short is refused' [ "$rc" = 4 ]
is 'it says how short it is' said 'has room for 2047 data blocks, and the pool has 2048'
trim
is 'a data device in use is refused' [ "$rc" = 5 ]
L dmsetup remove --retry short
dd if=/dev/vg/meta of=/tmp/flagged.img bs=1M count=4 2>/dev/null
cp /tmp/flagged.img /tmp/damaged.img
flag_pool /tmp/flagged.img
L thin_trim --metadata-dev /tmp/flagged.img --data-dev /dev/vg/data
is 'the flag is refused' [ "$rc" = 1 ]
is 'it names the flag' said 'has the flag "needs check"'
dd if=/dev/vdc of=/tmp/damaged.img bs=4096 seek="$(number_at /tmp/damaged.img 320)" count=1 conv=notrunc 2>/dev/null
L thin_trim --metadata-dev /tmp/damaged.img --data-dev /dev/vg/data
is 'damaged metadata is refused' [ "$rc" = 1 ]
is 'nothing is discarded' is_untouched

say 'a stop in the middle'
mapped() { dmsetup status vg-data | cut -d ' ' -f 4; }
all=$(mapped)
used=$(used_sum /dev/vg/meta /dev/vg/data 2048)
# each run takes four seconds
L dmsetup create slow --table '0 262144 delay /dev/vg/data 0 0 /dev/vg/data 0 4000'
thin_trim --metadata-dev /dev/vg/meta --data-dev /dev/mapper/slow >/tmp/said 2>&1 </dev/null &
running=$!
while [ "$(mapped)" = "$all" ] && kill -0 $running 2>/dev/null; do
    sleep 1
done
kill $running
wait $running
rc=$?
cat /tmp/said
is 'it is stopped' [ "$rc" = 143 ]
is 'it says so' said 'stopped: of /dev/mapper/slow unused data blocks alone were discarded'
L dmsetup remove --retry slow
is 'something was discarded' [ "$(mapped)" -lt "$all" ]
is 'something is left' [ "$(unused_bytes /dev/vg/meta /dev/vg/data)" -gt 1048576 ]
is 'each used block is as before' [ "$(used_sum /dev/vg/meta /dev/vg/data 2048)" = "$used" ]

say 'all that is unused'
trim
is 'it is trimmed' [ "$rc" = 0 ]
is 'it says how much' said '^discarded [0-9]* of 2048 data blocks, [0-9]* bytes$'
is 'the unused blocks read zeros' [ "$(unused_bytes /dev/vg/meta /dev/vg/data)" = 0 ]
is 'each used block is as before' [ "$(used_sum /dev/vg/meta /dev/vg/data 2048)" = "$used" ]
is 'the pool below has room again' [ "$(mapped)" -le $((all - 32768)) ]
is 'the metadata is as before' [ "$(sum /dev/vg/meta 0 4)" = "$before" ]
L dmsetup create above --table "$table"
for number in 0 2 3 4; do
    L dmsetup create "volume$number" --table "0 131072 thin /dev/mapper/above $number"
done
is 'the first volume reads what it read' [ "$(sum /dev/mapper/volume0 0 64)" = "$kept" ]
is 'it has its files' has_files /dev/mapper/volume0 0
is 'the third one has its files' has_files /dev/mapper/volume2 2
is 'the snapshot has its files' has_files /dev/mapper/volume3 0
is 'the one that was written in turn reads what it read' same /dev/mapper/volume4 0 8 0
for number in 0 2 3 4; do
    L dmsetup remove --retry "volume$number"
done
L dmsetup remove --retry above

say 'a pool of LVM'
L lvcreate -y --type thin-pool -L 256M --poolmetadatasize 4M --discards ignore -n pool vg2
for number in 0 1 2; do
    L lvcreate -y -V 64M -T vg2/pool -n "volume$number"
    fill_volume "/dev/vg2/volume$number" "$number"
done
L lvcreate -y -s vg2/volume2 -n copy -kn
L lvremove -y vg2/volume1
L thin_trim --metadata-dev /dev/mapper/vg2-pool_tmeta --data-dev /dev/mapper/vg2-pool_tdata
is 'the active pool is refused' [ "$rc" = 5 ]
is 'it says by what it is in use' said 'is in use by .*vg2-pool-tpool'
L vgchange -an vg2
L lvchange -ay -y vg2/pool_tmeta
L lvchange -ay -y vg2/pool_tdata
used=$(used_sum /dev/vg2/pool_tmeta /dev/vg2/pool_tdata 4096)
L thin_trim --dry-run --metadata-dev /dev/vg2/pool_tmeta --data-dev /dev/vg2/pool_tdata
is 'the dry run ends with 0' [ "$rc" = 0 ]
isnt 'it makes no other device' said 'is read-only, as LVM activates it'
L thin_trim --metadata-dev /dev/vg2/pool_tmeta --data-dev /dev/vg2/pool_tdata
is 'it is trimmed' [ "$rc" = 0 ]
is 'it is written by way of another device' said 'is read-only, as LVM activates it: it is written by way of /dev/mapper/pdata_tools-'
isnt 'that one is left' [ -n "$(dmsetup ls | grep pdata_tools)" ]
is 'each used block is as before' [ "$(used_sum /dev/vg2/pool_tmeta /dev/vg2/pool_tdata 4096)" = "$used" ]
say "bytes of the unused blocks that aren't zero: $(unused_bytes /dev/vg2/pool_tmeta /dev/vg2/pool_tdata)"
L lvchange -an vg2/pool_tmeta
L lvchange -an vg2/pool_tdata
L vgchange -ay vg2
is 'it is activated' [ "$rc" = 0 ]
is 'the first volume has its files' has_files /dev/vg2/volume0 0
is 'the third one has its files' has_files /dev/vg2/volume2 2
is 'the snapshot has its files' has_files /dev/vg2/copy 2
L vgchange -an vg2
L vgchange -an vg
