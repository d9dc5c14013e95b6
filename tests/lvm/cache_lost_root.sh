# shellcheck shell=sh disable=SC2154
# A cache with files that it alone has, of which one block of the metadata is damaged: the root of its mapping array. LVM doesn't
# activate it, and `lvconvert --repair` refuses it, so no file has older data without a word. By the commands of pdata_tools-lvm(8)
# an older root is taken. It brings back what it has, which is all files, and not what was written after it behind the file system.
# disks: vda:1G vdb:512M
L pvcreate -ff -y /dev/vda
L pvcreate -ff -y /dev/vdb
L vgcreate vg /dev/vda /dev/vdb
L lvcreate -y -L 300M -n main vg /dev/vda
L lvcreate -y --type cache-pool -L 100M --poolmetadatasize 8M -n fast vg /dev/vdb
L lvconvert -y --type cache --cachepool vg/fast --cachemode writeback vg/main
is 'the cache is made' [ "$rc" = 0 ]
make_dirty
L mkfs.ext4 -q -F /dev/vg/main 200M
mkdir -p /tmp/files
L mount /dev/vg/main /tmp/files
for i in 1 2 3 4 5 6 7 8 9 10 11 12 13 14 15 16; do
    dd if=/dev/vdc of=/tmp/files/$i bs=1M skip=$i count=1 2>/dev/null
done
(cd /tmp/files && sha256sum 1 2 3 4 5 6 7 8 9 10 11 12 13 14 15 16) >/tmp/sums
L umount /tmp/files
dmsetup status vg-main
is 'files are dirty in the cache' [ "$(dirty)" -gt 0 ]
wr /dev/vg/main 250 4 40
is 'more is written behind them' same /dev/vg/main 250 4 40
L vgchange -an vg
L lvchange -ay -y vg/main_corig
L e2fsck -fn /dev/vg/main_corig
isnt 'the origin alone has the files' [ "$rc" = 0 ]
origin=$(sum /dev/vg/main_corig 0 300)
L lvchange -an vg/main_corig
harm fast_cpool_cmeta
root=$(number_at /dev/mapper/harm 192)
say "block $root is the root of the mapping array"
L cache_repair --dry-run -i /dev/mapper/harm
is 'nothing is unknown before' said '^keeps [0-9]+ of [0-9]+ blocks, [1-9][0-9]* dirty, 0 unknown$'
dd if=/dev/vdc of=/dev/mapper/harm bs=4096 seek="$root" count=1 oflag=direct conv=notrunc 2>/dev/null
L cache_repair --dry-run -i /dev/mapper/harm
is 'all is unknown' said '^keeps 0 of [0-9]+ blocks, 0 dirty, [1-9][0-9]* unknown$'
is 'older roots are listed' said '^root [0-9]+ words [0-9]+ entries [1-9][0-9]*$'
# the one that has most entries
older=$(awk '$1 == "root" && $6 > most { most = $6; root = $2 } END { print root }' /tmp/said)
say "block $older is taken"
before=$(sum /dev/mapper/harm 0 8)
unharm
L lvchange -ay vg/main
isnt 'the damaged cache is refused' [ "$rc" = 0 ]
L vgchange -an vg
L lvconvert -y --repair vg/fast_cpool
isnt 'it is not repaired' [ "$rc" = 0 ]
is 'it says what is unknown' said 'cache blocks of .* is lost, and with it whether they are dirty'
is 'it says how to go on' said 'cache_repair --dry-run lists them'
harm fast_cpool_cmeta
is 'the metadata is as before' [ "$(sum /dev/mapper/harm 0 8)" = "$before" ]
unharm
L lvchange -ay -y vg/main_corig
is 'nothing was written back' [ "$(sum /dev/vg/main_corig 0 300)" = "$origin" ]
L lvchange -an vg/main_corig
page pdata_tools-lvm 'cache_repair --dry-run'
is 'the roots are listed by hand' said "^root $older "
page pdata_tools-lvm 'cache_repair --mapping-root' "s/--mapping-root 37/--mapping-root $older/"
is 'the older root is taken' [ "$rc" = 0 ]
is 'nothing is unknown then' said 'dirty, 0 unknown$'
is 'the metadata is clean' said '^clean$'
L e2fsck -fn /dev/vg/main
is 'the file system is sound' [ "$rc" = 0 ]
L mount -o ro /dev/vg/main /tmp/files
L sh -c 'cd /tmp/files && sha256sum -c /tmp/sums'
is 'all files are as they were' [ "$rc" = 0 ]
isnt 'what was written after them is there' same /dev/vg/main 250 4 40
L umount /tmp/files
L vgchange -an vg
