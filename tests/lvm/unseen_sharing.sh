# shellcheck shell=sh disable=SC2154
# A snapshot was deleted and made again with its id. The superblock and the newest details are damaged, so a search joins the newest
# mappings with the older details, by which a kernel would not see that the volume shares a block with the snapshot. The pool that
# the search makes sees it: a write to the volume leaves the snapshot as it was.
# disks: vda:1G vdb:64M
ask() { L dmsetup message vg-pool 0 "$1"; }
thin() { L dmsetup create "$1" --table "0 262144 thin /dev/mapper/vg-pool $2"; }
# makes the snapshot 2 of the volume 1
snap() {
    L dmsetup suspend volume
    ask 'create_snap 2 1'
    L dmsetup resume volume
}
L pvcreate -ff -y /dev/vda
L vgcreate vg /dev/vda
L lvcreate -y --type thin-pool -L 512M -c 64k --poolmetadatasize 8M -n pool vg
L lvcreate -y -L 8M -n fresh vg
L lvchange -ay -y vg/pool
ask 'create_thin 1'
ask 'create_thin 3'
thin volume 1
thin other 3
wr /dev/mapper/volume 0 20 0
# what the third volume has of the metadata is free later, so that the older details aren't written over
wr /dev/mapper/other 0 60 0
L dmsetup remove --retry other
snap
wr /dev/mapper/volume 0 5 20
ask 'delete 3'
ask 'delete 2'
snap
thin snapshot 2
before=$(sum /dev/mapper/snapshot 0 128)
is 'the snapshot has what was written' same /dev/mapper/snapshot 0 5 20
L dmsetup remove --retry snapshot
L dmsetup remove --retry volume
L vgchange -an vg
harm pool_tmeta
details=$(number_at /dev/mapper/harm 328)
say "block $details is the root of the details"
dd if=/dev/vdc of=/dev/mapper/harm bs=4096 seek="$details" count=1 oflag=direct conv=notrunc 2>/dev/null
dd if=/dev/vdc of=/dev/mapper/harm bs=4096 seek=0 count=1 oflag=direct conv=notrunc 2>/dev/null
L lvchange -ay vg/fresh
L thin_repair --transaction-id 0 --data-block-size 128 --nr-data-blocks 8192 -i /dev/mapper/harm -o /dev/vg/fresh
is 'roots are found' [ "$rc" = 0 ]
L thin_dump /dev/vg/fresh
unharm
L lvchange -an vg/fresh
L lvconvert -y --swapmetadata --poolmetadata fresh vg/pool
L lvchange -ay -y vg/pool
is 'the pool is activated' [ "$rc" = 0 ]
thin volume 1
thin snapshot 2
is 'the volume and the snapshot share what was written' same /dev/mapper/volume 0 5 20
is 'the snapshot reads what it read' [ "$(sum /dev/mapper/snapshot 0 128)" = "$before" ]
wr /dev/mapper/volume 0 5 40
sync
is 'the volume has what is written now' same /dev/mapper/volume 0 5 40
echo 3 >/proc/sys/vm/drop_caches
is 'the snapshot is as before' [ "$(sum /dev/mapper/snapshot 0 128)" = "$before" ]
L dmsetup remove --retry snapshot
L dmsetup remove --retry volume
L vgchange -an vg
