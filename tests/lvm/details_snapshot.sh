# shellcheck shell=sh disable=SC2154
# A pool with a volume and its snapshot, whose details are lost. After `lvconvert --repair` the kernel copies a shared block
# before it writes to it: the snapshot stays as it was.
# disks: vda:1G vdb:64M
L pvcreate -ff -y /dev/vda
L vgcreate vg /dev/vda
L lvcreate -y --type thin-pool -L 512M --poolmetadatasize 8M -n pool vg
L lvcreate -y -V 128M -T vg/pool -n volume
wr /dev/vg/volume 0 20 0
L lvcreate -y -s vg/volume -n copy -kn
is 'the snapshot is made' [ "$rc" = 0 ]
before=$(sum /dev/vg/copy 0 128)
is 'it has what was written' same /dev/vg/copy 0 20 0
L vgchange -an vg
harm pool_tmeta
details=$(number_at /dev/mapper/harm 328)
say "block $details is the root of the details"
dd if=/dev/vdc of=/dev/mapper/harm bs=4096 seek="$details" count=1 oflag=direct conv=notrunc 2>/dev/null
unharm
L vgchange -ay vg
isnt 'the damaged pool is refused' [ "$rc" = 0 ]
L lvconvert -y --repair vg/pool
is 'it is repaired' [ "$rc" = 0 ]
L vgchange -ay vg
is 'it is activated' [ "$rc" = 0 ]
is 'the volume reads what it read' same /dev/vg/volume 0 20 0
wr /dev/vg/volume 0 5 40
L vgchange -an vg
L vgchange -ay vg
is 'the volume has what was written' same /dev/vg/volume 0 5 40
is 'the rest of it is as before' same /dev/vg/volume 5 15 5
is 'the snapshot is as before' [ "$(sum /dev/vg/copy 0 128)" = "$before" ]
L vgchange -an vg
