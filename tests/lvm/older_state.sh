# shellcheck shell=sh disable=SC2154
# The root of a pool's mapping tree is damaged, so no volume is left of the latest state. `lvconvert --repair` takes an older state
# and says so. Where no tree is left at all, the repair fails, and the pool isn't touched.
# disks: vda:1G vdb:64M
L pvcreate -ff -y /dev/vda
L vgcreate vg /dev/vda
L lvcreate -y --type thin-pool -L 512M --poolmetadatasize 8M -n pool vg
L lvcreate -y -V 128M -T vg/pool -n first
wr /dev/vg/first 0 20 0
L vgchange -an vg
L vgchange -ay vg
L lvcreate -y -V 128M -T vg/pool -n second
wr /dev/vg/second 0 10 20
L vgchange -an vg
harm pool_tmeta
root=$(number_at /dev/mapper/harm 320)
say "block $root is the root of the mapping tree"
dd if=/dev/vdc of=/dev/mapper/harm bs=4096 seek="$root" count=1 oflag=direct conv=notrunc 2>/dev/null
thin_repair --dry-run -i /dev/mapper/harm >/tmp/said
is 'both volumes are lost' [ "$(grep -c '^device [12] lost ' /tmp/said)" = 2 ]
unharm
L vgchange -ay vg
isnt 'the damaged pool is refused' [ "$rc" = 0 ]
L lvconvert -y --repair vg/pool
is 'it is repaired' [ "$rc" = 0 ]
is 'an older state is taken' said 'and [0-9]* in an older state, which is taken'
L lvchange -ay vg/first
is 'the first volume is activated' [ "$rc" = 0 ]
is 'it reads what it read' same /dev/vg/first 0 20 0
L vgchange -an vg
harm pool_tmeta
dd if=/dev/zero of=/dev/mapper/harm bs=4096 seek=1 count=2047 oflag=direct conv=notrunc 2>/dev/null
before=$(sum /dev/mapper/harm 0 8)
unharm
L lvconvert -y --repair vg/pool
isnt 'where no tree is left, it is not repaired' [ "$rc" = 0 ]
is 'it says why' said 'no older state was found'
harm pool_tmeta
is 'the metadata is as before' [ "$(sum /dev/mapper/harm 0 8)" = "$before" ]
unharm
