# shellcheck shell=sh disable=SC2154
# A pool whose metadata runs full: the kernel stops writing to it. The check passes and says how full it is, and so does the
# repair, which doesn't help. After `lvextend --poolmetadatasize` the pool is written again.
# disks: vda:1G vdb:64M
L pvcreate -ff -y /dev/vda
L vgcreate vg /dev/vda
L lvcreate -y --type thin-pool -L 512M --poolmetadatasize 4M -n pool vg
L lvcreate -y -V 16G -T vg/pool -n volume
wr /dev/vg/volume 0 2 0
L lvcreate -y -s vg/volume -n copy -kn
is 'the snapshot is made' [ "$rc" = 0 ]
L vgchange -an vg
harm pool_tmeta
# both have 818 leaves of mappings, which they share; data blocks 0 to 31 are those that were written
thin_dump -o /tmp/plain.txt /dev/mapper/harm
awk '
    NR == 1 { print "thin 2"; next }
    NR == 2 {
        print
        for (leaf = 0; leaf < 818; leaf++) {
            print "leaf", leaf, 252
            print "map", 252 * leaf, (leaf ? 32 + 252 * leaf % 4000 : 0), 252, 0
        }
        next
    }
    $1 == "device" {
        print $1, $2, 818 * 252, $4, $5, $6
        for (leaf = 0; leaf < 818; leaf++) print "use", leaf
    }
    END { print "end" }' /tmp/plain.txt >/tmp/nearly.txt
thin_restore -i /tmp/nearly.txt -o /dev/mapper/harm
L thin_check /dev/mapper/harm
is 'the check is clean' said '^clean$'
is 'it says how full the metadata is' said 'harm is 9[0-9] % full, [0-9]* of 1024 blocks of metadata .*: lvextend --poolmetadatasize'
unharm
L vgchange -ay vg
is 'LVM shows it when it activates' said 'vg-pool_tmeta is 9[0-9] % full'
is 'the volume reads what it read' same /dev/vg/volume 0 2 0
# each write to a leaf that the snapshot shares takes a block
writes=0
while [ $writes -lt 300 ] && dd if=/dev/vdc of=/dev/vg/volume bs=64k seek=$((writes * 252 + 100)) count=1 oflag=direct conv=notrunc 2>/dev/null; do
    writes=$((writes + 1))
done
say "$writes writes went well"
isnt 'the metadata ran full' [ $writes = 300 ]
L dmsetup status vg-pool-tpool
L lvs -a -o lv_name,lv_attr,metadata_percent vg
dmesg | grep -i 'thin' | tail -n 12
L vgchange -an vg
L vgchange -ay vg
is 'the check says that it is full, and passes' said 'vg-pool_tmeta is 100 % full'
L dmsetup status vg-pool-tpool
is 'the pool is read-only' said ' ro '
is 'the volume reads what it read, after it ran full' same /dev/vg/volume 0 2 0
L vgchange -an vg
L lvconvert -y --repair vg/pool
is 'the repair ends with 0' [ "$rc" = 0 ]
is 'it says that it gives no room' said 'a repair makes nothing larger: now 9[0-9]* of 1024 are used. lvextend --poolmetadatasize'
L lvextend --poolmetadatasize +8M vg/pool
is 'it is extended' [ "$rc" = 0 ]
L vgchange -ay vg
is 'it is activated' [ "$rc" = 0 ]
L dmsetup status vg-pool-tpool
wr /dev/vg/volume 100 20 10
is 'the volume is written again' same /dev/vg/volume 100 20 10
is 'and reads what it read' same /dev/vg/volume 0 2 0
L vgchange -an vg
