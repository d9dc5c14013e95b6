# shellcheck shell=sh disable=SC2154
# Nine volumes on 120 leaves of mappings that they share, one of which is damaged. With each leaf written once for each volume
# the repaired pool has no room on LVM's spare volume. `lvconvert --repair` keeps them shared, and it fits.
# disks: vda:1G vdb:64M
L pvcreate -ff -y /dev/vda
L vgcreate vg /dev/vda
L lvcreate -y --type thin-pool -L 512M --poolmetadatasize 4M -n pool vg
L lvcreate -y -V 2G -T vg/pool -n t1
wr /dev/vg/t1 0 2 0
for i in 2 3 4 5 6 7 8 9; do
    L lvcreate -y -s vg/t1 -n "t$i" -kn >/dev/null
done
L vgchange -an vg
harm pool_tmeta
# data blocks 0 to 31 are those that were written
thin_dump -o /tmp/plain.txt /dev/mapper/harm
awk '
    NR == 1 { print "thin 2"; next }
    NR == 2 {
        print
        for (leaf = 0; leaf < 120; leaf++) {
            print "leaf", leaf, 252
            for (i = 0; i < 252; i++) {
                block = 252 * leaf + i
                print "map", block, (block < 32 ? block : 32 + 2 * (block % 4000)), 1, 0
            }
        }
        next
    }
    $1 == "device" {
        print $1, $2, 30240, $4, $5, $6
        for (leaf = 0; leaf < 120; leaf++) print "use", leaf
    }
    END { print "end" }' /tmp/plain.txt >/tmp/shared.txt
thin_restore -i /tmp/shared.txt -o /dev/mapper/harm
is 'the metadata has shared leaves' thin_check /dev/mapper/harm
dd if=/dev/vdc of=/dev/mapper/harm bs=4096 seek=60 count=1 oflag=direct conv=notrunc 2>/dev/null
dd if=/dev/zero of=/tmp/plain.img bs=1M count=4 2>/dev/null
thin_repair --unshared -i /dev/mapper/harm -o /tmp/plain.img 2>/tmp/said
is 'without sharing there is no room' grep -q 'no room: need 11[0-9][0-9], blocks 1024' /tmp/said
unharm
L vgchange -ay vg
isnt 'the damaged pool is refused' [ "$rc" = 0 ]
L lvconvert -y --repair vg/pool
is 'it is repaired' [ "$rc" = 0 ]
isnt 'there was room' said 'has to be larger'
is 'it says what is kept of each volume' [ "$(grep -c 'device [1-9] kept 29988 of 30240' /tmp/said)" = 9 ]
L vgchange -ay vg
is 'it is activated' [ "$rc" = 0 ]
is 'the first volume reads what it read' same /dev/vg/t1 0 2 0
is 'the last one too' same /dev/vg/t9 0 2 0
wr /dev/vg/t5 0 1 40
is 'a volume is written' same /dev/vg/t5 0 1 40
is 'and the others stay' same /dev/vg/t6 0 2 0
L vgchange -an vg
L vgchange -ay vg
is 'it is activated again' [ "$rc" = 0 ]
L vgchange -an vg
