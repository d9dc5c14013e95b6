# shellcheck shell=sh disable=SC2154
# The metadata of a pool is older than LVM's notes. The newer metadata is swapped in again by the commands of the page. Where it is lost, the
# number is changed in a text, and LVM forgets the volumes that the pool doesn't have. In the end block 0 is zeros.
# disks: vda:1G vdb:64M
L pvcreate -ff -y /dev/vda
make_pool
say 'the metadata is older: its text was restored'
L lvcreate -y -n fresh -L 4M vg
thin_dump -o /tmp/old.txt /tmp/m3
L thin_restore -i /tmp/old.txt -o /dev/vg/fresh
L lvchange -an vg/fresh
L lvconvert -y --swapmetadata --poolmetadata fresh vg/pool
refused '3, while expected 5'
L lvcreate -y -V 64M -T vg/pool -n t6
is 'no volume is made' said 'Aborting. Failed to locally activate thin pool vg/pool'
L lvchange -ay -y vg/pool_tmeta
say 'the newer one is there'
of_page 'lvchange -ay vg/fresh'
right
L lvchange -ay vg/t4
is 't4 reads what it read' same /dev/vg/t4 0 20 20
L vgchange -an vg
say 'the newer one is lost'
L lvconvert -y --swapmetadata --poolmetadata fresh vg/pool
L lvremove -y vg/fresh
refused '3, while expected 5'
L lvchange -ay -y vg/pool_tmeta
of_page 'changed.txt'
right
L lvchange -ay vg/t4
is 'the pool has no t4' said 'No data available'
dmesg | tail -5
is 'the kernel says so' sh -c "dmesg | grep -q \"Couldn't open thin internal device\""
L lvremove -y vg/t4
is 'LVM forgets t4' [ "$rc" = 0 ]
L lvremove -y vg/t5
new_is_empty t6
say 'block 0 is zeros'
harm pool_tmeta
dd if=/dev/zero of=/dev/mapper/harm bs=4096 count=1 oflag=direct conv=notrunc 2>/dev/null
unharm
refused '0, while expected [1-9]'
