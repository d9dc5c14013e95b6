# shellcheck shell=sh disable=SC2154
# LVM's notes of a pool are older than its metadata. Newer notes are brought back by the commands of the page. Where they are lost, the number
# is changed in a text, what LVM doesn't know is copied, and then left out of the text.
# disks: vda:1G vdb:64M
L pvcreate -ff -y /dev/vda
make_pool
say 'the notes are older'
notes /tmp/n3
refused '5, while expected 3'
of_page 'thin_dump /dev/vg/pool_tmeta | sed -n 2p'
is 'the metadata is shown' said '^pool [0-9-]* 0 5 128 '
is 'the notes are shown' said ' pool  *3$'
is 'the notes show the transaction' grep -A 3 'type = "thin-pool"' /tmp/n5
say 'newer notes are there'
of_page 'vgcfgrestore --force' 's|FILE|/tmp/n5|'
right
L lvchange -ay vg/t4
is 't4 reads what it read' same /dev/vg/t4 0 20 20
L vgchange -an vg
say 'newer notes are lost'
notes /tmp/n3
refused '5, while expected 3'
L lvchange -ay -y vg/pool_tmeta
of_page 'changed.txt' 's/^number=5/number=3/'
right
of_page 'dmsetup create saved' 's/^dmsetup remove/# &/'
is 'what t4 held is copied' same /tmp/saved.img 0 20 20
dmsetup remove --retry saved
rm -f /tmp/saved.img
L vgchange -an vg
L lvremove -y vg/fresh
L lvchange -ay -y vg/pool_tmeta
of_page 'changed.txt' "s/^number=5 gone=''/number=3 gone='4 5'/"
right
new_is_empty t6
