# shellcheck shell=sh disable=SC2154
page cache_writeback /dev/vg/fast_cpool_cdata
is 'it is written back' [ "$rc" = 0 ]
is 'blocks were copied' said '^copied [1-9]'
L lvchange -ay -y vg/main_corig
is 'the origin has all' same /dev/vg/main_corig 0 40 10
L lvchange -an vg/main_corig
page cache_writeback vgcfgrestore
is 'LVM forgets the cache' [ "$rc" = 0 ]
L lvs -a -o lv_name,segtype vg
isnt 'no cache is left' said cache
is 'the origin has all, as LVM activates it' same /dev/vg/main 0 40 10
wr /dev/vg/main 0 20 40
sync
reset_now
