# shellcheck shell=sh disable=SC2154
# A cache in one volume whose flag "needs check" is set: its parts are made by the commands of pdata_tools-lvm(8), with the
# numbers of vgcfgbackup in the place of those there. What is dirty is written back, and the flag is cleared.
# disks: vda:1G vdb:512M
L pvcreate -ff -y /dev/vda
L pvcreate -ff -y /dev/vdb
L vgcreate vg /dev/vda /dev/vdb
L lvcreate -y -L 300M -n main vg /dev/vda
L lvcreate -y -L 100M -n fast vg /dev/vdb
L lvconvert -y --type cache --cachevol vg/fast --cachemode writeback vg/main
is 'the cache is made' [ "$rc" = 0 ]
make_dirty
L vgchange -an vg
harm fast_cvol
flag_cache /dev/mapper/harm
L cache_check /dev/mapper/harm
unharm
L lvm vgcfgbackup -f /tmp/vg.txt vg
of() { sed -n "s/^[[:space:]]*$1 = //p" /tmp/vg.txt; }
say "metadata from $(of metadata_start), $(of metadata_len) sectors; data from $(of data_start), $(of data_len) sectors"
is 'the metadata is at the beginning' [ "$(of metadata_start)" = 0 ]
L lvchange -ay -y vg/fast_cvol
is 'the volume is activated alone' [ "$rc" = 0 ]
# shellcheck disable=SC2046 # its words are the fields: start, sectors, target, device and place
set -- $(dmsetup table vg-fast_cvol)
is 'it is in one piece' [ $# = 5 ]
page pdata_tools-lvm 'dmsetup create meta' "s/'0 16384 linear 254:16 2048'/'0 $(of metadata_len) linear $4 $5'/
    s/'0 188416 linear 254:16 18432'/'0 $(of data_len) linear $4 $(($5 + $(of data_start)))'/"
is 'the parts are made, checked and written back' [ "$rc" = 0 ]
is 'the metadata is clean' said '^clean$'
is 'blocks were copied' said '^copied [1-9]'
L lvchange -ay -y vg/main_corig
is 'the origin has all' same /dev/vg/main_corig 0 40 10
L lvchange -an vg/main_corig
say 'the cache is used on'
L lvchange -ay vg/main
is 'LVM activates it, and clears the flag' [ "$rc" = 0 ]
is 'it reads what it read' same /dev/vg/main 0 40 10
isnt 'it is read and written' sh -c 'dmsetup status vg-main | grep -qE " ro |needs_check"'
L vgchange -an vg
