# shellcheck shell=sh disable=SC2154
# A cache in writeback mode; a reset; a writeback without LVM; then LVM forgets the cache by the commands of
# cache_writeback(8), and the next boot doesn't make it again.
# disks: vda:1G vdb:512M
L pvcreate -ff -y /dev/vda
L pvcreate -ff -y /dev/vdb
L vgcreate vg /dev/vda /dev/vdb
L lvcreate -y -L 300M -n main vg /dev/vda
L lvcreate -y --type cache-pool -L 100M --poolmetadatasize 8M -n fast vg /dev/vdb
L lvconvert -y --type cache --cachepool vg/fast --cachemode writeback vg/main
is 'the cache is made' [ "$rc" = 0 ]
make_dirty
sync
sleep 3
reset_now
