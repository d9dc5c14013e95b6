# shellcheck shell=sh disable=SC2154
# A pool goes through seven states, with a volume that is removed, a discard and a snapshot. Of each state a copy of the metadata
# loses its block 0. The list of `thin_repair --dry-run` has the state, and with its roots a repair gives it back as it was.
# disks: vda:1G vdb:64M
L pvcreate -ff -y /dev/vda
L vgcreate vg /dev/vda
L lvcreate -y --type thin-pool -L 640M --poolmetadatasize 8M -Zn -n pool vg
for volume in t1 t2 t3; do
    L lvcreate -y -V 128M -T vg/pool -n $volume
done
# How many devices and mappings thin_ls has, in the words of a dry run's last line
counts() { thin_ls "$1" 2>/dev/null | awk '{ mappings += $4 } END { print "keeps", NR, mappings + 0 }'; }
# A dump without its second line, which has the pool's identifier and its time
rest() { sed 2d "$1" | sha256sum; }
# The state as it is now, by a name for it: it is looked for in the list, and repaired by its roots
# shellcheck disable=SC2046,SC2086 # several words each
look_at() {
    sync
    L vgchange -an vg
    harm pool_tmeta
    dd if=/dev/mapper/harm of=/tmp/lost.img bs=1M count=8 2>/dev/null
    unharm
    L vgchange -ay vg
    L thin_dump -o /tmp/state.txt /tmp/lost.img
    before=$(counts /tmp/lost.img)
    mapping=$(number_at /tmp/lost.img 320)
    details=$(number_at /tmp/lost.img 328)
    roots="--mapping-root $mapping --details-root $details"
    set -- "$1" $(sed -n 2p /tmp/state.txt)
    given="--transaction-id $5 --data-block-size $6 --nr-data-blocks $7"
    dd if=/dev/zero of=/tmp/lost.img bs=4096 count=1 conv=notrunc 2>/dev/null
    L thin_repair --dry-run -i /tmp/lost.img $given
    grep '^roots ' /tmp/said >/tmp/list
    line="roots $mapping $details devices [0-9]+ mappings [0-9]+ transaction [0-9]+ time [0-9]+"
    place=$(grep -nxE "$line" /tmp/list | cut -d : -f 1)
    say "$1: roots $mapping $details, $before, place ${place:-none} of $(grep -c . /tmp/list)"
    is "$1: the state stands in the list" [ -n "$place" ]
    L thin_repair --dry-run -i /tmp/lost.img $roots $given
    told=$(grep '^keeps ' /tmp/said)
    dd if=/dev/zero of=/tmp/fresh.img bs=1M count=8 2>/dev/null
    L thin_repair -i /tmp/lost.img -o /tmp/fresh.img $roots $given
    is "$1: the repair ends with 0" [ "$rc" = 0 ]
    L thin_check /tmp/fresh.img
    is "$1: the check says clean" said '^clean$'
    L thin_dump -o /tmp/fresh.txt /tmp/fresh.img
    is "$1: it is repaired by its roots" [ "$(rest /tmp/fresh.txt)" = "$(rest /tmp/state.txt)" ]
    is "$1: the dry run told it before" [ "${told%% need *}" = "$(counts /tmp/fresh.img)" ]
}
wr /dev/vg/t1 0 40 0
wr /dev/vg/t2 0 60 2
wr /dev/vg/t3 0 30 30
look_at 'three volumes'
L lvremove -y vg/t2
look_at 'a volume removed'
wr /dev/vg/t1 50 20 0
look_at 'another one written'
L blkdiscard -o 0 -l 20971520 /dev/vg/t1
look_at 'discarded'
wr /dev/vg/t3 40 10 0
look_at 'written'
L lvcreate -y -s vg/t3 -n s3 -kn
wr /dev/vg/t3 0 5 7
look_at 'a snapshot'
L lvremove -y vg/s3
look_at 'the snapshot removed'
L vgchange -an vg
