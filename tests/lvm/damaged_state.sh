# shellcheck shell=sh disable=SC2154
# The superblock of a pool and a leaf of a volume's mappings are damaged, so that no state is whole. LVM doesn't activate it, and its repair
# finds no superblock. By the commands of thin_repair(8) the damaged state is listed and taken: each volume has what the list says. Then the
# root of the mapping tree and a leaf are damaged, and `lvconvert --repair` takes a damaged state, and says what it keeps.
# disks: vda:1G vdb:64M
mkdir -p /tmp/files
# Files of a volume: those that are there are compared with their checksums; and how many are
mount_files() { L mount -o ro "/dev/vg/$1" /tmp/files; }
are_right() { (cd /tmp/files && sha256sum -c "/tmp/sums.$1") >/tmp/said 2>&1; }
right_files() { are_right "$1" || grep -c ': OK$' /tmp/said || :; }
# The blocks below a node: a node has at 16 how many entries it has, at 20 how many it can have, and from 32 on its keys and then its values
child_of() { number_at /dev/mapper/harm $(($1 * 4096 + 32 + 8 * $(word_at $(($1 * 4096 + 20))) + 8 * $2)); }
word_at() { od -An -tu4 -j"$1" -N4 /dev/mapper/harm | tr -d ' '; }
damage() { dd if=/dev/vdc of=/dev/mapper/harm bs=4096 seek="$1" count=1 oflag=direct conv=notrunc 2>/dev/null; }
# The runs of a device in a dump, as the place and the number of blocks
runs_of() { awk -v id="$2" '$1 == "device" { on = $2 == id } on && $1 == "map" { print $2, $4 }' "$1"; }
# Whether each block that a dump has of a volume's device is in the volume what it is in a copy of it
kept_is_there() {
    runs_of "$1" "$2" >/tmp/runs
    [ -s /tmp/runs ] || return 1
    while read -r place number; do
        [ "$(dd if="$3" bs=64k skip="$place" count="$number" 2>/dev/null | sha256sum)" = \
            "$(dd if="/dev/vg/t$2" bs=64k skip="$place" count="$number" 2>/dev/null | sha256sum)" ] || return 1
    done </tmp/runs
}
L pvcreate -ff -y /dev/vda
L vgcreate vg /dev/vda
L lvcreate -y --type thin-pool -L 512M --poolmetadatasize 4M -Zn -n pool vg
for i in 1 2 3; do
    L lvcreate -y -V 64M -T vg/pool -n t$i
    L mkfs.ext4 -q -F -b 4096 -O ^has_journal -E lazy_itable_init=0 /dev/vg/t$i
    L mount /dev/vg/t$i /tmp/files
    for file in 10 11 12 13 14 15 16 17 18 19 20 21 22 23 24 25 26 27 28 29 30 31 32 33 34 35 36 37 38 39; do
        dd if=/dev/vdc of=/tmp/files/$file bs=1M skip=$((file + i)) count=1 2>/dev/null
    done
    (cd /tmp/files && sha256sum [0-9]*) >/tmp/sums.$i
    L umount /tmp/files
done
dd if=/dev/vg/t2 of=/tmp/t2.img bs=1M 2>/dev/null
L vgchange -an vg
harm pool_tmeta
L thin_dump -o /tmp/before.txt /dev/mapper/harm
# it is written anew, so that no older state stands beside it
dd if=/dev/zero of=/dev/mapper/harm bs=1M count=4 oflag=direct conv=notrunc 2>/dev/null
L thin_restore -i /tmp/before.txt -o /dev/mapper/harm
top=$(number_at /dev/mapper/harm 320)
details=$(number_at /dev/mapper/harm 328)
leaf=$(child_of "$(child_of "$top" 1)" 1)
roots="--mapping-root $top --details-root $details"
# shellcheck disable=SC2046 # several words
set -- $(sed -n 2p /tmp/before.txt)
given="--transaction-id $4 --data-block-size $5 --nr-data-blocks $6"
say "the roots are $top and $details, and $leaf is the second leaf of t2"
damage "$leaf"
L thin_repair --dry-run -i /dev/mapper/harm
grep -E '^(device|keeps) ' /tmp/said >/tmp/told
is 'the leaf lost mappings of t2 alone' [ "$(awk '$1 == "device" && $4 < $6 { print $2 }' /tmp/told)" = 2 ]
kept=$(awk '$1 == "keeps" { print $3 }' /tmp/told)
damage 0
before=$(sum /dev/mapper/harm 0 4)
# shellcheck disable=SC2086 # several words
L thin_repair --dry-run -i /dev/mapper/harm $given
isnt 'a whole state is there' said '^roots '
is 'the state is listed as a damaged one, and first' [ "$(sed -n '1s/ transaction.*//p' /tmp/said)" = "damaged $top $details devices 3 mappings $kept" ]
grep -E '^(device|keeps) ' /tmp/said >/tmp/listed
is 'what it keeps is told of each device' cmp /tmp/told /tmp/listed
unharm
L vgchange -ay vg
isnt 'the damaged pool is refused' [ "$rc" = 0 ]
L vgchange -an vg
L lvconvert -y --repair vg/pool
isnt 'it is not repaired without a superblock' [ "$rc" = 0 ]
is 'it says how to go on' said 'by hand, thin_repair can search for the trees without it'
L lvchange -ay -y vg/pool_tmeta
is 'the metadata is as before' [ "$(sum /dev/vg/pool_tmeta 0 4)" = "$before" ]
L lvcreate -y -L 4M -Zn -Wn -n fresh vg
# shellcheck disable=SC2086
L thin_repair -i /dev/vg/pool_tmeta -o /dev/vg/fresh $given
isnt 'a search takes no damaged state' [ "$rc" = 0 ]
is 'it says that there are damaged ones' said '^pdata_tools: no roots, but damaged ones$'
is 'it says how to take the first one' said "^thin_repair: to take one, add its roots: $roots; see thin_repair\\(8\\)\$"
page thin_repair "roots='--mapping-root 142" "s/^given=.*/given='$given'/; s/^roots=.*/roots='$roots'/"
is 'it is taken by the commands of the page' [ "$rc" = 0 ]
is 'as much is kept as the list says' said "^thin_repair: keeps 3 of 3 devices, $kept of "
L thin_check /dev/vg/fresh
is 'the new metadata is clean' said '^clean$'
L thin_dump -o /tmp/kept.txt /dev/vg/fresh
L lvchange -an vg/pool_tmeta
L lvchange -an vg/fresh
L lvconvert -y --swapmetadata --poolmetadata fresh vg/pool
L vgchange -ay vg
is 'the pool is activated' [ "$rc" = 0 ]
for i in 1 3; do
    L e2fsck -fn /dev/vg/t$i
    is "the file system of t$i is sound" [ "$rc" = 0 ]
    mount_files t$i
    is "all files of t$i are as they were" are_right $i
    L umount /tmp/files
done
runs_of /tmp/kept.txt 2 >/tmp/runs
is 't2 has as many mappings as the list says' \
    [ "$(awk '{ sum += $2 } END { print sum }' /tmp/runs)" = "$(awk '$1 == "device" && $2 == 2 { print $4 }' /tmp/listed)" ]
is 'what is kept of t2 is what it was' kept_is_there /tmp/kept.txt 2 /tmp/t2.img
L e2fsck -fn /dev/vg/t2
mount_files t2
say "of t2 $(right_files 2) of 30 files are as they were"
is 'files of t2 are there' [ "$(right_files 2)" -gt 0 ]
isnt 'all files of t2 are there' are_right 2
L umount /tmp/files

say 'the root of the mapping tree and a leaf'
L mount /dev/vg/t3 /tmp/files
dd if=/dev/vdc of=/tmp/files/new bs=1M count=1 2>/dev/null
L umount /tmp/files
L vgchange -an vg
L vgchange -ay vg
dd if=/dev/vdc of=/dev/vg/t3 bs=64k seek=1000 count=1 oflag=direct conv=notrunc 2>/dev/null
L vgchange -an vg
harm pool_tmeta
top=$(number_at /dev/mapper/harm 320)
leaf=$(child_of "$(child_of "$top" 0)" 1)
say "block $top is the root of the mapping tree, and $leaf is the second leaf of t1"
damage "$leaf"
damage "$top"
# shellcheck disable=SC2086
L thin_repair --dry-run -i /dev/mapper/harm $given
cp /tmp/said /tmp/list
unharm
L vgchange -ay vg
isnt 'the damaged pool is refused, too' [ "$rc" = 0 ]
L vgchange -an vg
L lvconvert -y --repair vg/pool
is 'it is repaired' [ "$rc" = 0 ]
is 'it says that a damaged state is taken' said 'by its superblock 0 mappings .* are left, and [1-9][0-9]* in another state, which is damaged, too'
is 'it says what is kept' said '^thin_repair: keeps 3 of 3 devices, [1-9][0-9]* of '
is 'it says so of each device' [ "$(grep -c '^device [123] kept ' /tmp/said)" = 3 ]
is 'it warns' said '^thin_repair: WARNING: what is lost reads as zeros'
kept=$(awk '$1 == "thin_repair:" && $2 == "keeps" { print $7 }' /tmp/said)
is 'the list has such a state' grep -qE "^damaged [0-9]+ [0-9]+ devices 3 mappings $kept " /tmp/list
L vgchange -ay vg
is 'the pool is activated again' [ "$rc" = 0 ]
L e2fsck -fn /dev/vg/t3
mount_files t3
is 'all files of t3 are as they were, again' are_right 3
L umount /tmp/files
mount_files t1
is 'files of t1 are there' [ "$(right_files 1)" -gt 0 ]
L umount /tmp/files
L vgchange -an vg
