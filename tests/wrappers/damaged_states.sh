# shellcheck shell=sh disable=SC2154,SC2034 # lib.sh sets what is used here, and reads what is set
# Pools of which the states are damaged: what lists and searches say of them, and which one LVM's repair takes

given='--transaction-id 5 --data-block-size 128 --nr-data-blocks 4000'
onto='fresh.img'

# A pool with one state, of which the superblock and a leaf are lost: the state is listed as a damaged one, and no search takes it

zeros leaf.img 1024
try 0 thin_restore -i thin-pool.txt -o leaf.img
cp leaf.img thin-pool.img
lose_leaf
cp leaf.img lost.img
dd if=/dev/zero of=lost.img bs=4096 count=1 conv=notrunc 2>/dev/null
roots=$(roots_in leaf.img)
named="--mapping-root ${roots% *} --details-root ${roots#* }"
try 0 thin_repair --dry-run -i leaf.img
mv out told.txt
kept=$(awk '$1 == "keeps" { print $3 }' told.txt)
for image in leaf lost; do
    cp $image.img before.img
    # shellcheck disable=SC2086 # several words
    try 0 thin_repair --dry-run -i $image.img $given
    notes
    mv out listed.txt
    grep '^roots ' listed.txt && bad 'a damaged state is listed as a whole one'
    grep -qE "^damaged $roots devices 7 mappings $kept transaction 5 time [0-9]+\$" listed.txt || bad "the state isn't listed"
    # one line, and what a repair from it would keep
    [ "$(grep -c '^damaged ' listed.txt)" -eq 1 ] || bad 'there are other states'
    sed 1d listed.txt >rest
    same rest told.txt
    # shellcheck disable=SC2086
    try 0 thin_repair --dry-run -i $image.img $named $given
    same out told.txt
    zeros fresh.img 1024
    cp fresh.img empty.img
    for word in '' -q --force --unshared; do
        # shellcheck disable=SC2086
        try 1 thin_repair $word -i $image.img -o fresh.img $given
        out
        notes 'pdata_tools: no roots, but damaged ones' \
            'thin_repair: a search takes no damaged state: --dry-run in place of -o DEVICE lists them, and says what the first one keeps' \
            "thin_repair: to take one, add its roots: $named; see thin_repair(8)"
        same fresh.img empty.img
    done
    # shellcheck disable=SC2086
    try 0 thin_repair -i $image.img -o fresh.img $named $given
    notes_have "thin_repair: keeps 7 of 7 devices, $kept of 1461 mappings"
    try 0 thin_check fresh.img
    try 0 thin_dump fresh.img
    tells told.txt out
    same $image.img before.img
done
# LVM's repair stays with what the superblock gives, as no other state has more; without a superblock it looks for none
try 0 "$lvm/thin_repair" -i leaf.img -o fresh.img
notes_have "thin_repair: keeps 7 of 7 devices, $kept of 1461 mappings"
try 1 "$lvm/thin_repair" -i lost.img -o fresh.img
notes_have "thin_repair: the superblock of lost.img has faults: by hand, thin_repair can search for the trees without it; $page"

# The program's lines are taken from files, and what is written with which words is noted

mkdir states states/lvm
cat >states/pdata_tools <<END
#!/bin/sh
[ \$# -gt 0 ] || exec $PROGRAM
case "\$*" in
*--dry-run*--mapping-root*)
    echo "\$*" >'$tmp/looked'
    cat '$tmp/kept.txt'
    [ ! -e '$tmp/blind' ] || exit 7
    ;;
*--dry-run*--transaction-id*)
    cat '$tmp/listed.txt'
    [ ! -e '$tmp/breaks' ] || exit 6
    ;;
*--dry-run*) cat '$tmp/told.txt' ;;
*'--until whole'* | *'--until order'*) [ ! -e "$tmp/sound" ] || exit 0 && exit 1 ;;
*--mapping-root*)
    [ ! -e '$tmp/fails' ] || exit 4
    echo "\$*" >'$tmp/written'
    ;;
*--transaction-id*)
    echo 'pdata_tools: no roots, but damaged ones' >&2
    exit 1
    ;;
*thin_repair*) echo "\$*" >'$tmp/written' ;;
esac
END
sed "s|^program=.*|program=$tmp/states/pdata_tools|" "$lvm/thin_repair" >states/lvm/thin_repair
sed "s|^program=.*|program=$tmp/states/pdata_tools|" "$prefix/sbin/thin_repair" >states/thin_repair
chmod +x states/pdata_tools states/thin_repair states/lvm/thin_repair

# Which state LVM's repair writes, by its roots: those of the superblock are 0 0. What it says is compared with what is told afterwards
written() {
    case $1 in
    '0 0') echo "thin_repair --shared -i thin-pool.img -o $onto" ;;
    *) echo "thin_repair --shared -i thin-pool.img -o $onto --mapping-root ${1% *} --details-root ${1#* } $given" ;;
    esac >wanted
    same written wanted
    rm -f written
}
not_written() {
    [ ! -e written ] || bad 'it is written'
}
lost_something='thin_repair: what is kept of the devices that lost something:'
careful="thin_repair: WARNING: what is lost reads as zeros, and what was written last may be missing: look at each volume before you use it; $page"
is_taken() {
    printf '%s\n' "thin_repair: by its superblock $1 mappings of thin-pool.img are left, and $2 in another state, which is damaged, too, and is taken"
}

# Mappings are lost, and no device: the first damaged state that has more, and as many devices
printf '%s\n' 'device 1 kept 5 of 5' 'device 2 kept 3 of 9' 'keeps 2 8 need 9 shared 9' >told.txt
printf '%s\n' 'device 1 kept 5 of 5' 'device 2 kept 7 of 9' 'keeps 2 12 need 9 shared 9' >kept.txt
cat >listed.txt <<'END'
damaged 11 12 devices 2 mappings 8 transaction 5 time 3
damaged 13 14 devices 1 mappings 20 transaction 5 time 3
damaged 15 0 devices 2 mappings 12 transaction 5 time 2
damaged 17 18 devices 2 mappings 13 transaction 4 time 2
more 3
device 1 kept 5 of 5
keeps 1 5 need 9 shared 9
END
try 0 states/lvm/thin_repair -i thin-pool.img -o fresh.img
out
notes "$(is_taken 8 12)" 'thin_repair: keeps 2 of 2 devices, 12 of 14 mappings' 'thin_repair: what is kept of each device:' \
    'device 1 kept 5 of 5' 'device 2 kept 7 of 9' "$careful"
written '15 0'
echo "thin_repair --dry-run -i thin-pool.img --mapping-root 15 --details-root 0 $given" >wanted
same looked wanted
rm looked
# what the superblock gives stays: a whole state has as many devices, also with less; none of the damaged ones has more; the trees by the
# superblock are whole, and only the details' numbers are wrong; the list breaks off; the state can't be looked at; its repair fails
stays() {
    try 0 states/lvm/thin_repair -i thin-pool.img -o fresh.img
    notes 'thin_repair: keeps 2 of 2 devices, 8 of 14 mappings' "$lost_something" 'device 2 kept 3 of 9'
    written '0 0'
}
cp listed.txt damaged.txt
{
    echo 'roots 3 4 devices 2 mappings 1 transaction 5 time 1'
    cat damaged.txt
} >listed.txt
stays
{
    echo 'roots 3 4 devices 1 mappings 1 transaction 5 time 1'
    sed 's/mappings 1[23]/mappings 8/' damaged.txt
} >listed.txt
stays
cp damaged.txt listed.txt
for flag in sound breaks blind fails; do
    : >$flag
    stays
    rm $flag
done
# nothing is lost: nothing is looked for
printf '%s\n' 'device 1 kept 5 of 5' 'device 2 kept 3 of ?' 'keeps 2 8 need 9 shared 9' >told.txt
rm -f looked
try 0 states/lvm/thin_repair -i thin-pool.img -o fresh.img
written '0 0'
[ ! -e looked ] || bad 'a state was looked at'
# a whole state with fewer devices is none
printf '%s\n' 'device 1 kept 5 of 5' 'device 2 kept 3 of 9' 'keeps 2 8 need 9 shared 9' >told.txt
{
    echo 'roots 3 4 devices 1 mappings 30 transaction 5 time 1'
    cat damaged.txt
} >listed.txt
try 0 states/lvm/thin_repair -i thin-pool.img -o fresh.img
written '15 0'

# A device is lost, too. A whole state with fewer comes after the damaged ones that have them
printf '%s\n' 'device 1 kept 5 of 5' 'device 2 lost 9' 'keeps 1 5 need 9 shared 9' >told.txt
printf '%s\n' 'device 1 kept 3 of ?' 'device 2 kept 5 of ?' 'keeps 2 8 need 9 shared 9' >kept.txt
try 0 states/lvm/thin_repair -i thin-pool.img -o fresh.img
notes "$(is_taken 5 8)" 'thin_repair: keeps 2 of ? devices, 8 of ? mappings' 'thin_repair: what is kept of each device:' \
    'device 1 kept 3 of ?' 'device 2 kept 5 of ?' "$careful"
written '11 12'
sed '/devices 2/d' listed.txt >fewer.txt
cp fewer.txt listed.txt
try 1 states/lvm/thin_repair -i thin-pool.img -o fresh.img
notes 'thin_repair: keeps 1 of 2 devices, 5 of 14 mappings' "$lost_something" 'device 2 lost 9' \
    "thin_repair: devices of thin-pool.img would be lost: an older state has 1 devices and 30 mappings, and is taken with --force; $page"
not_written
try 0 states/lvm/thin_repair --force -i thin-pool.img -o fresh.img
notes 'thin_repair: by its superblock 5 mappings of thin-pool.img are left, and 30 in an older state, which is taken: see thin_repair(8)'
written '3 4'
# damaged states with fewer devices are none where something is left
sed '/^roots/d' fewer.txt >listed.txt
try 1 states/lvm/thin_repair -i thin-pool.img -o fresh.img
notes 'thin_repair: keeps 1 of 2 devices, 5 of 14 mappings' "$lost_something" 'device 2 lost 9' \
    "thin_repair: devices of thin-pool.img would be lost, and no older state has more: nothing is repaired without --force; $page"
not_written
try 0 states/lvm/thin_repair --force -i thin-pool.img -o fresh.img
written '0 0'

# Nothing is left, and no whole state: a damaged one with fewer devices is the last, and is taken with --force alone
printf '%s\n' 'device 1 lost 5' 'device 2 lost 9' 'keeps 0 0 need 8 shared 8' >told.txt
printf '%s\n' 'device 1 kept 3 of 5' 'device 2 lost 9' 'keeps 1 3 need 9 shared 9' >kept.txt
try 1 states/lvm/thin_repair -i thin-pool.img -o fresh.img
notes 'thin_repair: keeps 0 of 2 devices, 0 of 14 mappings' "$lost_something" 'device 1 lost 5' 'device 2 lost 9' \
    "thin_repair: devices of thin-pool.img would be lost: a damaged state keeps 1 devices and 20 mappings, and is taken with --force; $page"
not_written
try 0 states/lvm/thin_repair --force -i thin-pool.img -o fresh.img
notes "$(is_taken 0 20)" 'thin_repair: keeps 1 of 2 devices, 3 of 14 mappings' 'thin_repair: what is kept of each device:' \
    'device 1 kept 3 of 5' 'device 2 lost 9' "$careful"
written '13 14'
# the details are lost, too: nothing says how many devices there were, but for the details beside the state
echo 'keeps 0 0 need 8 shared 8' >told.txt
try 1 states/lvm/thin_repair -i thin-pool.img -o fresh.img
notes 'thin_repair: keeps 0 of 0 devices, 0 of 0 mappings' \
    "thin_repair: devices of thin-pool.img would be lost: a damaged state keeps 1 devices and 20 mappings, and is taken with --force; $page"
not_written
printf '%s\n' 'device 1 kept 3 of 5' 'keeps 1 3 need 9 shared 9' >kept.txt
try 0 states/lvm/thin_repair -i thin-pool.img -o fresh.img
notes "$(is_taken 0 20)" 'thin_repair: keeps 1 of 1 devices, 3 of 5 mappings' 'thin_repair: what is kept of each device:' \
    'device 1 kept 3 of 5' "$careful"
written '13 14'
# a whole state without devices may be an empty leaf
{
    echo 'roots 3 4 devices 0 mappings 0 transaction 0 time 0'
    cat damaged.txt
} >listed.txt
try 0 states/lvm/thin_repair -i thin-pool.img -o fresh.img
written '11 12'
# there is no state at all
: >listed.txt
try 1 states/lvm/thin_repair -i thin-pool.img -o fresh.img
notes_have "thin_repair: by its superblock nothing of thin-pool.img is left, and no older state was found: nothing is repaired without --force; $page"
not_written

# The command: a search without a look, and one whose list begins with whole states
cp damaged.txt listed.txt
: >breaks
# shellcheck disable=SC2086
try 1 states/thin_repair -i thin-pool.img -o fresh.img $given
notes 'pdata_tools: no roots, but damaged ones' \
    'thin_repair: a search takes no damaged state: --dry-run in place of -o DEVICE lists them, and says what the first one keeps' \
    'thin_repair: to take one, add its roots: --mapping-root 11 --details-root 12; see thin_repair(8)'
: >listed.txt
# shellcheck disable=SC2086
try 1 states/thin_repair -i thin-pool.img -o fresh.img $given
notes_have 'thin_repair: to take one, add its roots: --mapping-root N --details-root N; see thin_repair(8)'
rm breaks
