# shellcheck shell=sh disable=SC2154,SC2034 # lib.sh sets what is used here, and reads what is set
# What a repair says of what it keeps before it writes, what it refuses, and how full metadata is

pool=thin-pool.img
details=$(roots_in $pool)
mapping=${details% *}
details=${details#* }
given='--transaction-id 5 --data-block-size 128 --nr-data-blocks 4000'
named="--mapping-root $mapping --details-root $details $given"
all='thin_repair: keeps 7 of 7 devices, 1461 of 1461 mappings'
lost_something='thin_repair: what is kept of the devices that lost something:'
refused='nothing is written without --force; see thin_repair(8)'
lose_leaf
# a pool that lost a leaf and its details, one that lost both trees, one without volumes, and one whose volume was never written
cp leaf.img both.img
fill '\377' | dd of=both.img bs=4096 seek="$details" conv=notrunc 2>/dev/null
cp damaged.img none.img
fill '\377' | dd of=none.img bs=4096 seek="$details" conv=notrunc 2>/dev/null
printf '%s\n' 'thin 2' 'pool 00000000-0000-0000-0000-000000000000 0 0 128 9' end >empty.txt
printf '%s\n' 'thin 2' 'pool 00000000-0000-0000-0000-000000000000 0 0 128 9' 'device 1 0 0 0 0' end >unwritten.txt
for name in empty unwritten; do
    zeros $name.img 64
    try 0 thin_restore -i $name.txt -o $name.img
done

# A repair, which ends with this status. Where it refuses the output is as it was.
repairs() {
    wanted=$1
    shift
    cp fresh.img before.img
    try "$wanted" "$@" -o fresh.img
    [ "$wanted" -eq 0 ] || same before.img fresh.img
}

# A sound pool: one line, or none with -q; of a search and of named roots, too
for words in '' "$given" "$named"; do
    # shellcheck disable=SC2086 # several words
    repairs 0 thin_repair -i $pool $words
    notes "$all"
    # shellcheck disable=SC2086
    repairs 0 thin_repair -q -i $pool $words
    notes
    try 0 thin_check fresh.img
    checked fresh.img
    try 0 thin_dump fresh.img
    same out thin-pool.txt
done

# Leaves stay shared, unless it is asked for the other: two devices on one leaf
cat >shared.txt <<'END'
thin 2
pool 00000000-0000-0000-0000-000000000000 0 0 128 2
leaf 0 2
map 0 0 2 0
device 1 2 0 0 0
use 0
device 2 2 0 0 0
use 0
end
END
zeros shared.img 16
try 0 thin_restore -i shared.txt -o shared.img
zeros ten.img 10
for word in '' --shared; do
    # shellcheck disable=SC2086 # no word, or one
    try 0 thin_repair $word -i shared.img -o ten.img
    notes 'thin_repair: keeps 2 of 2 devices, 4 of 4 mappings'
    try 0 thin_dump --shared ten.img
    same out shared.txt
done
try 4 thin_repair --unshared -i shared.img -o ten.img
notes_have 'pdata_tools: no room: need 11, blocks 10'
zeros eleven.img 11
try 0 thin_repair -i shared.img --unshared -o eleven.img
try 0 thin_dump --shared eleven.img
! grep -q '^leaf' out || bad 'a leaf is shared'
try 2 thin_repair --shared --unshared -i shared.img -o ten.img
[ "$(sed 1q notes)" = 'thin_repair: one word says whether leaves stay shared, --shared or --unshared' ] || bad 'other words'
try 0 thin_repair --dry-run --unshared --force -i shared.img
tail -n 1 out >line && mv line out
out 'keeps 2 4 need 11 shared 10'
# where sharing takes more room, that is said: the program's words are taken from a list
mkdir program program/lvm program/states program/waits
cat >program/pdata_tools <<END
#!/bin/sh
[ \$# -gt 0 ] || exec $PROGRAM
case "\$*" in
*--dry-run*) [ ! -e '$tmp/looks' ] || exit "\$(cat '$tmp/looks')" && cat '$tmp/told.txt' ;;
*thin_repair*) [ ! -e '$tmp/repairs' ] || exit "\$(cat '$tmp/repairs')" ;;
esac
END
chmod +x program/pdata_tools
sed "s|^program=.*|program=$tmp/program/pdata_tools|" "$prefix/sbin/thin_repair" >program/thin_repair
sed "s|^program=.*|program=$tmp/program/pdata_tools|" "$lvm/thin_repair" >program/lvm/thin_repair
chmod +x program/*_tools program/*_repair program/lvm/*
printf '%s\n' 'device 1 kept 5 of 5' 'keeps 1 5 need 11 shared 13' >told.txt
echo 4 >repairs
try 4 program/thin_repair -i $pool -o ten.img
notes 'thin_repair: keeps 1 of 1 devices, 5 of 5 mappings' 'thin_repair: with --unshared 11 blocks are enough' \
    'thin_repair: a block has 4 KiB: the blocks needed, divided by 256, are the MiB to give lvcreate -L'
rm repairs

# Something of a device is lost: it is told
try 0 thin_repair --dry-run -i leaf.img
harmed=$(awk '$1 == "device" && $4 != $6' out)
kept=$(awk '$1 == "keeps" { print $3 }' out)
for words in '' "$named"; do
    for command in thin_repair "$lvm/thin_repair"; do
        case $command,$words in
        /*,?*) continue ;;
        esac
        # shellcheck disable=SC2086 # several words
        repairs 0 $command -i leaf.img $words
        notes "thin_repair: keeps 7 of 7 devices, $kept of 1461 mappings" "$lost_something" "$harmed"
    done
    # shellcheck disable=SC2086
    repairs 0 thin_repair -q -i leaf.img $words
    notes "thin_repair: keeps 7 of 7 devices, $kept of 1461 mappings" "$lost_something" "$harmed"
done

# Nothing would be kept: it is refused, and done with --force. LVM's command takes an older state
try 0 thin_repair --dry-run -i damaged.img
lost=$(grep ' lost ' out)
for words in '' "$named"; do
    # shellcheck disable=SC2086 # several words
    repairs 1 thin_repair -i damaged.img $words
    out
    notes 'thin_repair: keeps 0 of 7 devices, 0 of 1461 mappings' "$lost_something" "$lost" "thin_repair: nothing would be kept: $refused"
    # shellcheck disable=SC2086
    repairs 0 thin_repair --force -i damaged.img $words
    notes 'thin_repair: keeps 0 of 7 devices, 0 of 1461 mappings' "$lost_something" "$lost"
done
repairs 0 "$lvm/thin_repair" -i damaged.img
notes_have 'in an older state, which is taken'
# both trees are gone, or the roots are mistyped or swapped
repairs 1 thin_repair -i none.img
notes 'thin_repair: keeps 0 of 0 devices, 0 of 0 mappings' "thin_repair: nothing would be kept: $refused"
for roots in "$details $mapping" '0 0' '1 1' "1023 $details" '18446744073709551615 1'; do
    # shellcheck disable=SC2086
    repairs 1 thin_repair -i $pool --mapping-root "${roots% *}" --details-root "${roots#* }" $given
    notes_have "thin_repair: nothing would be kept: $refused"
done
# of a pool without volumes, and of volumes that nothing was written to, all is kept
repairs 0 thin_repair -i empty.img
notes 'thin_repair: keeps 0 of 0 devices, 0 of 0 mappings'
repairs 0 "$lvm/thin_repair" -i empty.img
notes 'thin_repair: keeps 0 of 0 devices, 0 of 0 mappings'
repairs 0 thin_repair -i unwritten.img
notes 'thin_repair: keeps 1 of 1 devices, 0 of 0 mappings'
# fewer devices than the details have
printf '%s\n' 'device 1 kept 5 of 5' 'device 2 lost 9' 'keeps 1 5 need 9 shared 9' >told.txt
repairs 1 program/thin_repair -i $pool
notes 'thin_repair: keeps 1 of 2 devices, 5 of 14 mappings' "$lost_something" 'device 2 lost 9' \
    "thin_repair: devices would be lost: $refused"
repairs 0 program/thin_repair -i $pool --force
notes 'thin_repair: keeps 1 of 2 devices, 5 of 14 mappings' "$lost_something" 'device 2 lost 9'
# of each device nothing is kept
printf '%s\n' 'device 1 kept 0 of 5' 'device 2 kept 0 of ?' 'keeps 2 0 need 9 shared 9' >told.txt
repairs 1 program/thin_repair -i $pool
notes_have "thin_repair: nothing would be kept: $refused"

# LVM's command takes an older state with fewer devices with --force alone
cat >program/states/pdata_tools <<END
#!/bin/sh
[ \$# -gt 0 ] || exec $PROGRAM
case "\$*" in
*--dry-run*--transaction-id*) cat '$tmp/listed.txt' ;;
*--dry-run*) cat '$tmp/told.txt' ;;
*'--until whole'*) exit 1 ;;
*--transaction-id*) echo "\$*" >'$tmp/written' ;;
*thin_repair*) echo "\$*" >'$tmp/written' ;;
esac
END
sed "s|^program=.*|program=$tmp/program/states/pdata_tools|" "$lvm/thin_repair" >program/states/thin_repair
chmod +x program/states/*
printf '%s\n' 'device 1 kept 5 of 5' 'device 2 lost 9' 'device 3 lost 2' 'keeps 1 5 need 9 shared 9' >told.txt
printf '%s\n' 'roots 3 4 devices 2 mappings 14 transaction 5 time 2' 'keeps 2 14 need 9 shared 9' >listed.txt
try 1 program/states/thin_repair -i $pool -o fresh.img
notes 'thin_repair: keeps 1 of 3 devices, 5 of 16 mappings' "$lost_something" 'device 2 lost 9' 'device 3 lost 2' \
    "thin_repair: devices of $pool would be lost: an older state has 2 devices and 14 mappings, and is taken with --force; $page"
[ ! -e written ] || bad 'it is written'
try 0 program/states/thin_repair --force --unshared -i $pool -o fresh.img
notes "thin_repair: by its superblock 5 mappings of $pool are left, and 14 in an older state, which is taken: see thin_repair(8)"
echo "thin_repair -i $pool -o fresh.img --mapping-root 3 --details-root 4 $given" >wanted
same written wanted
rm written
: >listed.txt
try 1 program/states/thin_repair -i $pool -o fresh.img
notes_have "thin_repair: devices of $pool would be lost, and no older state has more: nothing is repaired without --force; $page"
[ ! -e written ] || bad 'it is written'
try 0 program/states/thin_repair --force -i $pool -o fresh.img
echo "thin_repair --shared -i $pool -o fresh.img" >wanted
same written wanted
try 1 "$lvm/cache_repair" --force -i cache.img -o fresh.img
notes "cache_repair: --force isn't taken; $page"

# The details are lost: their mappings are all kept, or it is said that nothing is known. LVM's command says where details stand.
repairs 0 thin_repair -i details.img
notes 'thin_repair: keeps 7 of ? devices, 1461 of ? mappings' \
    'thin_repair: the details of 7 devices are lost, their mappings are all kept as far as can be told'
repairs 0 "$lvm/thin_repair" -i details.img
notes 'thin_repair: keeps 7 of ? devices, 1461 of ? mappings' \
    'thin_repair: the details of 7 devices are lost, their mappings are all kept as far as can be told' \
    'thin_repair: a whole details tree of an older state is unused, at block 168: see --details-root in thin_repair(8)'
# that tree can be taken
# shellcheck disable=SC2086
repairs 0 thin_repair -i details.img --mapping-root "$mapping" --details-root 168 $given
grep -q '^thin_repair: keeps 7 of 7 devices, 1461 of ' notes || bad 'other details'
try 0 thin_repair --dry-run -i both.img
unknown=$(grep ' of ?$' out)
repairs 0 thin_repair -i both.img
notes "thin_repair: keeps 7 of ? devices, $kept of ? mappings" \
    'thin_repair: the details of 7 devices are lost, and nothing says how many mappings there were:' "$unknown"

# The look before it fails: the repair goes on, and it is said
for code in 5 6 7 137; do
    echo $code >looks
    for command in thin_repair lvm/thin_repair; do
        try 0 program/$command -i $pool -o fresh.img
        notes "thin_repair: what was lost isn't known, as the look before the repair ended with $code: compare thin_ls fresh.img with LVM's volumes"
    done
done
rm looks
# a list that breaks off is none
: >told.txt
try 0 program/thin_repair -i $pool -o fresh.img
notes_have 'as the look before the repair ended with 6'
# without a temporary folder it is the same, and nothing is left in one
repairs 0 env TMPDIR="$tmp/missing" thin_repair -i $pool
notes "$all"
mkdir temporary
repairs 0 env TMPDIR="$tmp/temporary" thin_repair -i $pool
notes "$all"
[ -z "$(ls temporary)" ] || bad 'a file is left in the temporary folder'
repairs 1 env TMPDIR="$tmp/temporary" thin_repair -i damaged.img
[ -z "$(ls temporary)" ] || bad 'a file is left in the temporary folder'
# a stop while it is looked: nothing is written, nothing is left, and the line is told
cat >program/waits/pdata_tools <<END
#!/bin/sh
: >'$tmp/there'
exec sleep 20
END
for command in "$prefix/sbin/thin_repair" "$lvm/thin_repair"; do
    sed "s|^program=.*|program=$tmp/program/waits/pdata_tools|" "$command" >program/waits/thin_repair
    chmod +x program/waits/*
    rm -f there
    wanted=143
    [ "$command" != "$lvm/thin_repair" ] || wanted=1
    # shellcheck disable=SC2016 # the inner shell's
    repairs $wanted env TMPDIR="$tmp/temporary" sh -c 'program/waits/thin_repair "$@" & while [ ! -e there ]; do sleep 0.1; done; kill "$!"; wait "$!"' sh -i $pool
    notes_have 'thin_repair: stopped: fresh.img holds what it held, or all that was to be written'
    [ -z "$(ls temporary)" ] || bad 'a file is left in the temporary folder'
done
# what can't be written isn't looked at
try 5 thin_repair -i $pool -o missing.img
notes 'pdata_tools: device fault' "thin_repair: missing.img isn't there"
for shell in dash bash 'busybox sh'; do
    if command -v "${shell% *}" >/dev/null; then
        # shellcheck disable=SC2086 # two words
        repairs 1 $shell "$prefix/sbin/thin_repair" -i damaged.img
        notes 'thin_repair: keeps 0 of 7 devices, 0 of 1461 mappings' "$lost_something" "$lost" "thin_repair: nothing would be kept: $refused"
    fi
done

# Metadata that is nearly full: the generated text takes as many blocks as are there, or some less, or so few that nothing is said. A kernel
# keeps a tenth for itself.
need=$(thin_rehearse --number 100 -o new.img | sed -n 's/^rehearsal 100 used \([0-9]*\) .*$/\1/p')
thin_generate --number 100 -o full.txt
cures='lvextend --poolmetadatasize +SIZE VG/POOL gives it room'
said=0
for blocks in "$need" $((need + 20)) $((need * 10 / 9)) $((need * 10 / 9 + 30)) $((need * 5 / 4)) $((need * 5 / 4 + 5)) $((need * 2)); do
    percent=$(((need + blocks / 10) * 100 / blocks))
    [ "$percent" -le 100 ] || percent=100
    filled="$percent % full, $need of $blocks blocks of metadata and $((blocks / 10)) that a kernel keeps for itself"
    zeros full.img "$blocks"
    try 0 thin_restore -i full.txt -o full.img
    set --
    if [ "$percent" -ge 90 ]; then
        said=$((said + 1))
        set -- "thin_check: full.img is $filled: $cures"
    fi
    try 0 thin_check full.img
    checked full.img
    notes "$@"
    try 0 thin_check -q full.img
    out
    notes "$@"
    try 0 "$lvm/thin_check" -q full.img
    out
    notes "$@"
    zeros repaired.img "$blocks"
    try 0 "$lvm/thin_repair" -i full.img -o repaired.img
    set -- 'thin_repair: keeps 2 of 2 devices, 200000 of 200000 mappings'
    if [ "$percent" -ge 90 ]; then
        used=$(number_in repaired.img 8 200)
        set -- "$@" "thin_repair: full.img was $filled, and a repair makes nothing larger: now $used of $blocks are used. $cures"
    fi
    notes "$@"
done
what='nearly full metadata'
[ "$said" -eq 4 ] || bad "it is said of $said"
# with a fault elsewhere it is said, too; with one of block 0 it isn't
zeros full.img "$need"
try 0 thin_restore -i full.txt -o full.img
dd if=/dev/zero bs=4096 count=1 2>/dev/null | dd of=full.img bs=4096 seek=$((need - 2)) conv=notrunc 2>/dev/null
try 1 thin_check full.img
notes_have "thin_check: full.img is 100 % full, $need of $need blocks of metadata and $((need / 10)) that a kernel keeps for itself: $cures"
poke full.img 500 '\377'
try 1 thin_check full.img
out 'fault meta 0 checksum' 'faults 1'
! grep -q ' full, ' notes || bad 'it is said of a superblock with faults'
