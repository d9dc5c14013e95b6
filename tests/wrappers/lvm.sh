# shellcheck shell=sh disable=SC2154,SC2034 # lib.sh sets what is used here, and reads what is set
# The commands for LVM, which end with 0 or 1 alone

whole='thin_repair: keeps 7 of 7 devices, 1461 of 1461 mappings'
for tool in thin_check cache_check thin_repair cache_repair thin_dump; do
    try 0 "$lvm/$tool" -V
    out "0.9.0 pdata_tools $release"
    try 1 "$lvm/$tool" --no-such-word
    notes "$tool: --no-such-word isn't taken; $page"
    try 1 "$lvm/$tool"
done
try 0 "$lvm/thin_check" -q --clear-needs-check-flag thin-pool.img
out
notes
try 0 "$lvm/thin_check" thin-pool.img
out clean
cp set.img flagged.img
try 0 "$lvm/thin_check" -q flagged.img
notes "thin_check: flagged.img: the flag \"needs check\" is set, and stays without --clear-needs-check-flag; $page"
same flagged.img set.img
try 0 "$lvm/thin_check" -q --clear-needs-check-flag flagged.img
notes 'thin_check: flagged.img: the flag "needs check" was set, and is cleared'
same flagged.img thin-pool.img
try 0 "$lvm/thin_check" -q --skip-mappings --ignore-non-fatal-errors '' thin-pool.img
try 0 "$lvm/thin_check" -q --super-block-only damaged.img
try 1 "$lvm/thin_check" -q --super-block-only --clear-needs-check-flag thin-pool.img
try 0 "$lvm/thin_check" -q --clear-needs-check-flag leak.img
out
notes 'thin_check: leak.img has leaked blocks, and no other fault: 1'
try 0 "$lvm/thin_check" leak.img
out 'fault data 15 leak stored 1 references 0' 'faults 1'
try 1 "$lvm/thin_check" -q short.img
notes "thin_check: short.img has faults: 1; the first is \"fault data 10 short stored 0 references 1\"; $page"
try 1 "$lvm/thin_check" -q --clear-needs-check-flag damaged.img
out
notes "thin_check: damaged.img has faults: 1; the first is \"fault meta 183 checksum\"; $page"
dd if=thin-pool.img of=cut.img bs=4096 count=256 2>/dev/null
try 1 "$lvm/thin_check" -q cut.img
notes_have 'thin_check: cut.img has 256 blocks of 4 KiB, and its superblock says 1024: 768 are missing'
try 1 "$lvm/thin_check" -q missing.img
notes 'pdata_tools: device fault' "thin_check: missing.img isn't there" "thin_check: $page"
try 1 "$lvm/thin_check" -q "$here"
notes_have "thin_check: $here is a folder"
try 1 "$lvm/thin_check" -q thin-pool.img leak.img
try 0 "$lvm/cache_check" -q --clear-needs-check-flag cache.img
out
notes
cp set-cache.img flag.img
try 0 "$lvm/cache_check" -q flag.img
notes "cache_check: flag.img: the flag \"needs check\" is set, and stays without --clear-needs-check-flag; $page"
same flag.img set-cache.img
try 0 "$lvm/cache_check" -q --clear-needs-check-flag flag.img
notes 'cache_check: flag.img: the flag "needs check" was set, and is cleared'
same flag.img cache.img
try 1 "$lvm/cache_check" -q thin-pool.img
zeros fresh.img 1024
try 0 "$lvm/thin_repair" '' -i leak.img -o fresh.img
notes "$whole"
try 0 thin_check fresh.img
# the kernel left older states behind: the first has a device more, which was removed since
try 0 "$lvm/thin_repair" -i damaged.img -o fresh.img
notes 'thin_repair: by its superblock 0 mappings of damaged.img are left, and 1463 in an older state, which is taken: see thin_repair(8)'
try 0 thin_check fresh.img
try 1 "$lvm/thin_repair" -i lost.img -o fresh.img
notes 'fault meta 0 checksum' 'faults 1' \
    "thin_repair: the superblock of lost.img has faults: by hand, thin_repair can search for the trees without it; $page"
try 1 "$lvm/thin_repair" -i leak.img -o missing.img
notes_have "thin_repair: missing.img isn't there"
try 1 "$lvm/thin_repair" -i leak.img -o small.img
need=$(sed -n 's/^pdata_tools: no room: need \([0-9]*\), blocks 2$/\1/p' notes)
notes_have "lvcreate -L $(((need + 255) / 256))M; $page"
try 0 "$lvm/thin_dump" thin-pool.img
out 'transaction="5"'
notes
try 1 "$lvm/thin_dump" damaged.img
notes 'fault meta 183 checksum' 'faults 1' "thin_dump: damaged.img isn't dumped; $page"
# a program that isn't there, and one that is no program
for fake in missing "$here/VERSION"; do
    for tool in thin_check cache_check thin_repair cache_repair thin_dump; do
        sed "s|^program=.*|program=$fake|" "$lvm/$tool" >"$tool.fake"
        try 1 sh "$tool.fake" -i leak.img -o fresh.img
        try 1 sh "$tool.fake" leak.img
    done
done

# More than a thousand leaks: of a pool of 4000 data blocks, of which none is mapped, the first 1200 or 1000 are allocated
cat >none.txt <<'END'
thin 1
pool 00000000-0000-0000-0000-000000000000 0 0 128 4000
end
END
zeros many.img 256
try 0 thin_restore -i none.txt -o many.img
cp many.img thousand.img
dd if=/dev/zero bs=1 count=300 2>/dev/null | tr '\000' '\252' | dd of=many.img bs=1 seek=12304 conv=notrunc 2>/dev/null
poke many.img 12288 '\131\135\300\307'
dd if=/dev/zero bs=1 count=250 2>/dev/null | tr '\000' '\252' | dd of=thousand.img bs=1 seek=12304 conv=notrunc 2>/dev/null
poke thousand.img 12288 '\232\055\232\353'
try 0 "$lvm/thin_check" -q thousand.img
notes 'thin_check: thousand.img has leaked blocks, and no other fault: 1000'
try 0 "$lvm/thin_check" -q many.img
notes 'thin_check: many.img has leaked blocks, and no other fault: 1200'
try 0 "$lvm/thin_check" many.img
[ "$(tail -n 1 out)" = 'faults 1200' ] || bad 'the report was to be printed'
# the flag, of a pool that has leaks alone, and of one that has another fault behind a thousand leaks
cp thousand.img flagged.img
poke flagged.img 0 '\024\112\024\004\001'
cp flagged.img before.img
try 0 "$lvm/thin_check" -q flagged.img
notes 'thin_check: flagged.img has leaked blocks, and no other fault: 1000' \
    "thin_check: flagged.img: the flag \"needs check\" is set, and stays without --clear-needs-check-flag; $page"
same flagged.img before.img
try 0 "$lvm/thin_check" -q --clear-needs-check-flag flagged.img
notes 'thin_check: flagged.img has leaked blocks, and no other fault: 1000' \
    'thin_check: flagged.img: the flag "needs check" was set, and is cleared'
same flagged.img thousand.img
try 1 "$lvm/thin_check" -q --clear-needs-check-flag damaged.img
notes "thin_check: damaged.img has faults: 1; the first is \"fault meta 183 checksum\"; $page"
# a program that reports a thousand leaks and ends with 1
cat >reporting <<'END'
#!/bin/sh
i=0
while [ $i -lt 1000 ]; do
    echo "fault data $i leak stored 1 references 0"
    i=$((i + 1))
done
echo 'faults 1001'
exit 1
END
chmod +x reporting
sed "s|^program=.*|program=$tmp/reporting|" "$lvm/thin_check" >reported
try 1 sh reported -q many.img
notes "reported: many.img has faults: 1001; the first thousand are leaks, and one of the others isn't; $page"
# with nothing on the path but what a small system has, and no thin-provisioning-tools
mkdir few
for name in sh ls od tr dd wc cat; do
    ln -s "$(command -v $name)" few/$name
done
cp before.img flagged.img
try 0 env -i PATH="$tmp/few" "$lvm/thin_check" -q --clear-needs-check-flag flagged.img
same flagged.img thousand.img
cp set-cache.img flag.img
try 0 env -i PATH="$tmp/few" "$lvm/cache_check" -q --clear-needs-check-flag flag.img
same flag.img cache.img

# A repair by LVM that loses devices takes an older state that has more, and none where nothing is left

mkdir states
cat >states/program <<END
#!/bin/sh
case "\$*" in
*--dry-run*--transaction-id*)
    [ -s '$tmp/listed.txt' ] || exit 1
    cat '$tmp/listed.txt'
    [ ! -e '$tmp/breaks' ] || exit 6
    ;;
*--dry-run*) cat '$tmp/told.txt' ;;
*'--until whole'*) [ -e '$tmp/whole' ] || exit 1 ;;
*--mapping-root*)
    printf '%s\n' "\$*" >'$tmp/repaired'
    [ ! -e '$tmp/fails' ] || exit 4
    ;;
*) exec $PROGRAM "\$@" ;;
esac
END
chmod +x states/program
sed "s|^program=.*|program=$tmp/states/program|" "$lvm/thin_repair" >states/thin_repair
chmod +x states/thin_repair
own=$(od -An -tu8 -j320 -N16 thin-pool.img | awk '{ print $1, $2 }')
of_older='--transaction-id 5 --data-block-size 128 --nr-data-blocks 4000'
taken='thin_repair: by its superblock 5 mappings of thin-pool.img are left, and 9 in an older state, which is taken: see thin_repair(8)'
printf 'device 1 kept 5 of 5\ndevice 2 lost 9\nkeeps 1 5 need 9 shared 9\n' >told.txt
# the first one with as many devices, or else the first
cat >listed.txt <<END
roots 7 8 devices 3 mappings 30 transaction 5 time 3
roots 3 4 devices 2 mappings 9 transaction 5 time 2
roots 5 6 devices 2 mappings 8 transaction 5 time 1
keeps 3 30 need 12 shared 12
END
try 0 states/thin_repair -i thin-pool.img -o fresh.img
out
notes "$taken"
echo "thin_repair --shared -i thin-pool.img -o fresh.img --mapping-root 3 --details-root 4 $of_older" >wanted
same repaired wanted
sed 's/devices 2/devices 1/; s/mappings 30/mappings 9/' listed.txt >others.txt
mv others.txt listed.txt
try 0 states/thin_repair -i thin-pool.img -o fresh.img
notes "$taken"
echo "thin_repair --shared -i thin-pool.img -o fresh.img --mapping-root 7 --details-root 8 $of_older" >wanted
same repaired wanted
# it has no more; or it is the superblock's own; or there is none: nothing else is written
rm repaired
set -- 'thin_repair: keeps 1 of 2 devices, 5 of 14 mappings' \
    'thin_repair: what is kept of the devices that lost something:' 'device 2 lost 9'
refused="thin_repair: devices of thin-pool.img would be lost, and no older state has more: nothing is repaired without --force; see pdata_tools-lvm(8)"
for line in 'roots 3 4 devices 2 mappings 5 transaction 5 time 2' "roots $own devices 2 mappings 9 transaction 5 time 2" ''; do
    printf '%s\n' "$line" | sed '/^$/d' >listed.txt
    cp fresh.img before.img
    try 1 states/thin_repair -i thin-pool.img -o fresh.img
    out
    notes "$@" "$refused"
    same fresh.img before.img
    try 0 states/thin_repair --force -i thin-pool.img -o fresh.img
    out
    notes "$@"
    [ ! -e repaired ] || bad 'a second repair'
    try 0 thin_dump fresh.img
    same out thin-pool.txt
done
# the list breaks off: none of it is taken
echo 'roots 3 4 devices 2 mappings 9 transaction 5 time 2' >listed.txt
: >breaks
try 1 states/thin_repair -i thin-pool.img -o fresh.img
notes "$@" "$refused"
[ ! -e repaired ] || bad 'a repair by a list that broke off'
rm breaks
# its repair fails: what the superblock names is repaired with --force alone
: >fails
zeros fresh.img 1024
try 1 states/thin_repair -i thin-pool.img -o fresh.img
notes "$@" "$refused"
try 0 states/thin_repair --force -i thin-pool.img -o fresh.img
notes "$@"
try 0 thin_dump fresh.img
same out thin-pool.txt
rm fails repaired
: >listed.txt
printf 'device 2 lost 9\nkeeps 0 0 need 8 shared 8\n' >told.txt
try 1 states/thin_repair -i thin-pool.img -o fresh.img
notes 'thin_repair: keeps 0 of 1 devices, 0 of 9 mappings' \
    'thin_repair: what is kept of the devices that lost something:' 'device 2 lost 9' \
    'thin_repair: by its superblock nothing of thin-pool.img is left, and no older state was found: nothing is repaired without --force; see pdata_tools-lvm(8)'
# the details are lost, too: the first state is taken, and no empty one
echo 'keeps 0 0 need 8 shared 8' >told.txt
cat >listed.txt <<END
roots 3 4 devices 2 mappings 9 transaction 5 time 2
roots 9 8 devices 0 mappings 0 transaction 0 time 0
END
try 0 states/thin_repair -i thin-pool.img -o fresh.img
notes 'thin_repair: by its superblock 0 mappings of thin-pool.img are left, and 9 in an older state, which is taken: see thin_repair(8)'
echo "thin_repair --shared -i thin-pool.img -o fresh.img --mapping-root 3 --details-root 4 $of_older" >wanted
same repaired wanted
rm repaired
# a pool without devices
echo "roots $own devices 0 mappings 0 transaction 5 time 2" >listed.txt
try 0 states/thin_repair -i thin-pool.img -o fresh.img
notes 'thin_repair: keeps 0 of 0 devices, 0 of 0 mappings'
# nothing is damaged: an older state, with volumes that were removed, isn't looked for
: >whole
echo 'roots 3 4 devices 2 mappings 9 transaction 5 time 2' >listed.txt
try 0 states/thin_repair -i thin-pool.img -o fresh.img
notes 'thin_repair: keeps 0 of 0 devices, 0 of 0 mappings'
[ ! -e repaired ] || bad 'a search of a sound pool'
