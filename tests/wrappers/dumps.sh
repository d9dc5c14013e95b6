# shellcheck shell=sh disable=SC2154,SC2034 # lib.sh sets what is used here, and reads what is set
# Dumps and restores

for kind in thin cache era; do
    name=$kind
    [ $kind != thin ] || name=thin-pool
    try 0 ${kind}_dump $name.img
    same out $name.txt
    notes
    try 0 ${kind}_dump -o dumped.txt $name.img
    out
    same dumped.txt $name.txt
    try 6 ${kind}_dump -o missing/dumped.txt $name.img
    notes 'pdata_tools: source or sink fault' "${kind}_dump: the folder missing/ isn't there"
    try 6 ${kind}_dump -o "$here" $name.img
    notes 'pdata_tools: source or sink fault' "${kind}_dump: $here is a folder"
    zeros new.img 1024
    try 0 ${kind}_restore -i $name.txt -o new.img
    out
    notes
    try 0 ${kind}_check new.img
    checked new.img
    try 0 ${kind}_dump new.img
    same out $name.txt
    try 4 ${kind}_restore -i $name.txt -o small.img
    out
    notes_have 'pdata_tools: no room: need '
    notes_have ', blocks 2'
    notes_have "${kind}_restore: a block has 4 KiB: "
    try 5 ${kind}_restore -i $name.txt -o missing.img
    notes 'pdata_tools: device fault' "${kind}_restore: missing.img isn't there"
    try 5 ${kind}_restore -i $name.txt -o "$here"
    notes 'pdata_tools: device fault' "${kind}_restore: $here is a folder"
    try 6 ${kind}_restore -i missing.txt -o new.img
    notes 'pdata_tools: source or sink fault' "${kind}_restore: missing.txt isn't there"
    echo "$kind 7" >refused.txt
    cp new.img before.img
    try 3 ${kind}_restore -i refused.txt -o new.img
    notes 'pdata_tools: line 1: header'
    same new.img before.img
done
sed '4s/^map \([0-9]*\) \([0-9]*\) [0-9]* /map \1 \2 0 /' thin-pool.txt >refused.txt
zeros new.img 1024
try 3 thin_restore -i refused.txt -o new.img
notes 'pdata_tools: line 4: out of range'
for version in 1 2; do
    zeros new.img 512
    try 0 cache_restore --metadata-version $version -i cache.txt -o new.img
    try 0 cache_check new.img
    try 0 cache_dump new.img
    same out cache.txt
done
try 0 thin_dump -o leak.txt leak.img
same leak.txt thin-pool.txt
try 0 thin_dump --shared -o leak.txt leak.img
zeros new.img 1024
try 0 thin_restore -i leak.txt -o new.img
try 0 thin_check new.img
checked new.img
# with its shared leaves told once, a pool has the same mappings
try 0 thin_dump --shared -o shared.txt thin-pool.img
[ "$(sed -n 1p shared.txt)" = 'thin 2' ] || bad 'not version 2'
same leak.txt shared.txt
spread() {
    awk '$1 == "leaf" { leaf = $2; device = "" } $1 == "device" { device = $2; print }
        $1 == "map" { for (i = 0; i < $4; i++) {
            line = "map " $2 + i " " $3 + i " " $5 "\n"
            if (device == "") leaves[leaf] = leaves[leaf] line; else printf "%s", line } }
        $1 == "use" { printf "%s", leaves[$2] }' "$1"
}
spread thin-pool.txt >spread.txt
spread shared.txt >spread-shared.txt
same spread-shared.txt spread.txt
try 2 cache_dump --shared cache.img
# what is restored of it is the same pool; these devices share data blocks, and no leaf
zeros new.img 1024
try 0 thin_restore -i shared.txt -o new.img
try 0 thin_check new.img
checked new.img
try 0 thin_dump new.img
same out thin-pool.txt
# six devices that share two full leaves, one of them with mappings of its own besides
{
    printf '%s\n' 'thin 2' 'pool 00000000-0000-0000-0000-000000000000 0 0 128 600' 'leaf 0 252' 'map 0 0 252 0' \
        'leaf 1 252' 'map 252 252 252 0' 'device 0 600 0 0 0' 'use 0' 'use 1' 'map 1000 504 96 0'
    for device in 1 2 3 4 5; do
        printf '%s\n' "device $device 504 0 0 0" 'use 0' 'use 1'
    done
    echo end
} >shared.txt
spread shared.txt >spread-shared.txt
zeros new.img 1024
try 0 thin_restore -i shared.txt -o new.img
out
notes
try 0 thin_check new.img
checked new.img
try 0 thin_dump --shared new.img
same out shared.txt
try 0 thin_dump -o apart.txt new.img
[ "$(sed -n 1p apart.txt)" = 'thin 1' ] || bad 'not version 1'
spread apart.txt >spread.txt
same spread-shared.txt spread.txt
# the superblock, the two leaves, a leaf of the first device's own, a node above the leaves for each device, two trees of devices,
# three blocks for the map of the data, and three for that of the metadata
used() {
    od -A n -t u8 -j 200 -N 8 "$1" | tr -d ' '
}
[ "$(used new.img)" = 18 ] || bad 'not 18'
zeros new.img 1024
try 0 thin_restore -i apart.txt -o new.img
try 0 thin_dump new.img
same out apart.txt
[ "$(used new.img)" = 30 ] || bad 'not 30'
zeros small.img 17
try 4 thin_restore -i shared.txt -o small.img
out
notes 'pdata_tools: no room: need 18, blocks 17' \
    'thin_restore: a block has 4 KiB: at least 18 blocks are needed, lvcreate -L 1M; the rest of the text may need more'
# a number of mappings that no leaf has, a leaf that no device uses, and the second version of no other text
sed '3s/^leaf 0 .*/leaf 0 253/' shared.txt >refused.txt
zeros new.img 1024
try 3 thin_restore -i refused.txt -o new.img
notes 'pdata_tools: line 3: out of range'
printf '%s\n' 'thin 2' 'pool 00000000-0000-0000-0000-000000000000 0 0 128 1' 'leaf 0 1' 'map 0 0 1 0' end >refused.txt
try 3 thin_restore -i refused.txt -o new.img
out
notes 'pdata_tools: line 5: unused'
sed '1s/.*/thin 1/' shared.txt >refused.txt
try 3 thin_restore -i refused.txt -o new.img
notes 'pdata_tools: line 3: word'
cp new.img before.img
for kind in cache era; do
    sed "1s/.*/$kind 2/" $kind.txt >refused.txt
    try 3 ${kind}_restore -i refused.txt -o new.img
    notes 'pdata_tools: line 1: header'
    same new.img before.img
done
# a data block far out: the counts of all before it take blocks of their own
printf '%s\n' 'thin 1' 'pool 00000000-0000-0000-0000-000000000000 0 0 128 100000000' 'device 1 1 0 0 0' \
    'map 0 99999999 1 0' end >far.txt
zeros new.img 8192
try 0 thin_restore -i far.txt -o new.img
out
notes
what='the blocks that are used'
[ "$(used new.img)" = 6174 ] || bad 'not 6174'
try 0 thin_check new.img
checked new.img
try 0 thin_dump new.img
same out far.txt
