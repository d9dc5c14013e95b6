# shellcheck shell=sh disable=SC2154,SC2034 # lib.sh sets what is used here, and reads what is set
# Writebacks of caches, and shrinks of pools

# Writebacks: a cache of two blocks, one of them dirty

small_cache
sed 's/^map 0 3 1/map 0 3 0/' dirty.txt >written.txt
cp fast.img whole.img
for version in 1 2; do
    zeros meta.img 16
    try 0 cache_restore --metadata-version $version -i dirty.txt -o meta.img
    cp meta.img dirty.img
    {
        fill '\273'
        zeros part.img 3 && cat part.img
    } >origin.img
    {
        fill '\273'
        zeros part.img 2 && cat part.img
        fill '\252'
    } >copied.img
    try 2 cache_writeback --metadata-device meta.img --fast-device fast.img
    try 0 cache_writeback --metadata-device meta.img --fast-device fast.img --origin-device origin.img
    out 'copied 1'
    notes
    same origin.img copied.img
    same fast.img whole.img
    try 0 cache_check meta.img
    out clean
    try 0 cache_dump meta.img
    same out written.txt
    # nothing is left to do
    cp meta.img before.img
    try 0 cache_writeback --origin-device origin.img --fast-device fast.img --metadata-device meta.img
    out 'copied 0'
    same meta.img before.img
    same origin.img copied.img
    # an origin, or a fast device, that is too short
    cp dirty.img meta.img
    zeros cramped.img 3
    cp cramped.img before.img
    try 4 cache_writeback --metadata-device meta.img --fast-device fast.img --origin-device cramped.img
    out
    notes 'pdata_tools: no room: need 4, blocks 3' \
        'cache_writeback: a block has 4 KiB: the fast device or the origin is shorter than the metadata says'
    same cramped.img before.img
    same meta.img dirty.img
    : >empty.img
    try 4 cache_writeback --metadata-device meta.img --fast-device empty.img --origin-device origin.img
    notes_have 'pdata_tools: no room: need 1, blocks 0'
    same meta.img dirty.img
done
# a cache that wasn't shut down: all of its blocks are copied
sed '2s/ 8 2 1 / 8 2 0 /' dirty.txt >open.txt
zeros meta.img 16
try 0 cache_restore -i open.txt -o meta.img
zeros origin.img 4
try 0 cache_writeback --metadata-device meta.img --fast-device fast.img --origin-device origin.img
out 'copied 2'
same origin.img copied.img
# blocks of six KiB, and metadata with faults
sed '2s/ 8 2 1 / 12 2 1 /' dirty.txt >odd.txt
zeros meta.img 16
try 0 cache_restore -i odd.txt -o meta.img
cp origin.img before.img
try 1 cache_writeback --metadata-device meta.img --fast-device fast.img --origin-device origin.img
out
notes 'pdata_tools: block size'
poke meta.img 200 '\377\377'
try 1 cache_writeback --metadata-device meta.img --fast-device fast.img --origin-device origin.img
notes 'fault meta 0 checksum' 'faults 1'
same origin.img before.img
for missing in metadata fast origin; do
    metadata=dirty.img fast=fast.img origin=origin.img
    eval "$missing=missing.img"
    try 5 cache_writeback --metadata-device $metadata --fast-device $fast --origin-device $origin
    notes 'pdata_tools: device fault' "cache_writeback: missing.img isn't there"
done
same origin.img before.img
# the real cache, on made-up devices
cp cache.img meta.img
zeros wide.img 6800
truncate -s 1017380864 far.img
try 0 cache_dump cache.img
sed 's/^\(map [0-9]* [0-9]*\) 1 /\1 0 /' out >clean.txt
try 0 cache_writeback --metadata-device meta.img --fast-device wide.img --origin-device far.img
out 'copied 390'
try 0 cache_check meta.img
out clean
try 0 cache_dump meta.img
same out clean.txt
rm -f far.img wide.img
same origin.img before.img

# A shrink: of four data blocks the first and the last one are used

small_pool
sed -e '2s/ 4$/ 2/' -e '4s/.*/map 0 0 2 0/' -e 5d pool.txt >smaller.txt
for byte in '\240' '\243' '\242' '\243'; do
    fill "$byte"
done >moved.img
zeros meta.img 16
try 0 thin_restore -i pool.txt -o meta.img
cp meta.img before.img
cp whole.img data.img
zeros smaller.img 16
cp smaller.img empty.img
try 2 thin_shrink -i meta.img -o smaller.img --data data.img
for number in 02 -1 two 18446744073709551616; do
    try 2 thin_shrink -i meta.img -o smaller.img --data data.img --nr-blocks $number
done
# no room: below the new end, on the data device, and on the output
room='thin_shrink: the new end, in data blocks, or else the data device or the output, in blocks of 4 KiB, has no room'
try 4 thin_shrink -i meta.img -o smaller.img --data data.img --nr-blocks 1
out
notes 'pdata_tools: no room: need 2, blocks 1' "$room"
zeros cramped.img 3
try 4 thin_shrink -i meta.img -o smaller.img --data cramped.img --nr-blocks 2
notes 'pdata_tools: no room: need 4, blocks 3' "$room"
zeros cramped.img 9
try 4 thin_shrink -i meta.img -o cramped.img --data data.img --nr-blocks 2
notes 'pdata_tools: no room: need 10, blocks 9' "$room"
for missing in input output third; do
    input=meta.img output=smaller.img third=data.img
    eval "$missing=missing.img"
    try 5 thin_shrink -i $input -o $output --data $third --nr-blocks 2
    notes 'pdata_tools: device fault' "thin_shrink: missing.img isn't there"
done
try 1 thin_shrink -i leak.img -o smaller.img --data data.img --nr-blocks 2
out
notes 'fault data 15 leak stored 1 references 0' 'faults 1'
same data.img whole.img
same smaller.img empty.img
try 0 thin_shrink --nr-blocks 2 --data data.img -o smaller.img -i meta.img
out 'moved 1'
notes
same meta.img before.img
same data.img moved.img
try 0 thin_check smaller.img
checked smaller.img
try 0 thin_dump smaller.img
same out smaller.txt
# a pool isn't made larger
try 0 thin_shrink -i meta.img -o smaller.img --data data.img --nr-blocks 9
out 'moved 0'
same data.img moved.img
try 0 thin_dump smaller.img
same out pool.txt
# a pool whose devices share a leaf, in which one block moves: with the option it stays shared, and takes a block less
sed -e 's/ 8 4$/ 8 2/' -e 's/^map 0 0 1 0$/map 0 0 2 0/' -e '/^map 1 /d' pair.txt >smaller-pair.txt
zeros pair.img 16
try 0 thin_restore -i pair.txt -o pair.img
cp whole.img data.img
zeros ten.img 10
try 4 thin_shrink -i pair.img -o ten.img --data data.img --nr-blocks 2
notes 'pdata_tools: no room: need 11, blocks 10' "$room"
same data.img whole.img
try 0 thin_shrink --shared -i pair.img -o ten.img --data data.img --nr-blocks 2
out 'moved 1'
same data.img moved.img
try 0 thin_check ten.img
checked ten.img
try 0 thin_dump --shared ten.img
same out smaller-pair.txt
# the real pool, with as many data blocks as it uses, on a made-up data device
truncate -s 262144000 wide.img
zeros fresh.img 1024
try 0 thin_shrink -i thin-pool.img -o fresh.img --data wide.img --nr-blocks 665
out 'moved 39'
try 0 thin_check fresh.img
checked fresh.img
try 0 thin_ls thin-pool.img
cp out devices.txt
try 0 thin_ls fresh.img
same out devices.txt
try 4 thin_shrink -i thin-pool.img -o fresh.img --data wide.img --nr-blocks 664
rm -f wide.img
