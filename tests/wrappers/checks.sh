# shellcheck shell=sh disable=SC2154,SC2034 # lib.sh sets what is used here, and reads what is set
# Checks, queries, the generator and the rehearsal

# Checks

for kind in thin cache era; do
    image=$kind.img
    [ $kind != thin ] || image=thin-pool.img
    try 0 pdata_tools ${kind}_check $image
    out clean
    try 0 ${kind}_check $image
    checked $image
    notes
    for stage in super walk order whole counts; do
        try 0 ${kind}_check --until $stage $image
        checked $image
    done
    try 5 ${kind}_check missing.img
    out
    notes 'pdata_tools: device fault' "${kind}_check: missing.img isn't there"
    try 5 pdata_tools ${kind}_check missing.img
    notes 'pdata_tools: device fault'
    cp $image lost.img
    poke lost.img 200 '\377\377'
    try 1 ${kind}_check lost.img
    out 'fault meta 0 checksum' 'faults 1'
    try 1 ${kind}_dump lost.img
    out
    notes 'fault meta 0 checksum' 'faults 1'
done

# the superblock of another kind, and block 0 after a restore that was stopped
for tool in cache_check era_check; do
    try 1 $tool thin-pool.img
    out 'fault meta 0 checksum' 'faults 1'
done
try 1 thin_check cache.img
out 'fault meta 0 checksum' 'faults 1'
cp thin-pool.img lost.img
dd if=/dev/zero of=lost.img bs=4096 count=1 conv=notrunc 2>/dev/null
try 1 thin_check lost.img
out 'fault meta 0 checksum' 'faults 1'

# a data block that is allocated and not used, and one whose count is too low
try 1 thin_check leak.img
out 'fault data 15 leak stored 1 references 0' 'faults 1'
notes
try 0 thin_check --until whole leak.img
checked leak.img
try 0 thin_check --ignore-non-fatal-errors leak.img
checked leak.img 'fault data 15 leak stored 1 references 0' 'faults 1'
notes
try 0 pdata_tools thin_check --until counts --ignore-non-fatal-errors leak.img
try 1 thin_check short.img
out 'fault data 10 short stored 0 references 1' 'faults 1'
try 1 thin_check --ignore-non-fatal-errors short.img
out 'fault data 10 short stored 0 references 1' 'faults 1'
try 0 cache_check --ignore-non-fatal-errors cache.img
try 0 era_check --ignore-non-fatal-errors era.img

# the root of the mapping tree is damaged
try 1 thin_check damaged.img
out 'fault meta 183 checksum' 'faults 1'
try 1 thin_check --until walk damaged.img
try 0 thin_check --until super damaged.img

# little address space: the system may not start it, and no signal ends it
# shellcheck disable=SC3045 # a shell without such limits is skipped
if (ulimit -v 1048576) 2>/dev/null; then
    # (the program itself takes some 2900 KiB: around that, in small steps)
    for limit in 2800 $(seq 2864 8 2984) 3000 3200 3500 3800 4100 4400 4700 5000 6000; do
        what="a check with $limit KiB of address space"
        tries=$((tries + 1))
        (ulimit -v "$limit" && exec pdata_tools thin_check thin-pool.img) >out 2>notes
        got=$?
        case $got in
        0 | 7 | 127) ;;
        *) bad "status $got" ;;
        esac
    done
else
    skip 'little address space, as the shell has no such limit'
fi

# the flag "needs check", which is cleared where nothing was found, or leaks alone that pass
cp set.img flag.img
try 0 thin_check flag.img
same flag.img set.img
try 0 thin_check --clear-needs-check-flag flag.img
checked flag.img
same flag.img thin-pool.img
cp leak.img before.img
try 1 thin_check --clear-needs-check-flag leak.img
same leak.img before.img
try 0 thin_check --clear-needs-check-flag --ignore-non-fatal-errors leak.img
same leak.img before.img
cp cache.img before.img
try 0 cache_check --clear-needs-check-flag cache.img
out clean
same cache.img before.img

# Queries

try 0 thin_ls thin-pool.img
out 'device 0 mapped 310 exclusive 0 shared 310 transaction 0 created 0 snapped 3' \
    'device 1 mapped 269 exclusive 98 shared 171 transaction 0 created 0 snapped 4' \
    'device 3 mapped 355 exclusive 40 shared 315 transaction 1 created 2 snapped 2' \
    'device 4 mapped 350 exclusive 0 shared 350 transaction 1 created 3 snapped 3' \
    'device 5 mapped 177 exclusive 6 shared 171 transaction 1 created 4 snapped 4' \
    'device 7 mapped 0 exclusive 0 shared 0 transaction 5 created 4 snapped 4' \
    'device 16777215 mapped 0 exclusive 0 shared 0 transaction 0 created 0 snapped 0'
cp out listed.txt
try 0 thin_ls -o answer.txt thin-pool.img
out
same answer.txt listed.txt
try 0 thin_rmap --region 100..102 thin-pool.img
out 'block 100 device 3 virtual 100' 'block 101 device 0 virtual 101' 'block 101 device 3 virtual 101' \
    'block 101 device 4 virtual 101'
try 0 thin_rmap --region 100..100 thin-pool.img
out
try 1 thin_rmap --region 100..102 damaged.img
out
notes 'fault meta 183 checksum' 'faults 1'
try 0 era_invalidate --written-since 5 era.img
out 'written 10 5' 'written 1017 3'
try 0 era_invalidate --written-since 7 era.img
out

# The generator and the rehearsal

try 0 thin_generate --number 1 -o generated.txt
try 0 thin_generate --number 1
same out generated.txt
what='the lines of the generated text'
[ "$(wc -l <generated.txt | tr -d ' ')" = 2005 ] || bad 'not 2005'
zeros spare.img 64
try 0 thin_rehearse --number 1 -o spare.img
out 'rehearsal 1 used 19 mappings 2000 lines 2005 clean'
try 0 thin_check spare.img
try 0 thin_dump spare.img
same out generated.txt
try 0 thin_ls spare.img
out 'device 0 mapped 1000 exclusive 5 shared 995 transaction 0 created 0 snapped 1' \
    'device 1 mapped 1000 exclusive 5 shared 995 transaction 1 created 1 snapped 1'
zeros spare.img 4096
try 0 thin_rehearse --number 100 -o spare.img
out 'rehearsal 100 used 870 mappings 200000 lines 200005 clean'
zeros spare.img 869
try 4 thin_rehearse --number 100 -o spare.img
out
notes 'pdata_tools: no room: need 870, blocks 869' \
    'thin_rehearse: a block has 4 KiB: 870 blocks are the least that fits, lvcreate -L 4M'
