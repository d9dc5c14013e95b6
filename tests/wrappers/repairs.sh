# shellcheck shell=sh disable=SC2154,SC2034 # lib.sh sets what is used here, and reads what is set
# Repairs, what a dry run tells of them, and repairs of caches

# Repairs

zeros fresh.img 1024
cp leak.img before.img
try 0 thin_repair -i leak.img -o fresh.img
out
whole='thin_repair: keeps 7 of 7 devices, 1461 of 1461 mappings'
notes "$whole"
same leak.img before.img
try 0 thin_check fresh.img
checked fresh.img
try 0 thin_dump fresh.img
same out thin-pool.txt
# without the mapping tree there is no device
try 0 thin_repair --force -i damaged.img -o fresh.img
try 0 thin_check fresh.img
try 0 thin_dump fresh.img
{
    sed 2q thin-pool.txt
    echo end
} >kept.txt
same out kept.txt
# without the details tree the devices have the pool's transaction, and its time twice
try 1 thin_check details.img
out 'fault meta 184 checksum' 'faults 1'
try 0 thin_repair -i details.img -o fresh.img
try 0 thin_check fresh.img
try 0 thin_dump fresh.img
sed 's/^\(device [0-9]* [0-9]*\) .*$/\1 5 4 4/' thin-pool.txt >kept.txt
same out kept.txt
cp fresh.img before.img
try 1 thin_repair -i lost.img -o fresh.img
notes 'fault meta 0 checksum' 'faults 1'
same fresh.img before.img
try 4 thin_repair -i leak.img -o small.img
notes_have 'pdata_tools: no room: need '

# the first leaf of the first device's mappings is damaged
lose_leaf
what="the leaf $leaf below $node"
if [ "$(number_in thin-pool.img 4 $((node * 4096 + 4)))" != 1 ] || [ "$(number_in thin-pool.img 4 $((leaf * 4096 + 4)))" != 2 ]; then
    bad 'other nodes than these were wanted'
fi
try 1 thin_check leaf.img
out "fault meta $leaf checksum" 'faults 1'

# What a dry run tells is what a repair then keeps, on as many blocks and on no fewer

cp lost.img before.img
try 1 thin_repair --dry-run -i lost.img
out
notes 'fault meta 0 checksum' 'faults 1'
same lost.img before.img
for name in leak damaged details leaf; do
    cp $name.img before.img
    try 0 thin_repair --dry-run --shared -i $name.img
    mv out told.txt
    try 0 thin_repair --dry-run -i $name.img
    same out told.txt
    notes
    same $name.img before.img
    for option in '' --shared; do
        # keeps DEVICES MAPPINGS need BLOCKS shared BLOCKS
        case $option in
        '') need=$(awk '$1 == "keeps" { print $5 }' told.txt) ;;
        *) need=$(awk '$1 == "keeps" { print $7 }' told.txt) ;;
        esac
        zeros fresh.img $((need - 1))
        # shellcheck disable=SC2086 # an option that isn't there is no word
        try 4 pdata_tools thin_repair $option -i $name.img -o fresh.img
        zeros fresh.img "$need"
        # shellcheck disable=SC2086
        try 0 pdata_tools thin_repair $option -i $name.img -o fresh.img
        try 0 thin_dump fresh.img
        tells told.txt out
    done
done
# of a sound pool all is kept; without the mapping tree all devices are lost
try 0 thin_repair --dry-run -i leak.img
! awk '$1 == "device" && ($3 != "kept" || $4 != $6)' out | grep . || bad 'a device of a sound pool is not whole'
try 0 thin_repair --dry-run -i damaged.img
[ "$(grep -c '^device [0-9]* lost [0-9]*$' out)" -eq "$(grep -c '^device ' thin-pool.txt)" ] || bad 'not all devices are lost'
# with the leaf its own mappings are lost, and no others
try 0 thin_repair --dry-run -i leaf.img
awk '$1 == "device" && ($3 != "kept" || $4 != $6)' out >lines
awk -v entries="$entries" '$1 == "device" { print "device", $2, "kept", $3 - entries, "of", $3; exit }' thin-pool.txt >wanted
same lines wanted

# Two devices whose mappings are one leaf, which is written once where it stays shared

cat >shared.txt <<'END'
thin 2
pool 00000000-0000-0000-0000-000000000000 0 0 128 2
leaf 0 2
map 0 0 2 0
device 1 2 0 0 0
use 0
device 2 2 0 0 0
use 0
end
END
# without the superblock its devices are snapped after what they share
sed 's/^\(pool [^ ]*\) 0/\1 1/; s/^\(device .*\) 0$/\1 1/' shared.txt >seen.txt
zeros snapped.img 16
try 0 thin_restore -i shared.txt -o snapped.img
zeros ten.img 10
try 4 thin_repair --unshared -i snapped.img -o ten.img
notes_have 'pdata_tools: no room: need 11, blocks 10'
given='--transaction-id 0 --data-block-size 128 --nr-data-blocks 2'
for words in '' "$given" "--mapping-root $(number_in snapped.img 8 320) --details-root $(number_in snapped.img 8 328) $given"; do
    zeros ten.img 10
    # shellcheck disable=SC2086 # several words
    try 0 thin_repair --shared -i snapped.img -o ten.img $words
    case $words in
    '' | --mapping-root*) out ;;
    *) grep -q '^roots .* mappings 4 time 0$' out || bad 'other roots' ;;
    esac
    notes 'thin_repair: keeps 2 of 2 devices, 4 of 4 mappings'
    try 0 thin_check ten.img
    try 0 thin_dump --shared ten.img
    case $words in
    '') same out shared.txt ;;
    *) same out seen.txt ;;
    esac
done
# shellcheck disable=SC2086 # several words
try 0 thin_repair --dry-run -i snapped.img $given
out "roots $(roots_in snapped.img) devices 2 mappings 4 transaction 0 time 0" 'device 1 kept 2 of 2' 'device 2 kept 2 of 2' \
    'keeps 2 4 need 11 shared 10'
zeros ten.img 10
try 0 "$lvm/thin_repair" -i snapped.img -o ten.img
try 0 thin_dump --shared ten.img
same out shared.txt
zeros nine.img 9
try 1 "$lvm/thin_repair" -i snapped.img -o nine.img
notes 'thin_repair: keeps 2 of 2 devices, 4 of 4 mappings' 'pdata_tools: no room: need 10, blocks 9' \
    "thin_repair: for what is kept a volume has to be larger: repair by hand, after lvcreate -L 1M; see pdata_tools-lvm(8)"

# Caches: a sound one stays as it is, in either version; what may be dirty stays dirty

entries=$(grep -c '^map ' cache.txt)
blocks=$(sed -n '2s/^cache [^ ]* [0-9]* \([0-9]*\) .*$/\1/p' cache.txt)
dirty=$(grep -c '^map [0-9]* [0-9]* 1 ' cache.txt)
for version in '' 1 2; do
    zeros new.img 512
    try 0 cache_repair ${version:+--metadata-version $version} -i cache.img -o new.img
    out "keeps $entries of $blocks blocks, $dirty dirty, 0 unknown"
    notes
    try 0 cache_check new.img
    out clean
    try 0 cache_dump new.img
    same out cache.txt
    zeros again.img 512
    try 0 cache_restore --metadata-version "${version:-2}" -i cache.txt -o again.img
    [ -z "$version" ] || same new.img again.img
done

# Puts a node at another place of an image, too: its place is at 8, and its checksum at 0
copy_node() {
    dd if="$1" of=node bs=4096 skip="$2" count=1 2>/dev/null
    poke node 8 "$(printf '\\%03o' "$3")"
    crc=4294967295
    for byte in $(od -An -v -tu1 -j4 node); do
        crc=$((crc ^ byte))
        for _ in 1 2 3 4 5 6 7 8; do
            crc=$((crc & 1 ? crc >> 1 ^ 2197175160 : crc >> 1))
        done
    done
    crc=$((crc ^ 121107))
    poke node 0 "$(printf '\\%03o' $((crc & 255)) $((crc >> 8 & 255)) $((crc >> 16 & 255)) $((crc >> 24 & 255)))"
    dd if=node of="$1" bs=4096 seek="$3" conv=notrunc 2>/dev/null
}

# of one that wasn't shut down each entry counts as dirty
sed '2s/^\(cache [^ ]* [0-9]* [0-9]*\) 1 /\1 0 /' cache.txt >open.txt
zeros open.img 512
try 0 cache_restore -i open.txt -o open.img
zeros new.img 512
try 0 cache_repair -i open.img -o new.img
out "keeps $entries of $blocks blocks, $entries dirty, 0 unknown"
try 0 cache_dump new.img
same out open.txt
{
    printf '%s\n' 'cache 1' 'cache 00000000-0000-0000-0000-000000000000 128 600 1 736d7100000000000000000000000000 2 0 0 4'
    awk 'BEGIN { for (i = 0; i < 600; i++) print "map", i, 2 * i, i % 2, i + 1 }'
    echo end
} >halves.txt
for version in 1 2; do
    zeros halves.img 16
    try 0 cache_restore --metadata-version $version -i halves.txt -o halves.img
    # the second block of the mapping array stands behind the first one
    cp halves.img harmed.img
    poke harmed.img 8292 '\377\377'
    try 1 cache_check harmed.img
    out 'fault meta 2 checksum' 'faults 1'
    kept='keeps 509 of 600 blocks, 254 dirty, 91 unknown'
    try 0 cache_repair --dry-run -i harmed.img
    out "$kept"
    zeros new.img 16
    cp new.img before.img
    try 1 "$lvm/cache_repair" -i harmed.img -o new.img
    out
    notes 'cache_repair: the mapping of 91 of 600 cache blocks of harmed.img is lost, and with it whether they are dirty' \
        'cache_repair: of the 509 that are left 254 are dirty' \
        "cache_repair: no older mappings of more blocks are there: by hand, cache_repair keeps what is left, and files are compared; $page"
    same new.img before.img
    try 0 cache_repair -i harmed.img -o new.img
    out "$kept"
    try 0 cache_check new.img
    try 0 cache_dump new.img
    # the entries of cache blocks 509 to 599 are gone
    sed '512,602d' halves.txt >wanted
    same out wanted
    try 4 cache_repair -i halves.img -o small.img
    notes_have 'pdata_tools: no room: need '
    # the root of the mapping array stands behind its blocks, and an older one that is whole in the last block
    cp halves.img harmed.img
    copy_node harmed.img 3 15
    poke harmed.img 12388 '\377\377'
    try 0 cache_repair --dry-run -i harmed.img
    out 'keeps 0 of 600 blocks, 0 dirty, 600 unknown' 'root 15 words 600 entries 600'
    try 1 "$lvm/cache_repair" -i harmed.img -o new.img
    notes 'cache_repair: the mapping of 600 of 600 cache blocks of harmed.img is lost, and with it whether they are dirty' \
        'cache_repair: of the 0 that are left 0 are dirty' \
        "cache_repair: older mappings of more blocks are there: by hand, cache_repair --dry-run lists them, --mapping-root takes one, and files are compared; $page"
    try 0 cache_repair --dry-run --mapping-root 15 -i harmed.img
    out 'keeps 600 of 600 blocks, 300 dirty, 0 unknown'
    zeros new.img 16
    try 0 cache_repair --mapping-root 15 -i harmed.img -o new.img
    out 'keeps 600 of 600 blocks, 300 dirty, 0 unknown'
    try 0 cache_dump new.img
    same out halves.txt
done
poke harmed.img 200 '\377\377'
cp new.img before.img
try 1 cache_repair -i harmed.img -o new.img
notes 'fault meta 0 checksum' 'faults 1'
same new.img before.img
try 1 "$lvm/cache_repair" -i harmed.img -o new.img
notes 'fault meta 0 checksum' 'faults 1' \
    "cache_repair: the superblock of harmed.img has faults, so nothing says what the cache held; see pdata_tools-lvm(8)"
zeros new.img 512
try 0 "$lvm/cache_repair" -i cache.img -o new.img
out "keeps $entries of $blocks blocks, $dirty dirty, 0 unknown"
try 0 cache_dump new.img
same out cache.txt
try 2 cache_repair --metadata-version 3 -i cache.img -o new.img
