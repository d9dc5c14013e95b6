# shellcheck shell=sh disable=SC2154,SC2034 # lib.sh sets what is used here, and reads what is set
# Repairs without the superblock: searches, the states that they choose from, and roots that are named

whole='thin_repair: keeps 7 of 7 devices, 1461 of 1461 mappings'
lose_leaf

# Searches, in which block 0 isn't looked at: the kernel left older trees with more mappings, in which device 2 wasn't deleted
# yet, and device 7 still had two; the last state is found, with all its devices

search() {
    wanted=$1 from=$2 blocks=$3
    try "$wanted" thin_repair -i "$from" -o fresh.img --transaction-id 5 --data-block-size 128 --nr-data-blocks "$blocks"
}
cp lost.img before.img
zeros fresh.img 1024
search 0 lost.img 4000
out 'roots 183 184 mappings 1461 time 4'
notes "$whole"
same lost.img before.img
try 0 thin_check fresh.img
checked fresh.img
try 0 thin_dump fresh.img
same out thin-pool.txt
cp fresh.img before.img
search 1 era.img 4000
out
notes 'pdata_tools: no roots'
same fresh.img before.img
try 4 thin_repair -i lost.img -o small.img --transaction-id 5 --data-block-size 128 --nr-data-blocks 4000
notes_have 'pdata_tools: no room: need '
for sectors in 0 8 100 2097280; do
    try 1 thin_repair -i era.img -o fresh.img --transaction-id 5 --data-block-size $sectors --nr-data-blocks 4000
    notes_have "thin_repair: no kernel has data blocks of $sectors sectors: the number is 128 to 2097152, and a multiple of 128"
done
try 2 thin_repair -i lost.img -o fresh.img --transaction-id 5 --data-block-size 128
notes_have 'usage: thin_repair [--shared] -i DEVICE -o DEVICE'
same fresh.img before.img

# The states that a search chooses from, the best first. A repair from the roots of the first one makes what the search makes, and a
# dry run with these roots tells what that is

given='--transaction-id 5 --data-block-size 128 --nr-data-blocks 4000'
# These two roots, as words
roots_at() {
    printf '%s' "--mapping-root $1 --details-root $2"
}
# shellcheck disable=SC2086 # several words
for name in lost leak damaged details leaf; do
    zeros fresh.img 1024
    search 0 $name.img 4000
    mv out found.txt
    try 0 thin_dump fresh.img
    mv out dumped.txt
    cp $name.img before.img
    try 0 thin_repair --dry-run -i $name.img $given
    notes
    mv out listed.txt
    try 0 thin_repair --dry-run --shared -i $name.img $given
    same out listed.txt
    sed -n '1s/ devices [0-9]* mappings \([0-9]*\) transaction [0-9]* / mappings \1 /p' listed.txt >lines
    same lines found.txt
    grep -v -e '^roots ' -e '^damaged ' -e '^more ' listed.txt >told.txt
    tells told.txt dumped.txt
    ! grep -E ' lost | of \?$' told.txt || bad 'something of the first state is lost'
    # each mapping tree once, whole or damaged, 100 of a kind at most, the whole ones first, and of each kind the latest first
    ! grep -E '^(roots|damaged) ' listed.txt | cut -d ' ' -f 2 | sort | uniq -d | grep . || bad 'a mapping tree stands twice'
    awk '$1 == "damaged" { damaged = 1 } damaged && $1 == "roots" { exit 1 }' listed.txt || bad 'a whole state stands behind a damaged one'
    for kind in damaged roots; do
        grep "^$kind " listed.txt >states.txt
        [ "$(wc -l <states.txt)" -le 100 ] || bad 'too many states'
        awk 'NR > 1 && ($11 > time || ($11 == time && $9 > transaction)) { exit 1 } { time = $11; transaction = $9 }' states.txt ||
            bad 'no order'
    done
    read -r _ top details _ <states.txt
    roots=$(roots_at "$top" "$details")
    try 0 thin_repair --dry-run -i $name.img $roots $given
    same out told.txt
    notes
    for option in '' --shared; do
        zeros fresh.img 1024
        try 0 pdata_tools thin_repair $option -i $name.img -o fresh.img $roots $given
        out
        notes
        try 0 thin_check fresh.img
        try 0 thin_dump fresh.img
        same out dumped.txt
    done
    same $name.img before.img
done
# shellcheck disable=SC2086
try 1 thin_repair --dry-run -i era.img $given
out
notes 'pdata_tools: no roots'
# each state can be taken; the kernel left at least another one behind
# shellcheck disable=SC2086
try 0 thin_repair --dry-run -i lost.img $given
grep '^roots ' out >states.txt
[ "$(wc -l <states.txt)" -gt 1 ] || bad 'there is no other state'
# shellcheck disable=SC2046,SC2086
while read -r _ top details _ devices _ mappings _; do
    try 0 thin_repair --dry-run -i lost.img $(roots_at "$top" "$details") $given
    grep -q "^keeps $devices $mappings need " out || bad 'another state'
done <states.txt
sed 1d states.txt >others.txt
read -r _ top details _ <others.txt
roots=$(roots_at "$top" "$details")
# shellcheck disable=SC2086
try 0 thin_repair --dry-run -i lost.img $roots $given
mv out told.txt
# shellcheck disable=SC2086
try 0 thin_repair --shared -i lost.img -o fresh.img $roots $given
try 0 thin_check fresh.img
try 0 thin_dump fresh.img
tells told.txt out

# Roots that are named: nothing is searched, and what stands below them is saved, whatever is damaged there

# shellcheck disable=SC2046,SC2086 # several words
for name in leak damaged details leaf; do
    roots=$(roots_at $(roots_in $name.img))
    try 0 thin_repair --dry-run -i $name.img
    mv out told.txt
    try 0 thin_repair --dry-run -i $name.img $roots $given
    same out told.txt
    # a damaged state is listed as one, if the root of its mappings is there, and they are damaged below it
    try 0 thin_repair --dry-run -i $name.img $given
    case $name in
    leak) grep -q "^roots $(roots_in $name.img) " out || bad "it isn't listed" ;;
    *) ! grep -q "^roots $(roots_in $name.img) " out || bad 'it is listed as a whole one' ;;
    esac
    case $name in
    leaf) grep -q "^damaged $(number_in leaf.img 8 320) " out || bad "it isn't listed as a damaged one" ;;
    *) ! grep -q "^damaged $(number_in $name.img 8 320) " out || bad 'it is listed as a damaged one' ;;
    esac
    zeros fresh.img 1024
    try 0 pdata_tools thin_repair -i $name.img -o fresh.img
    try 0 thin_dump fresh.img
    case $name in
    leak | leaf) mv out kept.txt ;;
    # nothing that is saved has a time
    damaged) sed '2s/ [0-9]* \(5 128 4000\)$/ 0 \1/' out >kept.txt ;;
    # without details a device gets one time more than the latest one of a mapping
    details)
        latest=$(awk '$1 == "map" && $5 > time { time = $5 } END { print time + 1 }' thin-pool.txt)
        sed -e "2s/ [0-9]* \(5 128 4000\)$/ $latest \1/" -e "s/^\(device [0-9]* [0-9]*\) .*$/\1 5 $latest $latest/" out >kept.txt
        ;;
    esac
    for option in '' --shared; do
        zeros fresh.img 1024
        try 0 pdata_tools thin_repair $option -i $name.img -o fresh.img $roots $given
        out
        notes
        try 0 thin_check fresh.img
        try 0 thin_dump fresh.img
        same out kept.txt
    done
done
# block 0 isn't looked at: it is zeros
cp leaf.img lost-leaf.img
dd if=/dev/zero of=lost-leaf.img bs=4096 count=1 conv=notrunc 2>/dev/null
# shellcheck disable=SC2086
try 0 pdata_tools thin_repair --shared -i lost-leaf.img -o fresh.img $roots $given
out
notes
try 0 thin_dump fresh.img
same out kept.txt
# roots that are no block of the metadata give nothing, and neither does an image without a block
: >none.img
{
    sed '2s/ [0-9]* \(5 128 4000\)$/ 0 \1/; 2q' thin-pool.txt
    echo end
} >kept.txt
for root in 0 $(($(wc -c <lost.img) / 4096)) 18446744073709551615; do
    for image in lost none; do
        # shellcheck disable=SC2046,SC2086
        try 0 thin_repair --dry-run -i $image.img $(roots_at $root $root) $given
        sed -n 's/^keeps 0 0 need \([0-9]*\) shared [0-9]*$/\1/p' out >lines
        if [ "$(wc -l <out)" -ne 1 ] || [ ! -s lines ]; then
            bad 'something is kept'
        fi
        zeros fresh.img "$(cat lines)"
        # shellcheck disable=SC2046,SC2086
        try 0 pdata_tools thin_repair -i $image.img -o fresh.img $(roots_at $root $root) $given
        try 0 thin_dump fresh.img
        same out kept.txt
    done
done
# no room; and what isn't all of the words
cp fresh.img before.img
# shellcheck disable=SC2086
try 4 thin_repair -i lost.img -o small.img $roots $given
out
notes_have 'pdata_tools: no room: need '
for option in --mapping-root --details-root --transaction-id --data-block-size --nr-data-blocks; do
    words=$(printf '%s\n' "$roots $given" | sed "s/$option [0-9]*//")
    # shellcheck disable=SC2086
    try 2 thin_repair -i lost.img -o fresh.img $words
    # shellcheck disable=SC2086
    try 2 thin_repair --dry-run -i lost.img $words
    out
done
# shellcheck disable=SC2086
try 2 thin_repair --dry-run -i lost.img -o fresh.img $roots $given
# shellcheck disable=SC2086
try 2 thin_repair --dry-run -i lost.img --mapping-root 18446744073709551616 --details-root 1 $given
same fresh.img before.img
