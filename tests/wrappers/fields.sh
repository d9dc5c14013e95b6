# shellcheck shell=sh disable=SC2154,SC2034 # lib.sh sets what is used here, and reads what is set
# The fields of thin_ls: what thin-provisioning-tools 1.1.0 print of these pools (with a stroke at the end of each line here), and what
# is refused

# A pool with data blocks of so many sectors, and devices that map so many blocks each, as in 128:1:127
make_listed() {
    printf '%s\n' "$1" | awk -F: '{
        print "thin 1"
        print "pool 00000000-0000-0000-0000-000000000000 0 0", $1, 4000
        for (i = 2; i <= NF; i++) {
            print "device", i - 1, $i, 0, 0, 0
            if ($i > 0) print "map", 0, data, $i, 0
            data += $i
        }
        print "end"
    }' data=0 >listed.txt
    zeros listed.img 64
    pdata_tools thin_restore -i listed.txt -o listed.img
}
cp thin-pool.img listed.img
# the calls, and a file for what each of them prints
awk '/^= / { if (number++) close(file); file = "recorded-" number; print substr($0, 3); printf "" >file; next }
    { sub(/\|$/, ""); print >file }' "$here/tests/wrappers/fields.txt" >calls
number=0
while read -r pool words; do
    number=$((number + 1))
    [ "$pool" = thin-pool ] || make_listed "$pool"
    # shellcheck disable=SC2086 # several words
    try 0 thin_ls $words listed.img
    notes
    mv out kept
    same kept "recorded-$number"
    # shellcheck disable=SC2086 # several words
    try 0 thin_ls listed.img --quiet $words
    same out "recorded-$number"
done <calls
what='the calls of fields.txt'
[ "$number" -ge 10 ] || bad "only $number"

# A file for what is printed
cp thin-pool.img listed.img
try 0 thin_ls --format DEV,TRANSACTION -o fields.txt listed.img
out
notes
try 0 thin_ls --no-headers -o DEV listed.img
mv out kept
try 0 thin_ls --no-headers --format=DEV -o DEV listed.img
out
same DEV kept
sed -n 's/^ *\([0-9][0-9]*\) .*/\1/p' fields.txt >wanted
sed 's/ //g' kept | diff - wanted >differs || bad "$(cat differs)"
# a list without fields is as it was, and so is its file, also where its name could be that of a field
try 0 thin_ls listed.img
mv out kept
try 0 pdata_tools thin_ls listed.img
same out kept
for name in list.txt ./DEV "$tmp/MAPPED"; do
    try 0 thin_ls -o "$name" listed.img
    out
    same "$name" kept
done
# a pool with faults, and without devices
try 1 thin_ls -o DEV damaged.img
out
notes 'fault meta 183 checksum' 'faults 1'
rm DEV
try 1 thin_ls --format DEV -o DEV damaged.img
[ ! -e DEV ] || bad 'the file is there'
make_listed 128
try 0 thin_ls -o DEV,MAPPED listed.img
out 'DEV MAPPED '
try 0 thin_ls --no-headers listed.img
out

# What is refused
for field in HIGHEST_BLOCK HIGHEST_SECTOR HIGHEST_BYTE HIGHEST_MAPPED DEVICE ''; do
    try 2 thin_ls -o "DEV,$field" thin-pool.img
    out
    notes_have "thin_ls: '$field' is none of the fields, which thin_ls(8) names"
    try 2 thin_ls --no-headers --format "$field,DEV" thin-pool.img
done
try 2 thin_ls -o DEV
notes_have 'thin_ls: DEVICE is wanted'
try 2 thin_ls --no-headers --no-headers thin-pool.img
notes_have 'thin_ls: --no-headers comes twice'
try 2 thin_ls --format DEV --format=DEV thin-pool.img
notes_have 'thin_ls: --format comes twice'
try 2 thin_ls --format '' thin-pool.img
notes_have 'thin_ls: --format has no value: FIELDS is wanted'
try 2 thin_ls -o DEV thin-pool.img leak.img
notes_have 'thin_ls: leak.img is one name too many'
for word in --no-headers --format=DEV; do
    try 2 thin_dump $word thin-pool.img
    notes_have "thin_dump: ${word%%=*} is none of its words"
done
try 2 pdata_tools thin_ls --no-headers thin-pool.img
try 5 thin_ls -o DEV missing.img
notes 'pdata_tools: device fault' "thin_ls: missing.img isn't there"
# where it can't be printed
try 6 thin_ls --format DEV -o missing/fields.txt thin-pool.img
notes "thin_ls: the fields couldn't be printed" "thin_ls: the folder missing/ isn't there"
if [ -c /dev/full ]; then
    try 6 sh -c 'thin_ls -o DEV thin-pool.img >/dev/full'
    notes "thin_ls: the fields couldn't be printed"
fi
try 0 sh -c 'thin_ls --no-headers thin-pool.img | true'
notes
