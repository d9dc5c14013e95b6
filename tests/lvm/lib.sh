# shellcheck shell=sh
# What the scenarios share; README.md says what they want of the machine.
say() { echo "## $*"; }
is() {
    what=$1
    shift
    if "$@"; then echo "CHECK ok $what"; else echo "CHECK BAD $what"; fi
}
isnt() {
    what=$1
    shift
    if "$@"; then echo "CHECK BAD $what"; else echo "CHECK ok $what"; fi
}
# A command, with what it says and its status; what it said stays in /tmp/said
L() {
    echo "\$ $*"
    "$@" >/tmp/said 2>&1 </dev/null
    rc=$?
    grep -v '^File descriptor' /tmp/said
    echo "   -> $rc"
    return $rc
}
said() { grep -qE -- "$1" /tmp/said; }
# The commands of a page, as they stand there: PAGE, a word of their block, and what sed changes in it. Questions get a y.
page() {
    awk -v word="$2" '/^\.Ed/ { if (index(block, word)) printf "%s", block; on = 0 }
        on { block = block $0 "\n" }
        /^\.Bd/ { on = 1; block = "" }' "/usr/local/share/man/man8/$1.8" | sed -e 's/\\e/\\/g; s/\\&//g' -e "${3-}" >/tmp/commands
    is "$1(8) has such commands" [ -s /tmp/commands ]
    (cd /tmp && yes | sh -ex /tmp/commands) >/tmp/said 2>&1
    rc=$?
    grep -v '^File descriptor' /tmp/said
    echo "   -> $rc"
}
# What is at /dev/vdc, written to a volume, and whether it is there: DEVICE TO COUNT FROM, in MiB
wr() { dd if=/dev/vdc of="$1" bs=1M seek="$2" count="$3" skip="$4" oflag=direct conv=notrunc 2>/dev/null; }
sum() { dd if="$1" bs=1M skip="$2" count="$3" 2>/dev/null | sha256sum; }
same() { [ "$(sum "$1" "$2" "$3")" = "$(sum /dev/vdc "$4" "$3")" ]; }
# A device that may be written, at the place of an inactive volume of vg, to do harm to it
harm() {
    lvchange -ay -y "vg/$1" >/dev/null 2>&1
    place=$(dmsetup table "vg-$1")
    lvchange -an "vg/$1" >/dev/null 2>&1
    dmsetup create harm --table "$place"
}
unharm() { dmsetup remove --retry harm; }
# The number of eight bytes at a byte of a device
number_at() { od -An -tu8 -j"$2" -N8 "$1" | tr -d ' '; }
# Four bytes of a number, written to a byte of a device
put_at() {
    # shellcheck disable=SC2059 # it makes the bytes
    printf "$(printf '\\%03o' $(($3 & 255)) $(($3 >> 8 & 255)) $(($3 >> 16 & 255)) $(($3 >> 24 & 255)))" |
        dd of="$1" bs=1 seek="$2" conv=notrunc 2>/dev/null
}
# Sets a flag of a superblock, and makes its checksum: DEVICE FLAG, and the number that is in each checksum of such superblocks
set_flag() {
    put_at "$1" 4 $(($(od -An -tu4 -j4 -N4 "$1") | $2))
    crc=4294967295
    for byte in $(od -An -v -tu1 -j4 -N4092 "$1"); do
        crc=$((crc ^ byte))
        for _ in 1 2 3 4 5 6 7 8; do
            crc=$((crc & 1 ? crc >> 1 ^ 2197175160 : crc >> 1))
        done
    done
    put_at "$1" 0 $((crc ^ $3))
    sync
}
# The flag "needs check" of a pool and of a cache
flag_pool() { set_flag "$1" 1 160774; }
flag_cache() { set_flag "$1" 2 9031977; }
# How many blocks of the cached volume vg/main are dirty
dirty() { dmsetup status vg-main | cut -d ' ' -f 14; }
# Blocks of vg/main that are in the cache and newer there: 40 MiB from /dev/vdc's tenth MiB on
make_dirty() {
    for _ in 1 2 3; do wr /dev/vg/main 0 40 0; done
    L dmsetup message vg-main 0 migration_threshold 0
    wr /dev/vg/main 0 40 10
    dmsetup status vg-main
    is 'blocks are dirty' [ "$(dirty)" -gt 0 ]
}
reset_now() {
    say reset
    sleep 1
    echo b >/proc/sysrq-trigger
    sleep 60
}
# Gives LVM these notes of the group instead of its own
notes() { L lvm vgcfgrestore --force -f "$1" vg; }
# The commands of pdata_tools(8) over the volume t1; LVM's other names are those of `lvm`, and diff ends with 1 where it finds something
of_page() { page pdata_tools "$1" "s|vg/volume|vg/t1|; s/128M/4M/; s/^vgcfg/lvm &/; s/^diff.*/& || :/; ${2-}"; }
# A pool with the transaction 3 and three volumes, and then with 5 and two more: the notes of both times are in /tmp/n3 and /tmp/n5, and the
# older metadata in /tmp/m3
make_pool() {
    L vgcreate vg /dev/vda
    L lvcreate -y --type thin-pool -L 256M --poolmetadatasize 4M -Zn -n pool vg
    for volume in t1 t2 t3; do
        L lvcreate -y -V 64M -T vg/pool -n $volume
    done
    wr /dev/vg/t1 0 20 0
    L vgchange -an vg
    L lvm vgcfgbackup -f /tmp/n3 vg
    harm pool_tmeta
    dd if=/dev/mapper/harm of=/tmp/m3 bs=1M 2>/dev/null
    unharm
    L vgchange -ay vg
    for volume in t4 t5; do
        L lvcreate -y -V 64M -T vg/pool -n $volume
    done
    wr /dev/vg/t4 0 20 20
    L vgchange -an vg
    L lvm vgcfgbackup -f /tmp/n5 vg
}
# Whether LVM refuses the pool, and says these transactions
refused() {
    L lvchange -ay vg/t1
    isnt 'the pool is refused' [ "$rc" = 0 ]
    is "it says $1" said "transaction_id is $1"
    L vgchange -an vg
}
# Whether the last command went well, and t1 is as it was written
right() {
    is 'it is done' [ "$rc" = 0 ]
    is 't1 reads what it read' same /dev/vg/t1 0 20 0
}
# A new volume has no data of an older one
new_is_empty() {
    L lvcreate -y -V 64M -T vg/pool -n "$1"
    is 'a volume is made' [ "$rc" = 0 ]
    is 'it is empty' [ "$(dd if="/dev/vg/$1" bs=1M count=20 2>/dev/null | tr -d '\000' | wc -c)" = 0 ]
    L vgchange -an vg
    L lvchange -ay "vg/$1"
    is 'it is activated again' [ "$rc" = 0 ]
    L vgchange -an vg
}
