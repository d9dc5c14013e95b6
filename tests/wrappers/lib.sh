# shellcheck shell=sh disable=SC2034 # the files of this folder use what is set here
# What the files of this folder have: tests/wrappers.sh reads this first, and then each file in a folder of its own, $tmp. There
# it has these files, and may change them:
#
#   thin-pool.img cache.img era.img        the examples, and their texts thin-pool.txt, cache.txt and era.txt
#   leak.img short.img                     the pool, with a data block that is allocated and not used; with a count that is too low
#   lost.img damaged.img details.img       the pool, with a damaged superblock; mapping tree's root; details tree's root
#   set.img set-cache.img                  the pool and the cache, sound, with the flag "needs check"
#   small.img new.img fresh.img            zeros: 2 blocks, 1024 blocks, 1024 blocks
#   full/df                                for the front of the path: a file system that has no room
#
# The installation that is tried is below $prefix, and its commands are on the path; those for LVM are in $lvm. $tools are the
# names of the tools, and $table is the file that has their words. $forms has those that the commands alone take, and $sizes are the
# commands that run no program.
set -u
LC_ALL=C
export LC_ALL

PROGRAM=${PROGRAM-$here/crates/pdata_tools/out/pdata_tools}
export PROGRAM
DESTDIR=''
export DESTDIR

skip() {
    printf 'wrappers: skipped: %s\n' "$1"
}

if [ ! -x "$PROGRAM" ]; then
    skip "$PROGRAM isn't built"
    exit 0
fi
if ! command -v xz >/dev/null; then
    skip 'there is no xz'
    exit 0
fi

work=$(mktemp -d) || exit 1
trap 'rm -rf "$work"' EXIT
trap 'exit 1' HUP INT TERM
tries=0
wrong=0

bad() {
    printf 'wrappers: %s: %s\n' "$what" "$1" >&2
    wrong=$((wrong + 1))
}

# Runs a command, which should end with this status
try() {
    wanted=$1
    shift
    what=$*
    tries=$((tries + 1))
    "$@" >out 2>notes
    got=$?
    [ "$got" -eq "$wanted" ] || bad "status $got and not $wanted"
}

# What the last command put to standard output, and to standard error: these lines, or nothing
out() {
    if [ $# -eq 0 ]; then : >wanted; else printf '%s\n' "$@" >wanted; fi
    diff wanted out >differs || bad "standard output
$(cat differs)"
}

# A number of 8 bytes of an image
u64() {
    od -An -tu8 -j"$2" -N8 "$1" | tr -d ' \n'
}

# The last command printed what a check of this image does that ends with 0: `clean`, or these lines, and of a pool two numbers more
checked() {
    metadata=$1
    shift
    [ $# -gt 0 ] || set -- clean
    if [ "$(u64 "$metadata" 32)" = 27022010 ]; then
        set -- "$@" "TRANSACTION_ID=$(u64 "$metadata" 48)" "METADATA_FREE_BLOCKS=$(($(u64 "$metadata" 192) - $(u64 "$metadata" 200)))"
    fi
    out "$@"
}

notes() {
    if [ $# -eq 0 ]; then : >wanted; else printf '%s\n' "$@" >wanted; fi
    diff wanted notes >differs || bad "standard error
$(cat differs)"
}

# Each line of standard error has this
notes_have() {
    grep -qF -- "$1" notes || bad "standard error hasn't: $1"
}

same() {
    cmp -s "$1" "$2" || bad "$1 and $2 differ"
}

# Writes bytes, in octal, over an image
poke() {
    # shellcheck disable=SC2059
    printf "$3" | dd of="$1" bs=1 seek="$2" conv=notrunc 2>/dev/null
}

# A file of zeros with this many blocks
zeros() {
    dd if=/dev/zero of="$1" bs=4096 count="$2" 2>/dev/null
}

# A block that is full of this byte, in octal
fill() {
    dd if=/dev/zero bs=4096 count=1 2>/dev/null | tr '\000' "$1"
}

# A number in an image, of this many bytes
number_in() {
    od -An -tu"$2" -j"$3" -N"$2" "$1" | tr -d ' '
}
# The first child of a node, or what its first value names. A node has its flags at 4, 1 of an inner one and 2 of a leaf, how many
# entries it has at 16, how many it can have at 20, and from 32 on its keys and then its values
first_of() {
    number_in "$1" 8 $(($2 * 4096 + 32 + 8 * $(number_in "$1" 4 $(($2 * 4096 + 20)))))
}
# The roots that the superblock names
roots_in() {
    printf '%s %s' "$(number_in "$1" 8 320)" "$(number_in "$1" 8 328)"
}

# What was told is what a dump has
tells() {
    awk '$1 == "device" { print $2, $3; devices++; mappings += $3 } END { print "keeps", devices + 0, mappings + 0 }' "$2" >wanted
    awk '$3 == "kept" { print $2, $4 } $1 == "keeps" { print $1, $2, $3 }' "$1" | diff wanted - >differs || bad "$1: $(cat differs)"
}

# Makes leaf.img, the pool whose first device lost the first leaf of its mappings: $leaf below $node, which had $entries
lose_leaf() {
    cp thin-pool.img leaf.img
    node=$(first_of leaf.img "$(number_in leaf.img 8 320)")
    leaf=$(first_of leaf.img "$node")
    entries=$(number_in leaf.img 4 $((leaf * 4096 + 16)))
    fill '\377' | dd of=leaf.img bs=4096 seek="$leaf" conv=notrunc 2>/dev/null
}

# Makes a cache of two blocks of 4 KiB, the first of them dirty: dirty.txt and dirty.img, and its devices fast.img and origin.img
small_cache() {
    printf '%s\n' 'cache 1' 'cache 00000000-0000-0000-0000-000000000000 8 2 1 736d7100000000000000000000000000 2 0 0 4' \
        'map 0 3 1 0' 'map 1 0 0 0' end >dirty.txt
    zeros dirty.img 16
    pdata_tools cache_restore -i dirty.txt -o dirty.img
    {
        fill '\252'
        fill '\273'
    } >fast.img
    zeros origin.img 4
}

# Makes the text of a pool with four data blocks of 4 KiB, of which the first and the last one are used, pool.txt, and its data,
# whole.img; and pair.txt, where two devices share a leaf with these mappings
small_pool() {
    printf '%s\n' 'thin 1' 'pool 00000000-0000-0000-0000-000000000000 0 0 8 4' 'device 1 2 0 0 0' 'map 0 0 1 0' \
        'map 1 3 1 0' end >pool.txt
    {
        printf '%s\n' 'thin 2' 'pool 00000000-0000-0000-0000-000000000000 0 0 8 4' 'leaf 0 2' 'map 0 0 1 0' 'map 1 3 1 0'
        printf '%s\n' 'device 1 2 0 0 0' 'use 0' 'device 2 2 0 0 0' 'use 0' end
    } >pair.txt
    for byte in '\240' '\241' '\242' '\243'; do
        fill "$byte"
    done >whole.img
}

# The files that each folder has. The numbers are checksums, and what they are of
prepare() {
    for name in thin-pool cache era; do
        xz -dkc "$here/examples/$name.img.xz" >"$name.img"
        cp "$here/examples/$name.txt" .
    done
    for name in leak short lost damaged details set; do
        cp thin-pool.img $name.img
    done
    poke leak.img 729088 '\152\352\235\253'
    poke leak.img 729107 '\252'
    poke short.img 729088 '\105\361\052\374'
    poke short.img 729106 '\217'
    poke lost.img 200 '\377\377'
    poke damaged.img 749668 '\377\377'
    poke details.img 753764 '\377\377'
    poke set.img 0 '\075\054\342\015\001'
    cp cache.img set-cache.img
    poke set-cache.img 0 '\147\241\230\174\003'
    zeros small.img 2
    zeros new.img 1024
    zeros fresh.img 1024
    mkdir full
    printf '#!/bin/sh\nprintf "%%s\\n" "Filesystem 1024-blocks Used Available" "none 100 100 0 100%% /"\n' >full/df
    chmod +x full/df
}

# Copies these parts of the repository into a new folder, and the table of words, which ./install and ./package read
copy_parts() {
    copied=$1
    shift
    mkdir -p "$copied/crates/pd_word_list"
    cp "$table" "$copied/crates/pd_word_list"
    for part do
        cp -R "$here/$part" "$copied"
    done
}

# Tries what a file has, in a folder that has these files alone, and adds its numbers. What it sets is gone afterwards
try_file() {
    tmp=$work/$1
    cp -R "$work/prepared" "$tmp"
    rm -f "$work/numbers"
    (
        cd "$tmp" && sh -n "$here/tests/wrappers/$1.sh" || exit 1
        # shellcheck disable=SC1090 # the files of this folder
        . "$here/tests/wrappers/$1.sh"
        printf '%s %s\n' "$tries" "$wrong" >"$work/numbers"
    )
    if [ -s "$work/numbers" ]; then
        read -r tries wrong <"$work/numbers"
    else
        what=$1
        bad 'it ended before its end'
    fi
    rm -rf "$tmp"
}

# what can be given to each tool, as pd_word_list prints it of the program's table
table=$here/crates/pd_word_list/stdout
tools=$(cut -d ' ' -f 1 "$table" | uniq)
forms=$here/completion/forms
sizes=$(grep -o '^[a-z]*_metadata_size' "$forms" | uniq)
release=$(cat "$here/VERSION")
page='see pdata_tools-lvm(8)'
prefix=$work/prefix
lvm=$prefix/libexec/pdata_tools
PREFIX=$prefix
export PREFIX
if ! "$here/install" >"$work/installed"; then
    printf 'wrappers: nothing could be installed\n' >&2
    exit 1
fi
# (pdata_tools is the program here, and not the command of that name)
PATH=$prefix/bin:$prefix/sbin:$PATH
mkdir "$work/prepared"
(cd "$work/prepared" && prepare) || exit 1
