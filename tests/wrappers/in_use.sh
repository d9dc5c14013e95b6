# shellcheck shell=sh disable=SC2154 # what is used here is set before
# A device in use isn't read without --force: here a block device that nothing is behind, and what the kernel would say of it

mkdir -p in_use/lvm
if mknod in_use/held b 250 250 2>/dev/null && [ -b in_use/held ]; then
    mkdir -p in_use/sys/250:250/holders/dm-7/dm
    echo vg-pool-tpool >in_use/sys/250:250/holders/dm-7/dm/name
    : >in_use/mounts
    # a command that looks there
    in_use() {
        sed -e "s|/sys/dev/block|$tmp/in_use/sys|g" -e "s|/proc/self/mountinfo|$tmp/in_use/mounts|" "$1" >"in_use/$2"
        chmod +x "in_use/$2"
    }
    held='in_use/held is in use by dm-7 (vg-pool-tpool)'
    for tool in thin_check cache_check era_check thin_dump cache_dump era_dump thin_ls thin_rmap era_invalidate thin_repair cache_repair; do
        in_use "$prefix/sbin/$tool" "$tool"
        case $tool in
        thin_rmap) set -- --region 0..5 in_use/held ;;
        era_invalidate) set -- --written-since 5 in_use/held ;;
        *_repair) set -- -i in_use/held -o fresh.img ;;
        *) set -- in_use/held ;;
        esac
        try 5 "in_use/$tool" "$@"
        out
        notes "$tool: $held: what is read of it means nothing, so deactivate that first (--force reads it all the same)"
        # (the program can't open it, as nothing is behind it)
        for force in "--force $*" "$* --force"; do
            # shellcheck disable=SC2086 # several words
            try 5 in_use/$tool $force
            notes "$tool: $held: it changes while it is read" 'pdata_tools: device fault'
        done
    done
    try 5 in_use/thin_repair --dry-run -i in_use/held
    notes_have "thin_repair: $held: what is read of it means nothing"
    # to write it --force is no help
    try 5 in_use/thin_check --force --clear-needs-check-flag in_use/held
    notes "thin_check: $held: nothing is written"
    zeros fresh.img 1024
    try 5 in_use/thin_repair --force -i thin-pool.img -o in_use/held
    notes "thin_repair: $held: nothing is written"
    try 5 in_use/thin_dump --force -o in_use/held thin-pool.img
    notes "thin_dump: $held: nothing is written"
    # LVM activates the parts itself: its commands warn, and go on
    for tool in thin_check cache_check thin_dump; do
        in_use "$lvm/$tool" "lvm/$tool"
        try 1 "in_use/lvm/$tool" in_use/held
        notes_have "$held: it changes while it is read"
    done
else
    skip 'a device in use that is read, as only root makes block devices'
fi
rm -rf in_use
# one that isn't in use is read with the word as without
for tool in thin_check thin_dump thin_ls; do
    try 0 $tool thin-pool.img
    mv out kept
    try 0 $tool --force thin-pool.img
    same out kept
    notes
done
# it is no word of the tools that write without reading metadata, nor of the program, nor of LVM's commands
for tool in thin_restore cache_restore era_restore thin_generate thin_rehearse cache_writeback thin_shrink; do
    try 2 $tool --force
    notes_have "$tool: --force is none of its words"
done
try 2 pdata_tools thin_check --force thin-pool.img
try 1 "$lvm/thin_check" --force thin-pool.img
