# shellcheck shell=sh disable=SC2154
# The metadata of an active pool isn't read: a line names who holds it. With --force it is read, and when the pool is inactive it is
# read without. LVM's own check is no refusal while the pool is active.
# disks: vda:1G vdb:64M
L pvcreate -ff -y /dev/vda
L vgcreate vg /dev/vda
L lvcreate -y --type thin-pool -L 512M --poolmetadatasize 4M -n pool vg
L lvcreate -y -V 2G -T vg/pool -n t1
wr /dev/vg/t1 0 2 0
held='/dev/mapper/vg-pool_tmeta is in use by dm-[0-9]* \(vg-pool-tpool\)'
for tool in thin_check thin_dump thin_ls 'thin_rmap --region 0..5' 'thin_repair --dry-run -i'; do
    # shellcheck disable=SC2086 # several words
    L $tool /dev/mapper/vg-pool_tmeta
    is "$tool refuses metadata in use" [ "$rc" = 5 ]
    is "$tool names who holds it" said "$held: what is read of it means nothing"
done
L thin_check --force /dev/mapper/vg-pool_tmeta
is 'with --force it is read' said "$held: it changes while it is read"
isnt 'with --force it is not refused' [ "$rc" = 5 ]
L thin_check --force --clear-needs-check-flag /dev/mapper/vg-pool_tmeta
is 'nothing is written to it even so' said "$held: nothing is written"
L /usr/local/libexec/pdata_tools/thin_check /dev/mapper/vg-pool_tmeta
is 'the check of LVM warns' said "$held: it changes while it is read"
isnt 'the check of LVM does not refuse' said 'what is read of it means nothing'
L vgchange -an vg
is 'LVM deactivates, with its check' [ "$rc" = 0 ]
L lvchange -ay -y vg/pool_tmeta
L thin_check /dev/vg/pool_tmeta
is 'alone it is read' said '^clean$'
isnt 'alone nothing is said of a use' said 'in use'
L lvchange -an vg/pool_tmeta
L vgchange -ay vg
is 'LVM activates, with its check' [ "$rc" = 0 ]
is 'the volume reads what it read' same /dev/vg/t1 0 2 0
L vgchange -an vg
