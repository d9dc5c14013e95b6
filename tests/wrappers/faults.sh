# shellcheck shell=sh disable=SC2154,SC2034 # lib.sh sets what is used here, and reads what is set
# What fails: blocks that can't be read, a limit of file sizes, and a program that a signal ends

# Blocks that can't be read: a program that fails on bad.img, and a dd that can't read the blocks of it that a file names

mkdir failing
cat >failing/program <<END
#!/bin/sh
for word do
    [ "\$word" != bad.img ] || { echo 'pdata_tools: device fault' >&2 && exit 5; }
done
exec $PROGRAM "\$@"
END
cat >failing/dd <<END
#!/bin/sh
input='' skip=0 count=''
for word do
    case \$word in
    if=*) input=\${word#if=} ;;
    skip=*) skip=\${word#skip=} ;;
    count=*) count=\${word#count=} ;;
    esac
done
if [ "\$input" = bad.img ]; then
    for block in \$(cat '$tmp/blocks'); do
        if [ "\$block" -ge "\$skip" ] && [ "\$block" -lt \$((skip + \${count:-1024})) ]; then
            $(command -v dd) "\$@" count=\$((block - skip))
            exit 1
        fi
    done
fi
exec $(command -v dd) "\$@"
END
chmod +x failing/*
mkdir failing/lvm
for tool in thin_check thin_repair thin_dump; do
    sed "s|^program=.*|program=$tmp/failing/program|" "$prefix/sbin/$tool" >"failing/$tool"
    sed "s|^program=.*|program=$tmp/failing/program|" "$lvm/$tool" >"failing/lvm/$tool"
    chmod +x "failing/$tool" "failing/lvm/$tool"
done
mkdir temporary
failing() {
    wanted=$1
    shift
    try "$wanted" env PATH="$tmp/failing:$PATH" TMPDIR="$tmp/temporary" "$@"
    [ -z "$(ls temporary)" ] || bad 'a file is left in the temporary folder'
}
cp thin-pool.img bad.img
zeroed() {
    cp thin-pool.img zeroed.img
    for block do
        dd if=/dev/zero of=zeroed.img bs=4096 seek="$block" count=1 conv=notrunc 2>/dev/null
    done
    printf '%s\n' "$@" >blocks
}
# each copy has the other blocks in their places, and zeros for these
for list in 0 1023 '0 1 2' '1022 1023' '5 7 8 900' '0 500 1023'; do
    # shellcheck disable=SC2086 # several blocks
    zeroed $list
    # shellcheck disable=SC2016 # the inner shell's
    failing 0 sh -c '. "$0/commands/common" && . "$0/commands/running" && copy_readable bad.img copied.img && echo "$left_out"' "$here"
    # shellcheck disable=SC2086
    set -- $list
    out $#
    same copied.img zeroed.img
done
zeroed 184 300
first='bad.img: block 184 can'"'t be read, the first such block of 1024 (of 4 KiB, from 0 on)"
of_copy="what follows is of a copy, in which zeros stand for blocks that can't be read: 2"
failing 1 failing/thin_check bad.img
out 'fault meta 184 checksum' 'faults 1'
notes 'pdata_tools: device fault' "thin_check: $first" "thin_check: $of_copy"
failing 1 failing/thin_check -q bad.img
out
# a block that nothing uses
zeroed 1023
failing 0 failing/thin_check bad.img
checked bad.img
notes 'pdata_tools: device fault' "thin_check: bad.img: block 1023 can't be read, the first such block of 1024 (of 4 KiB, from 0 on)" \
    "thin_check: what follows is of a copy, in which zeros stand for blocks that can't be read: 1"
zeroed 184 300
failing 5 failing/thin_check --clear-needs-check-flag bad.img
out
helps='what helps is a copy of it: dd if=bad.img of=COPY bs=4096 conv=noerror,sync; see pdata_tools(8)'
notes 'pdata_tools: device fault' "thin_check: $first" "thin_check: $helps"
failing 5 failing/thin_dump bad.img
out
notes 'pdata_tools: device fault' "thin_dump: $first" "thin_dump: $helps"
zeros wanted.img 1024
try 0 thin_repair -i zeroed.img -o wanted.img
keeps='thin_repair: keeps 7 of ? devices, 1461 of ? mappings'
details_lost='thin_repair: the details of 7 devices are lost, their mappings are all kept as far as can be told'
notes "$keeps" "$details_lost"
try 0 thin_repair --dry-run -i zeroed.img
[ "$(grep -c '^device .* of ?$' out)" -eq 7 ] || bad 'not all details are lost'
for command in thin_repair lvm/thin_repair; do
    zeros fresh.img 1024
    failing 0 failing/$command -i bad.img -o fresh.img
    out
    set -- 'pdata_tools: device fault' "thin_repair: $first" "thin_repair: $of_copy" "$keeps" "$details_lost"
    case $command in
    thin_repair) notes "$@" ;;
    *) notes "$@" 'thin_repair: a whole details tree of an older state is unused, at block 168: see --details-root in thin_repair(8)' ;;
    esac
    same fresh.img wanted.img
    # no room for a copy
    try 5 env PATH="$tmp/full:$tmp/failing:$PATH" TMPDIR="$tmp/temporary" failing/thin_repair -i bad.img -o fresh.img
    notes 'pdata_tools: device fault' "thin_repair: $first" \
        "thin_repair: a copy of it needs 4096 KiB, and $tmp/temporary has room for 0: TMPDIR=/folder names another folder"
done
failing 1 sh -c "exec failing/lvm/thin_check -q bad.img"
notes_have "$first"
# all is read in the second try: a fault that passes
: >blocks
failing 5 failing/thin_check bad.img
out
notes 'pdata_tools: device fault'
# the superblock
zeroed 0
failing 1 failing/thin_repair -i bad.img -o fresh.img
notes_have 'fault meta 0 checksum'

# a signal ends the program while it works on the copy
zeroed 184 300
mkdir second
# shellcheck disable=SC2016 # the inner shell's
sed 's|^exec .*|kill -s KILL $$|' failing/program >second/program
sed "s|^program=.*|program=$tmp/second/program|" "$prefix/sbin/thin_repair" >second/thin_repair
chmod +x second/*
zeros fresh.img 1024
failing 137 second/thin_repair -i bad.img -o fresh.img
notes_have "thin_repair: $of_copy"
notes_have 'thin_repair: stopped: block 0 of fresh.img is zeros, which a kernel takes for a new device.'

# A limit of file sizes, and a program that a signal ends

zeros new.img 1024
cp new.img before.img
# shellcheck disable=SC3045 # a shell without such limits is skipped
if (ulimit -f 1024) 2>/dev/null; then
    try 5 sh -c 'ulimit -f 8 && thin_restore -i thin-pool.txt -o new.img'
    try 6 sh -c 'ulimit -f 1 && thin_dump -o short.txt thin-pool.img'
else
    skip 'a limit of file sizes, as the shell has none'
fi
mkdir killed
# shellcheck disable=SC2016 # the inner shell's
printf '#!/bin/sh\nkill -s KILL $$\n' >killed/program
chmod +x killed/program
sed "s|^program=.*|program=$tmp/killed/program|" "$prefix/sbin/thin_restore" >killed/thin_restore
cp before.img new.img
try 137 sh killed/thin_restore -i thin-pool.txt -o new.img
notes_have 'thin_restore: stopped: block 0 of new.img is zeros, which a kernel takes for a new device.'
