# shellcheck shell=sh disable=SC2154,SC2034 # lib.sh sets what is used here, and reads what is set
# What a command reads and prints: on a terminal, from pipes and to them, and with streams that are closed

# Progress, on a terminal: of a program that takes three seconds after a megabyte

if command -v script >/dev/null && [ "$(script -qec 'echo there' /dev/null </dev/null 2>/dev/null | tr -d '\r')" = there ]; then
    mkdir slow
    cat >slow/program <<END
#!/bin/sh
dd if=thin-pool.img of=/dev/null bs=1048576 count=1 2>/dev/null
for second in 1 2 3 4; do
    sleep 1
    read -r line </dev/null
done
exec $PROGRAM "\$@"
END
    chmod +x slow/program
    for tool in thin_check thin_dump; do
        sed "s|^program=.*|program=$tmp/slow/program|" "$prefix/sbin/$tool" >slow/$tool
        chmod +x slow/$tool
    done
    terminal() {
        what=$*
        tries=$((tries + 1))
        # what erases a line is written as a bar
        script -qec "$*" /dev/null </dev/null | tr -d '\r' | tr '\033' '^' | sed 's/\^\[K/|/g' >out
    }
    terminal slow/thin_check thin-pool.img
    grep -q "^thin_check: [1-9] MiB read, [0-9]* written, about [1-9][0-9]* %|" out || bad "no progress: $(cat out)"
    grep -q '|clean$' out || bad "another end: $(cat out)"
    terminal slow/thin_dump -o dumped.txt thin-pool.img
    grep -q '^thin_dump: [1-9] MiB read' out || bad "no progress: $(cat out)"
    same dumped.txt thin-pool.txt
    # nothing of it with -q, where it is quick, and where the text itself goes to the terminal
    terminal slow/thin_check -q thin-pool.img
    out
    started=$(date +%s)
    terminal thin_check thin-pool.img
    # (a busy machine may take two seconds for it, and then a line is erased)
    [ $(($(date +%s) - started)) -lt 2 ] || sed -i 's/^.*|//' out
    checked thin-pool.img
    terminal slow/thin_dump thin-pool.img
    same out thin-pool.txt
    terminal 'slow/thin_check thin-pool.img 2>notes'
    checked thin-pool.img
    notes
    terminal 'thin_check damaged.img 2>notes; echo "$?"'
    out 'fault meta 183 checksum' 'faults 1' 1
else
    skip 'progress, as there is no script'
fi

# Standard input and pipes

small_cache
small_pool
cp whole.img data.img
# no file of standard input, and a text from there
try 0 sh -c 'thin_restore -i /dev/stdin -o fresh.img <thin-pool.txt'
try 0 sh -c 'thin_check thin-pool.img <&-'
checked thin-pool.img
# what ends the command ends the program, too
if command -v mkfifo >/dev/null; then
    mkfifo stopped
    # and says what a restore has left
    for image in thin-pool.img fresh.img; do
        what='a stopped command'
        tries=$((tries + 1))
        dd if=$image of=new.img bs=4096 2>/dev/null
        [ $image != fresh.img ] || dd if=/dev/zero of=new.img bs=4096 count=1 conv=notrunc 2>/dev/null
        thin_restore -i stopped -o new.img 2>notes &
        sleep 1
        kill $!
        wait $! 2>/dev/null && bad 'status 0'
        if [ $image = thin-pool.img ]; then
            notes 'thin_restore: stopped is a pipe: the text is what is written to it' \
                'thin_restore: stopped: new.img holds what it held, or all that was to be written'
        else
            notes 'thin_restore: stopped is a pipe: the text is what is written to it' \
                'thin_restore: stopped: block 0 of new.img is zeros, which a kernel takes for a new device.' \
                'thin_restore: Activate nothing that names it, and run this again to its end.'
        fi
    done
    # a writer that comes too late would be waited for, if the program were there
    if command -v pgrep >/dev/null; then
        ! pgrep -f "$prefix/bin/pdata_tools thin_restore -i stopped" >/dev/null || bad 'the program goes on'
    fi

    # A pipe is no device, and one that nobody reads takes no text
    kinds=': metadata and data are on block devices, or in files'
    for name in stopped /dev/null; do
        case $name in
        stopped) is="$name is a pipe$kinds" ;;
        *) is="$name is a character device$kinds" ;;
        esac
        for tool in thin_check cache_check era_check thin_dump cache_dump era_dump thin_ls; do
            try 5 $tool $name
            out
            notes "$tool: $is"
        done
        try 5 thin_check --clear-needs-check-flag $name
        try 5 era_invalidate --written-since 5 $name
        try 5 thin_rmap --region 0..1 $name
        for tool in thin_restore cache_restore era_restore; do
            try 5 $tool -i thin-pool.txt -o $name
            notes "$tool: $is"
        done
        try 5 thin_rehearse --number 1 -o $name
        for tool in thin_repair cache_repair; do
            try 5 $tool -i $name -o new.img
            try 5 $tool -i thin-pool.img -o $name
        done
        for missing in metadata fast origin; do
            metadata=dirty.img fast=fast.img origin=origin.img
            eval "$missing=$name"
            try 5 cache_writeback --metadata-device $metadata --fast-device $fast --origin-device $origin
            notes "cache_writeback: $is"
        done
        for missing in input output third; do
            input=thin-pool.img output=new.img third=data.img
            eval "$missing=$name"
            try 5 thin_shrink -i $input -o $output --data $third --nr-blocks 2
            notes "thin_shrink: $is"
        done
        for tool in thin_check cache_check thin_dump; do
            try 1 "$lvm/$tool" $name
            notes "$tool: $is"
        done
        try 1 "$lvm/thin_check" -q --clear-needs-check-flag $name
        try 1 "$lvm/thin_repair" -i $name -o new.img
        notes "thin_repair: $is" 'thin_repair: nothing is repaired; see pdata_tools-lvm(8)'
        try 1 "$lvm/thin_repair" -i thin-pool.img -o $name
    done
    try 0 thin_dump -o /dev/null thin-pool.img
    try 6 thin_dump -o stopped thin-pool.img
    out
    notes 'thin_dump: stopped is a pipe that nobody reads'
    try 6 thin_generate --number 1 -o stopped
    for kind in thin cache era; do
        name=$kind
        [ $kind != thin ] || name=thin-pool
        cat stopped >read.txt &
        try 0 ${kind}_dump -o stopped $name.img
        wait $!
        same read.txt $name.txt
        notes
        zeros new.img 1024
        cat $name.txt >stopped &
        try 0 ${kind}_restore -i stopped -o new.img
        notes "${kind}_restore: stopped is a pipe: the text is what is written to it"
        try 0 ${kind}_dump new.img
        same out $name.txt
        # shellcheck disable=SC2002 # a pipe is wanted
        try 0 sh -c "cat $name.txt | ${kind}_restore -i /dev/stdin -o new.img"
        notes
    done
else
    skip 'pipes with a name, as there is no mkfifo'
fi
if [ "$(id -u)" -ne 0 ]; then
    cp thin-pool.img closed.img
    chmod 0 closed.img
    try 5 thin_check closed.img
    notes_have 'thin_check: there is no permission to read closed.img'
else
    skip 'what may not be read, as root may read all'
fi

# Closed standard streams: what is opened gets no number of theirs, so nothing that is printed goes into it. Each way to close them leaves
# what the same call leaves over the null device, and ends with the same status.

mkdir start
cp set.img set-cache.img era.img start
zeros start/new.img 64
cp start/new.img start/wide.img
cp pool.txt dirty.txt pair.txt start
sed '2s/^[^ ]* //' pool.txt >start/refused.txt
cp dirty.img fast.img origin.img start
cp whole.img start/data.img
: >start/no.img
(
    cd start || exit 1
    zeros pool.img 16
    pdata_tools thin_restore -i pool.txt -o pool.img
    cp pool.img harmed.img
    poke harmed.img 200 '\377\377'
    pdata_tools era_dump -o era.txt era.img
)
# the image to check afterwards, the tool for that, and the call
cat >calls.txt <<END
set.img thin_check thin_check --clear-needs-check-flag set.img
set-cache.img cache_check cache_check --clear-needs-check-flag set-cache.img
pool.img thin_check thin_check --clear-needs-check-flag pool.img
pool.img thin_check thin_check --ignore-non-fatal-errors pool.img
dirty.img cache_check cache_check dirty.img
era.img era_check era_check era.img
- - thin_check harmed.img
- - thin_check --clear-needs-check-flag harmed.img
- - thin_check missing.img
- - thin_check
pool.img thin_check thin_dump pool.img
pool.img thin_check thin_dump --shared -o text.txt pool.img
- - thin_dump harmed.img
dirty.img cache_check cache_dump dirty.img
dirty.img cache_check cache_dump -o text.txt dirty.img
era.img era_check era_dump era.img
pool.img thin_check thin_ls pool.img
pool.img thin_check thin_rmap --region 0..4 -o text.txt pool.img
era.img era_check era_invalidate --written-since 5 era.img
- - thin_generate --number 1
- - thin_generate --number 1 -o text.txt
new.img thin_check thin_restore -i pool.txt -o new.img
new.img thin_check thin_restore -i pair.txt -o new.img
- - thin_restore -i /dev/stdin -o new.img
- - thin_restore -i refused.txt -o new.img
- - thin_restore -i pool.txt -o no.img
new.img cache_check cache_restore -i dirty.txt -o new.img
wide.img era_check era_restore -i era.txt -o wide.img
new.img thin_check thin_repair -i pool.img -o new.img
new.img thin_check thin_repair --shared -i pool.img -o new.img
pool.img thin_check thin_repair --dry-run -i pool.img
- - thin_repair -i harmed.img -o new.img
new.img thin_check thin_repair -i harmed.img -o new.img --transaction-id 0 --data-block-size 8 --nr-data-blocks 4
- - thin_repair --dry-run -i harmed.img --transaction-id 0 --data-block-size 8 --nr-data-blocks 4
new.img cache_check cache_repair -i dirty.img -o new.img
dirty.img cache_check cache_repair --dry-run -i dirty.img
new.img thin_check thin_rehearse --number 1 -o new.img
dirty.img cache_check cache_writeback --metadata-device dirty.img --fast-device fast.img --origin-device origin.img
- - cache_writeback --metadata-device dirty.img --fast-device no.img --origin-device origin.img
new.img thin_check thin_shrink -i pool.img -o new.img --data data.img --nr-blocks 2
- - thin_shrink -i pool.img -o new.img --data data.img --nr-blocks 1
set.img thin_check $lvm/thin_check --clear-needs-check-flag set.img
set-cache.img cache_check $lvm/cache_check --clear-needs-check-flag set-cache.img
- - $lvm/thin_check harmed.img
new.img thin_check $lvm/thin_repair -i pool.img -o new.img
new.img cache_check $lvm/cache_repair -i dirty.img -o new.img
- - $lvm/thin_dump pool.img
END
# Runs a call in a folder with fresh files, its output beside the folder, and some of its streams closed
with_closed() {
    rm -rf there
    cp -R start there
    : >out
    : >notes
    (cd there && eval "$1 </dev/null >../out 2>../notes $2")
    got=$?
}
# A call with open streams, and then with each way to close them
closing() {
    with_closed "$1" ''
    rm -rf kept
    mv there kept
    mv out kept-out
    mv notes kept-notes
    wanted=$got
    for ways in '<&-' '>&-' '2>&-' '<&- >&-' '<&- 2>&-' '>&- 2>&-' '<&- >&- 2>&-'; do
        what="$1 $ways"
        tries=$((tries + 1))
        with_closed "$1" "$ways"
        [ "$got" -eq "$wanted" ] || bad "status $got and not $wanted"
        diff -r kept there >differs || bad "$(cat differs)"
        case " $ways" in
        *' >&-'*) [ ! -s out ] || bad 'there is an output' ;;
        *) same out kept-out ;;
        esac
        case $ways in
        *'2>&-'*) [ ! -s notes ] || bad 'there are notes' ;;
        *) same notes kept-notes ;;
        esac
    done
}
while read -r image check call; do
    case $call in
    /*) ;;
    *) closing "pdata_tools $call" ;;
    esac
    closing "$call"
    [ "$image" = - ] || try 0 "$check" "there/$image"
done <calls.txt
for shell in bash 'busybox sh'; do
    if command -v "${shell% *}" >/dev/null; then
        closing "$shell $prefix/sbin/thin_check --clear-needs-check-flag set.img"
        closing "$shell $prefix/sbin/thin_check harmed.img"
        closing "$shell $lvm/thin_check --clear-needs-check-flag harmed.img"
    fi
done
rm -rf there kept
# without the null device nothing is done
mkdir -p dev/null
if unshare -m mount --bind dev /dev 2>/dev/null; then
    for call in 'pdata_tools thin_restore' thin_restore; do
        cp start/new.img new.img
        # shellcheck disable=SC2016,SC2086 # the inner shell's; two words
        try 6 unshare -m sh -c 'mount --bind dev /dev && exec "$@"' sh $call -i pool.txt -o new.img
        out
        same new.img start/new.img
    done
else
    skip 'no null device, as nothing can be mounted'
fi
