# shellcheck shell=sh disable=SC2154,SC2034 # what is used here is set before, and what is set is read there
# Each way to stop a command that writes: by each signal, on a terminal and without one, before the program, in it and after it.
# What block 0 of the output holds is the last that is said.

# A command, under this name below stops, with a program of its own, which stops at one place: it makes the file `there` and waits
stopping() {
    tool=$1
    command=$2
    place=$3
    rm -f stops/there stops/number
    sed "s|^program=.*|program=$tmp/stops/program-$place|" "$command" >"stops/$tool"
    case $place in
    before | after)
        # (what waits makes the file: by then no signal of a terminal ends it)
        pause='{ : >stops/there; exec sleep 5; } >stops/null 2>\&1 4>\&- \& wait $!'
        [ "$place" = before ] && line="$pause; start_all \"\$@\"" || line="start_all \"\$@\"; $pause"
        sed "s|^start_all \"\$@\"\$|$line|" "stops/$tool" >stops/kept
        mv stops/kept "stops/$tool"
        ;;
    esac
    chmod +x "stops/$tool"
}

# Stops a command by a signal, where it may be on a terminal; what is said is in `notes`, without what the terminal adds
stopped() {
    where=$1
    signal=$2
    shift 2
    what="$* stopped by $signal, $where"
    tries=$((tries + 1))
    TMPDIR=stops/temporary python3 "$here/tests/wrappers/stop.py" "$where" "$signal" stops/there "$@" >shown 2>&1
    got=$?
    [ "$signal" = KILL ] || [ -z "$(ls stops/temporary)" ] || bad 'a file is left in the temporary folder'
    case $signal in
    HUP) wanted=129 ;;
    INT) wanted=130 ;;
    QUIT) wanted=131 ;;
    KILL) wanted=137 ;;
    PIPE) wanted=141 ;;
    TERM) wanted=143 ;;
    esac
    case $1 in
    stops/lvm/*) [ "$signal" = KILL ] || wanted=1 ;;
    esac
    [ "$got" -eq "$wanted" ] || bad "status $got and not $wanted: $(cat shown)"
    tr '\033' '^' <shown | sed -e 's/^.*\^\[K//' -e 's/^^[C\\]//' >notes
}

# Whether the program that noted its number is gone, at the latest in a second
is_ended() {
    read -r number <stops/number
    for _ in 1 2 3 4 5; do
        # (there may be nobody who asks for its status)
        ! grep -qs '^State:[^Z]*$' "/proc/$number/status" || sleep 0.2
    done
    ! grep -s '^State:[^Z]*$' "/proc/$number/status" || bad 'the program goes on'
}

if command -v python3 >/dev/null && python3 -c 'import pty' 2>/dev/null; then
    mkdir -p stops/lvm stops/temporary
    # one that puts zeros over block 0 and goes on, and one that is done
    cat >stops/program-in <<END
#!/bin/sh
[ \$# -gt 0 ] || exec $PROGRAM
# (what a repair would keep isn't told)
case \$* in
*--dry-run*) exit 6 ;;
esac
echo \$\$ >stops/number
echo 'pdata_tools: of the program' >&2
dd if=/dev/zero of=stops/out.img bs=4096 count=1 conv=notrunc 2>/dev/null
: >stops/there
exec sleep 20
END
    cat >stops/program-after <<END
#!/bin/sh
[ \$# -gt 0 ] || exec $PROGRAM
END
    cp stops/program-after stops/program-before
    chmod +x stops/program-*
    for tool in thin_restore cache_restore era_restore thin_repair cache_repair thin_rehearse thin_shrink cache_writeback; do
        zeros="$tool: stopped: block 0 of stops/out.img is zeros, which a kernel takes for a new device."
        to_do="$tool: Activate nothing that names it, and run this again to its end."
        case $tool in
        *_restore) set -- -i thin-pool.txt -o stops/out.img ;;
        *_repair) set -- -i thin-pool.img -o stops/out.img ;;
        thin_rehearse) set -- --number 1 -o stops/out.img ;;
        thin_shrink) set -- -i thin-pool.img -o stops/out.img --data stops/data.img --nr-blocks 665 ;;
        cache_writeback)
            set -- --metadata-device stops/out.img --fast-device thin-pool.img --origin-device stops/data.img
            to_do="$tool: Activate nothing that names it: all was copied; see cache_writeback(8)."
            ;;
        esac
        zeros stops/data.img 4
        case $tool in
        thin_restore) signals='HUP INT QUIT PIPE TERM' places='before in after' ;;
        *) signals='INT TERM' places=in ;;
        esac
        for place in $places; do
            for where in pipe terminal; do
                for signal in $signals; do
                    cp thin-pool.img stops/out.img
                    stopping "$tool" "$prefix/sbin/$tool" "$place"
                    stopped "$where" "$signal" "stops/$tool" "$@"
                    case $place in
                    in)
                        notes 'pdata_tools: of the program' "$zeros" "$to_do"
                        is_ended
                        ;;
                    *) notes "$tool: stopped: stops/out.img holds what it held, or all that was to be written" ;;
                    esac
                done
            done
        done
    done
    # a check that clears a flag writes no block but that one
    for where in pipe terminal; do
        cp thin-pool.img stops/out.img
        stopping thin_check "$prefix/sbin/thin_check" in
        stopped "$where" TERM stops/thin_check --clear-needs-check-flag stops/out.img
        notes 'pdata_tools: of the program' \
            'thin_check: stopped: of stops/out.img no other block than block 0 was written: check it again'
        is_ended
    done
    # LVM's
    for where in pipe terminal; do
        for signal in HUP INT QUIT PIPE TERM; do
            cp thin-pool.img stops/out.img
            stopping lvm/thin_repair "$lvm/thin_repair" in
            stopped "$where" "$signal" stops/lvm/thin_repair -i leak.img -o stops/out.img
            notes 'pdata_tools: of the program' \
                'thin_repair: stopped: block 0 of stops/out.img is zeros, which a kernel takes for a new device.' \
                'thin_repair: Activate nothing that names it; see pdata_tools-lvm(8)'
            is_ended
        done
    done
    # a signal that no command can take: the program ends with it, where the system can say so
    if setpriv --pdeathsig KILL -- true 2>/dev/null; then
        for tool in thin_repair lvm/thin_repair; do
            case $tool in
            lvm/*) stopping "$tool" "$lvm/thin_repair" in ;;
            *) stopping "$tool" "$prefix/sbin/$tool" in ;;
            esac
            for where in pipe terminal; do
                rm -f stops/there
                stopped "$where" KILL "stops/$tool" -i leak.img -o stops/out.img
                is_ended
            done
        done
    else
        skip 'a command that is killed, as there is no setpriv that binds the program to it'
    fi
    rm -rf stops
else
    skip 'stops, as there is no python3'
fi
