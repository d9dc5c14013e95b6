# shellcheck shell=sh disable=SC2154,SC2034 # lib.sh sets what is used here, and reads what is set
# The installation: over others' files, from other folders, stopped at each step, and taken away again

prefix=$tmp/prefix
PREFIX=$prefix
mkdir -p "$prefix/sbin"
echo 'of another' >"$prefix/sbin/thin_check"
try 1 "$here/install"
notes_have "$prefix/sbin/thin_check"
[ ! -e "$prefix/bin" ] || bad 'something was installed'
try 0 "$here/install" --replace
try 0 "$here/install"
for tool in $tools $sizes; do
    [ -x "$prefix/sbin/$tool" ] || bad "no command $tool"
    [ -f "$prefix/share/man/man8/$tool.8" ] || bad "no page $tool"
    [ -f "$prefix/share/bash-completion/completions/$tool" ] || bad "no completion $tool"
done

echo '# changed' >>"$prefix/sbin/thin_ls"
try 0 "$here/install" uninstall
notes "install: $prefix/sbin/thin_ls was changed, and stays"
rm "$prefix/sbin/thin_ls"
is_gone() {
    [ -z "$(find "$prefix" ! -type d)" ] || bad "there is $(find "$prefix" ! -type d)"
}
is_gone

# Installs that go wrong, with a program that is quickly copied

printf '#!/bin/sh\nexec %s "$@"\n' "$PROGRAM" >program
chmod +x program
PROGRAM=$tmp/program
copy_parts copy VERSION install commands completion lvm man
# a text that is missing, is empty, or is no script: nothing is installed
for text in VERSION commands/common commands/running commands/words commands/full commands/repairing commands/tool \
    commands/listing commands/trimming commands/sizes completion/forms completion/pdata_tools lvm/check lvm/thin_dump lvm/initramfs-hook man/thin_ls.8 crates/pd_word_list/stdout; do
    for harm in missing empty; do
        mv "copy/$text" kept
        [ $harm = missing ] || : >"copy/$text"
        try 1 copy/install
        is_gone
        rm -f "copy/$text"
        mv kept "copy/$text"
    done
done
cp copy/lvm/check kept
echo 'if true' >>copy/lvm/check
try 1 copy/install
is_gone
cp kept copy/lvm/check
: >empty
PROGRAM=$tmp/empty try 1 "$here/install"
is_gone
# by a link to it
ln -s "$here/install" linked
mkdir deeper
ln -s ../linked deeper/linked
try 0 deeper/linked
try 0 "$prefix/sbin/thin_check" thin-pool.img
try 0 deeper/linked uninstall
is_gone
# a prefix with slashes at its end, one within /usr/local, and one that is the root
for last in "$prefix//" /usr/local/there/ /; do
    case $last in
    "$prefix"*) DESTDIR='' ;;
    *) DESTDIR=$prefix ;;
    esac
    PREFIX=$last try 0 "$here/install"
    [ "$last" = / ] || last=${last%/}
    last=${last%/}
    what="a prefix $last"
    grep -qx "program=$last/bin/pdata_tools" "$DESTDIR$last/libexec/pdata_tools/thin_check" || bad 'another program'
    grep -qF "\"$last/libexec/pdata_tools/thin_check\"" "$DESTDIR$last/share/man/man8/pdata_tools-lvm.8" || bad 'another page'
    PREFIX=$last/ try 0 "$here/install" uninstall
    is_gone
done
DESTDIR=''
try 1 env PREFIX=relative "$here/install"
# a program that isn't pdata_tools, and one that doesn't take an option
PROGRAM=/bin/true try 1 "$here/install"
notes "install: /bin/true isn't pdata_tools $release: it doesn't run here, or takes other words"
is_gone
grep -oE -e '--?[a-z][a-z-]*' "$table" | sort -u >options
while read -r option; do
    cat >another <<END
#!/bin/sh
case " \$* " in
*' $option '*) exit 2 ;;
esac
exec $tmp/program "\$@"
END
    chmod +x another
    PROGRAM=$tmp/another try 1 "$here/install"
    notes "install: $tmp/another isn't pdata_tools $release: it doesn't run here, or takes other words"
    is_gone
done <options
# what names the commands after they are gone, or were others
mkdir -p lvm-system
printf 'global {\n    thin_check_executable = "%s/libexec/pdata_tools/thin_check"\n}\n' "$prefix" >lvm-system/lvm.conf
try 0 "$here/install"
notes
try 0 env LVM_SYSTEM_DIR="$tmp/lvm-system" "$here/install" uninstall
notes 'install: lvm.conf names commands that are gone: LVM now activates without a check. Take these lines out'
is_gone
mkdir -p "$tmp/dest/etc/initramfs-tools/hooks" "$tmp/dest/etc/dracut.conf.d"
: >"$tmp/dest/etc/initramfs-tools/hooks/pdata_tools"
: >"$tmp/dest/etc/dracut.conf.d/pdata_tools.conf"
ramdisk='install: the initial RAM disk is to be made anew:'
try 0 env DESTDIR="$tmp/dest" "$here/install"
notes
try 0 env DESTDIR="$tmp/dest" "$here/install"
notes "$ramdisk update-initramfs -u" "$ramdisk dracut -f"
try 0 env DESTDIR="$tmp/dest" "$here/install" uninstall
notes "$ramdisk update-initramfs -u" "$ramdisk dracut -f"
try 0 "$here/install"

# an upgrade: a file of the earlier version that this one lacks, one of them changed, and commands that only the mark tells
for name in old changed; do
    echo $name >"$prefix/share/man/man8/$name.8"
    printf '%s share/man/man8/%s.8\n' "$(cksum <"$prefix/share/man/man8/$name.8")" $name >>"$prefix/share/pdata_tools/installed"
done
echo more >>"$prefix/share/man/man8/changed.8"
printf '#!/bin/sh\nexec /bin/true "$@" # installed with pdata_tools\n' >"$prefix/sbin/thin_ls"
try 0 "$here/install"
notes "install: $prefix/share/man/man8/changed.8 was changed, and stays"
[ ! -e "$prefix/share/man/man8/old.8" ] || bad 'the old page is there'
[ "$(sed 1q "$prefix/share/pdata_tools/installed")" = "# pdata_tools $release" ] || bad 'the list has no version'
! grep -q -e old -e changed "$prefix/share/pdata_tools/installed" || bad 'the list has the old page'
rm "$prefix/share/man/man8/changed.8"
try 0 "$here/install" uninstall
is_gone

# Stopped before each step that it does by cp or mv. What stands there at each step is kept aside, and is uninstalled then:
# of a first install, and of an upgrade, where each file is another one than before. Some are installed again.
mkdir stopping steps quick
for name in cp mv; do
    cat >stopping/$name <<END
#!/bin/sh
PATH=$PATH
step=\$(find '$tmp/steps' -mindepth 1 -maxdepth 1 | wc -l)
cp -pR '$prefix' "$tmp/steps/\$step"
exec $name "\$@"
END
done
printf '#!/bin/sh\n' >quick/sync
chmod +x stopping/* quick/*
for kind in first upgrade; do
    if [ $kind = upgrade ]; then
        mkdir older
        cp -R copy/* older
        for text in commands/tool commands/sizes completion/pdata_tools lvm/check lvm/repair lvm/thin_dump lvm/initramfs-hook man/*.8; do
            echo '# of an older version' >>"older/$text"
        done
        try 0 older/install
    fi
    try 0 env PATH="$tmp/stopping:$tmp/quick:$PATH" "$here/install"
    try 0 "$here/install" uninstall
    is_gone
    rmdir "$prefix"/*/*/*/* "$prefix"/*/*/* "$prefix"/*/* "$prefix"/* 2>/dev/null
    step=0
    while [ -d steps/$step ]; do
        rm -rf "$prefix"
        mv steps/$step "$prefix"
        what="the $kind install, stopped at step $step"
        tries=$((tries + 1))
        for file in "$prefix"/sbin/* "$prefix"/libexec/pdata_tools/*; do
            [ ! -e "$file" ] || [ -s "$file" ] || bad "$file is empty"
        done
        if [ $((step % 16)) -eq 0 ]; then
            try 0 env PATH="$tmp/quick:$PATH" "$here/install"
            [ -z "$(find "$prefix" -name '*.pdata_tools-new')" ] || bad 'something is left'
        fi
        if [ -n "$(find "$prefix" ! -type d)" ]; then
            try 0 "$here/install" uninstall
            notes
        fi
        what="the $kind install, stopped at step $step"
        is_gone
        step=$((step + 1))
    done
    [ "$step" -gt 100 ] || bad "only $step steps"
    rm -rf steps/*
done
