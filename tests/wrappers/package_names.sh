# shellcheck shell=sh disable=SC2154,SC2034 # lib.sh sets what is used here, and reads what is set
# The packages: both archives, the names that the Debian package gives its commands and pages, and what it says after an upgrade and a
# removal

if command -v dpkg-deb >/dev/null && command -v sha256sum >/dev/null && tar --version 2>/dev/null | grep -q GNU; then
    mkdir names names/packed
    copy_parts names/source VERSION README.md install package commands completion docs lvm man
    # here the program may be a script that names no C library
    cat "$PROGRAM" >names/source/pdata_tools
    echo '# GLIBC_2.34' >>names/source/pdata_tools
    chmod +x names/source/pdata_tools
    echo '13 passed, 0 failed (all)' >gate.log
    try 0 env PROGRAM="$tmp/names/source/pdata_tools" names/source/package gate.log names/packed
    archive=names/packed/pdata_tools-$release-x86_64.tar
    package=names/packed/pdata-tools_${release}_amd64.deb
    out "$archive.xz" "$archive.gz" "$package"
    notes
    gzip -dc "$archive.gz" >tar.gz.plain
    xz -dc "$archive.xz" >tar.xz.plain
    what='the two archives'
    same tar.gz.plain tar.xz.plain
    try 0 dpkg-deb -x "$package" names/there
    try 0 dpkg-deb -e "$package" names/control

    # Each command and its page have the name of this package, and so has all that they name of it
    names=$(printf '%s\n%s' "$tools" "$sizes" | tr '\n' '|')
    nameless() {
        sed -E -e "s/pdata_($names)//g" "$@" >kept
        ! grep -nE "(^|[^A-Za-z_])($names)" kept >differs || bad "a name without pdata_:
$(cat differs)"
    }
    for tool in $tools $sizes; do
        command=names/there/usr/sbin/pdata_$tool
        try 0 "$command" -h
        grep -q "^usage: pdata_$tool " out || bad 'no synopsis'
        nameless out
        try 0 "$command" -V
        out "pdata_$tool (pdata_tools) $release"
        gzip -dc "names/there/usr/share/man/man8/pdata_$tool.8.gz" >page.8
        what="the page pdata_$tool"
        grep -qx "\.Dt $(printf 'pdata_%s' "$tool" | tr '[:lower:]' '[:upper:]') 8" page.8 || bad 'another title'
        grep -qx "\.Nm pdata_$tool" page.8 || bad 'another name'
    done
    for page in names/there/usr/share/man/man8/*.8.gz; do
        gzip -dc "$page" >page.8
        what=$page
        # What has no prefix: the commands for LVM, its words for them, and what they print; the names of laws; a quotation alone, which
        # is of thin-provisioning-tools, and a tool after the program's name
        nameless -e "s/libexec\/pdata_tools\/($names)//g" -e "s/($names)_[a-z_]+//g" -e "s/^($names): //" \
            -e "/^\.Ss ($names)( and ($names))?\$/d" -e "s/^\.Ql ($names)\$//" -e "s/pdata_tools ($names)//g" \
            -e 's|/usr/sbin/thin_check||' -e '/^\.Bl .*-width/d' -e 's/crates\/.*//' page.8
        if command -v mandoc >/dev/null; then
            # (the references of a page have another order by these names, which is a warning)
            try 0 mandoc -T lint -W error page.8
            out
        fi
    done
    # what a page names of the package is there
    for page in pdata_tools pdata_tools-lvm; do
        gzip -dc "names/there/usr/share/man/man8/$page.8.gz" | grep -oE '/usr/(sbin/pdata_(thin|cache|era)_|lib/pdata_tools)[a-z_/-]*' | sort -u >paths
        what="the paths of $page"
        grep -q initramfs-hook paths || bad 'no hook'
        while read -r path; do
            [ -e "names/there$path" ] || bad "$path isn't there"
        done <paths
    done
    # what a command prints begins with its name, and pages have their names there
    sed -i "s|^program=.*|program=$PROGRAM|" names/there/usr/lib/pdata_tools/sbin/thin_check
    try 5 names/there/usr/sbin/pdata_thin_check missing.img
    notes 'pdata_tools: device fault' "pdata_thin_check: missing.img isn't there"
    what='the pages that are named'
    ! grep -rnE "(^|[^_])($names)\(8\)" names/there/usr/lib/pdata_tools/sbin names/there/usr/lib/pdata_tools/libexec >differs ||
        bad "$(cat differs)"

    # After an upgrade and a removal it says what ./install says
    mkdir -p names/root/etc/initramfs-tools/hooks names/root/etc/dracut.conf.d names/root/etc/lvm names/empty
    : >names/root/etc/initramfs-tools/hooks/pdata_tools
    : >names/root/etc/dracut.conf.d/pdata_tools.conf
    echo 'thin_check_executable = "/usr/lib/pdata_tools/libexec/pdata_tools/thin_check"' >names/root/etc/lvm/lvm.conf
    ramdisk='pdata-tools: the initial RAM disk is to be made anew:'
    try 0 env DPKG_ROOT="$tmp/names/root" names/control/postinst configure ''
    notes
    try 0 env DPKG_ROOT="$tmp/names/root" names/control/postinst configure 0.1
    notes "$ramdisk update-initramfs -u" "$ramdisk dracut -f"
    try 0 env DPKG_ROOT="$tmp/names/root" names/control/postrm upgrade 0.1
    notes
    try 0 env DPKG_ROOT="$tmp/names/root" names/control/postrm remove
    notes 'pdata-tools: lvm.conf names commands that are gone: LVM now activates without a check. Take these lines out' \
        "$ramdisk update-initramfs -u" "$ramdisk dracut -f"
    try 0 env DPKG_ROOT="$tmp/names/empty" names/control/postrm remove
    notes
    out
    rm -rf names tar.gz.plain tar.xz.plain page.8
else
    skip 'the names in the packages, as dpkg-deb, sha256sum or tar is not there'
fi
