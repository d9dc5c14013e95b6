# shellcheck shell=sh disable=SC2154,SC2034 # lib.sh sets what is used here, and reads what is set
# The package, of a copy that no repository has around it

if command -v sha256sum >/dev/null && command -v gzip >/dev/null && tar --version 2>/dev/null | grep -q GNU; then
    mkdir packed
    copy_parts packing VERSION README.md install package commands completion docs lvm man
    # here the program may be a script that names no C library
    cat "$PROGRAM" >packing/pdata_tools
    echo '# GLIBC_2.34' >>packing/pdata_tools
    chmod +x packing/pdata_tools
    echo '12 passed, 1 failed (12 of 13)' >gate.log
    try 1 env PROGRAM="$tmp/packing/pdata_tools" packing/package gate.log packed
    notes "package: the last line of gate.log isn't that of a gate in which nothing failed"
    try 1 env PROGRAM="$tmp/missing" packing/package gate.log packed
    echo '13 passed, 0 failed (all)' >gate.log
    try 0 env PROGRAM="$tmp/packing/pdata_tools" packing/package gate.log packed
    sed 1q out >kept
    printf '%s\n' "packed/pdata_tools-$release-x86_64.tar.xz" >wanted
    same kept wanted
    (cd packed && xz -dc "pdata_tools-$release-x86_64.tar.xz" | tar -xf -)
    unpacked=packed/pdata_tools-$release
    tail -n 1 "$unpacked/PROVED" >kept
    same kept gate.log
    try 0 env PREFIX="$tmp/unpacked" PROGRAM="$tmp/$unpacked/pdata_tools" "$unpacked/install"
    try 0 unpacked/sbin/thin_check thin-pool.img
    checked thin-pool.img
    echo 'more' >>"$unpacked/man/thin_ls.8"
    try 1 env PREFIX="$tmp/unpacked" PROGRAM="$tmp/$unpacked/pdata_tools" "$unpacked/install"
    notes_have "install: $tmp/$unpacked isn't as it was packed"
    if [ -f "packed/pdata-tools_${release}_amd64.deb" ]; then
        try 0 dpkg-deb -c "packed/pdata-tools_${release}_amd64.deb"
        awk '{ print $6 }' out | grep -v '/$' >paths
        ! grep -v -e '^./usr/lib/pdata_tools/' -e '^./usr/sbin/pdata_[a-z_]*$' -e '/pdata_[a-z_-]*\(\.8\.gz\)*$' -e /pdata-tools paths ||
            bad 'a name that others may have'
        try 0 dpkg-deb -x "packed/pdata-tools_${release}_amd64.deb" extracted
        grep -qx 'program=/usr/lib/pdata_tools/bin/pdata_tools' extracted/usr/sbin/pdata_thin_check || bad 'another program'
        what="the package's commands, and what is completed"
        printf '%s\n' "$tools" "$sizes" | sed 's/^/pdata_/' | sort >wanted
        ls extracted/usr/sbin >kept
        same kept wanted
        sed -n 's/^complete -F _pdata_tools //p' extracted/usr/share/bash-completion/completions/* >kept
        same kept wanted
        if command -v bash >/dev/null; then
            # shellcheck disable=SC2016 # the inner shell's
            try 0 bash -c '. "$0" && COMP_WORDS=("$@") && COMP_CWORD=1 && _pdata_tools && printf "%s\n" "${COMPREPLY[@]}"' \
                extracted/usr/share/bash-completion/completions/pdata_thin_dump pdata_thin_dump -
            out --shared -o --help --version
        fi
    else
        skip 'the Debian package, as there is no dpkg-deb'
    fi
    rm -rf packed packing unpacked extracted
else
    skip 'the package, as tar, gzip or sha256sum is not there'
fi
