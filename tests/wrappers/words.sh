# shellcheck shell=sh disable=SC2154,SC2034 # lib.sh sets what is used here, and reads what is set
# Words: each list of them has those of the table, and the program and its commands take these and no others

# The lists of words: what is installed and the pages have the words of the table

# These names, one a line, are those of the commands
named() {
    sort >names
    printf '%s\n' "$tools" "$sizes" | sort | diff - names >differs || bad "$(cat differs)"
}
for kind in sbin share/man/man8 share/bash-completion/completions; do
    what="the files of $kind"
    # shellcheck disable=SC2012 # names of letters
    ls "$prefix/$kind" | sed 's/\.8$//' | grep -vx -e pdata_tools -e pdata_tools-lvm | named
done
if command -v bash >/dev/null; then
    what='the tools that are completed'
    # shellcheck disable=SC2016 # the inner shell's
    bash -c '. "$0" && complete -p' "$prefix/share/bash-completion/completions/pdata_tools" | sed 's/.* //' | grep -vx pdata_tools | named
fi

# A synopsis word by word, with the table's words for values
plain() {
    tr -s ' ' '\n' | sed -E -e 's/^(N|ERA|SECTORS|BLOCKS)(]*)$/NUMBER\2/' -e 's/^1\|2/VERSION/'
}
# The synopsis of a page
synopsis_of() {
    awk '/^\.Sh/ { on = ($2 == "SYNOPSIS"); next }
        !on { next }
        /^\.Nm/ { printf "%s%s", space, tool; space = " "; next }
        /^\.Oo/ { open = "["; next }
        /^\.Oc/ { printf "]"; next }
        {
            gsub(/ Ns \.\. Ns Ar /, "..")
            end = sub(/^\.Op /, ".") ? "]" : ""
            if (end != "") open = "["
            for (i = 1; i < NF; i += 2) {
                printf " %s%s", open, $i ~ /Fl$/ ? "-" $(i + 1) : toupper($(i + 1))
                open = ""
            }
            printf "%s", end
        }
        END { print "" }' tool="$1" "$here/man/$1.8"
}
for tool in $tools $sizes; do
    grep -h "^$tool " "$table" "$forms" | plain >wanted
    what="$tool --help"
    "$tool" --help | sed -e 's/^usage: //' -e '/^ *STAGE:/d' -e '/^ *see /d' -e '/^  -/,$d' | plain >got
    same wanted got
    what="the lines of $tool --help"
    grep -h "^$tool " "$table" "$forms" | tr -s ' []' '\n' | grep '^-' | sort -u >wanted
    "$tool" --help | sed -n 's/^  \(-[a-z-]*\) .*/\1/p' | sort -u | comm -23 wanted - >differs
    [ ! -s differs ] || bad "nothing says what these do: $(cat differs)"
    what="the synopsis of $tool.8"
    grep -h "^$tool " "$table" "$forms" | plain >wanted
    synopsis_of "$tool" | plain >got
    same wanted got
done

# the words of options, with their values
grep -ohE -e '--?[a-z][a-z-]*( [A-Z][A-Z.]*)?' "$table" "$forms" | sort -u >options
sed -n '/^takes_value() {/,/^}/p' "$prefix/sbin/thin_check" >takes_value.sh
what='the options with a value'
# shellcheck disable=SC1091
. ./takes_value.sh
while read -r option value; do
    case $value in
    '') ! takes_value "$option" || bad "$option has no value" ;;
    *) takes_value "$option" || bad "$option has a value" ;;
    esac
done <options
tr -s ' );|' '\n' <takes_value.sh | grep '^-' | sort >got
sed -n 's/ .*//p' options | sort -u >wanted
same wanted got

# The program takes what the table has: all of it, and only what is wanted; nothing twice, and nothing that is wanted left out
takes() {
    status=$1
    shift
    what=$*
    tries=$((tries + 1))
    pdata_tools "$@" >/dev/null 2>&1
    got=$?
    case $status,$got in
    yes,2 | no,[!2]) bad "status $got" ;;
    esac
}
parts_of() {
    tr -d '[]' | sed -E 's/(-[^ ]*( [^- ][^ ]*)?|none)/|&/g' | tr '|' '\n' | sed '/^ *$/d' >parts
}
while read -r tool row; do
    row=$(printf '%s\n' "$row" | sed -E -e 's/FILE|DEVICE/none\/it/g' -e 's/FIRST/0/' -e 's/END/1/' -e 's/STAGE/counts/' -e 's/NUMBER|VERSION/1/g')
    all=$(printf '%s\n' "$row" | tr -d '[]')
    least=$(printf '%s\n' "$row" | sed 's/\[[^]]*\] *//g')
    # shellcheck disable=SC2086 # several words
    takes yes "$tool" $all
    # shellcheck disable=SC2086
    takes yes "$tool" $least
    # each part, an option with its value, a flag, or the operand: not twice
    printf '%s\n' "$row" | sed 's/] /|/g' | tr '|' '\n' | parts_of
    while read -r part; do
        # shellcheck disable=SC2086
        takes no "$tool" $all $part
    done <parts
    # nor is one that is wanted left out
    printf '%s\n' "$least" | parts_of
    while read -r part; do
        # shellcheck disable=SC2046
        takes no "$tool" $(printf '%s\n' "$least" | sed "s|$part||")
    done <parts
done <"$table"

# Words

usage='pdata_tools: the words spell no request'
for tool in $tools; do
    try 0 "$tool" -h
    notes
    cp out synopsis
    grep -q "^usage: $tool " synopsis || bad 'no synopsis'
    try 0 "$tool" --help
    same out synopsis
    sed -i '/^  -/,$d' synopsis
    for word in -V --version; do
        try 0 "$tool" "$word"
        out "$tool (pdata_tools) $release"
        notes
    done
    for word in '' --no-such-word; do
        try 2 "$tool" ${word:+"$word"}
        out
        [ "$(sed 1q notes)" = "$usage" ] || bad 'the program was to say it first'
        sed -e 1d -e "/^$tool: /d" notes >rest
        same rest synopsis
    done
done
try 2 pdata_tools
notes "$usage"
try 2 pdata_tools -V
notes "$usage"
try 2 thin_check thin-pool.img thin-pool.img
try 2 thin_check --until all thin-pool.img
try 2 thin_check --until super --clear-needs-check-flag thin-pool.img
try 2 era_check --clear-needs-check-flag era.img
try 2 thin_check --ignore-non-fatal-errors --until whole thin-pool.img
try 2 thin_check --ignore-non-fatal-errors --ignore-non-fatal-errors thin-pool.img
try 2 thin_rmap --region 5..4 thin-pool.img
try 2 thin_rmap --region 05..6 thin-pool.img
try 2 thin_generate --number 0
try 2 thin_generate --number 10001
try 2 cache_restore --metadata-version 3 -i cache.txt -o cache.img
try 2 era_invalidate --written-since 4294967296 era.img

# The words of thin-provisioning-tools that the commands take for ours

for word in -q --quiet; do
    try 0 thin_check $word thin-pool.img
    out
    notes
    try 1 thin_check leak.img $word
    out
    notes
    try 0 thin_dump $word thin-pool.img
    same out thin-pool.txt
done
try 0 thin_check --until=super damaged.img
checked damaged.img
try 0 thin_check --super-block-only damaged.img
checked damaged.img
for word in --output=dumped.txt '--output dumped.txt'; do
    rm -f dumped.txt
    # shellcheck disable=SC2086 # two words
    try 0 thin_dump $word thin-pool.img
    out
    same dumped.txt thin-pool.txt
done
zeros new.img 1024
try 0 cache_restore --input=cache.txt --metadata-version=2 --output new.img
try 0 cache_check new.img
try 0 thin_rmap --region=100..101 thin-pool.img
out 'block 100 device 3 virtual 100'
try 2 thin_dump --output --quiet thin-pool.img
try 2 thin_check --until= thin-pool.img
