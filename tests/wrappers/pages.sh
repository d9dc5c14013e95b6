# shellcheck shell=sh disable=SC2154,SC2034 # lib.sh sets what is used here, and reads what is set
# What is read: the documents that are compared with the code, the pages and their examples, and completion

# The map of the crates
try 0 "$here/tests/architecture.sh"
try 0 "$here/tests/trusted_base.sh"
out
notes

# The pages

for page in "$prefix"/share/man/man8/*.8; do
    # also before the installation: man ./man/thin_check.8
    what=${page##*/}
    grep -qx ".Os \"pdata_tools $release\"" "$here/man/${page##*/}" || bad 'the page has another version than the file VERSION'
    ! grep -q '@[A-Z]*@' "$here/man/${page##*/}" || bad 'the page has something to be put in'
    ! sed -n '/^\.Bd/,/^\.Ed/p' "$here/man/${page##*/}" | grep -q '\\$' || bad 'a backslash ends a line'
    if command -v mandoc >/dev/null; then
        try 0 mandoc -T lint -W warning "$page"
        out
    fi
    if command -v man >/dev/null && man --version >/dev/null 2>&1; then
        try 0 man --warnings -l "$page"
        notes
    fi
done
# their examples: the lines after a dollar are run, and the others are what is printed
mkdir examples
cp thin-pool.img cache.img era.img thin-pool.txt cache.txt era.txt examples/
cp leak.img crashed.img
for page in "$prefix"/share/man/man8/*.8; do
    what="the examples of ${page##*/}"
    sed -n '/^\.Sh EXAMPLES/,/^\.Sh SEE/p' "$page" | sed -n '/^\.Bd -literal/,/^\.Ed/p' >blocks
    if grep -q '^\$ ' blocks; then
        tries=$((tries + 1))
        sed -n 's/^\$ //p' blocks >commands
        sed -n '/^\$ /,/^\.Ed/p' blocks | grep -v -e '^\$ ' -e '^\.' >wanted
        sh commands >out 2>&1
        diff wanted out >differs || bad "$(cat differs)"
    fi
done
command -v mandoc >/dev/null || skip "the pages' lint, as there is no mandoc"
command -v man >/dev/null || skip 'the pages, as there is no man'

# Completion

if command -v bash >/dev/null; then
    cat >complete.bash <<'END'
. "$1"
shift
COMP_WORDS=("$@")
COMP_CWORD=$(($# - 1))
_pdata_tools
printf '%s\n' "${COMPREPLY[@]}"
END
    complete=$prefix/share/bash-completion/completions/pdata_tools
    # the table's options, and what its values are
    for tool in $tools; do
        grep "^$tool " "$table" | tr ' ' '\n' | tr -d '[]' | grep '^-' | awk '!seen[$0]++' >options
        try 0 bash complete.bash "$complete" pdata_tools "$tool" -
        same options out
        grep "^$tool " "$table" | sed -E 's/(-[^] ]*) ([A-Z.]+)/|\1 \2|/g' | tr '|' '\n' | grep '^-' >options
        while read -r option value; do
            try 0 bash complete.bash "$complete" pdata_tools "$tool" "$option" ''
            case $value in
            STAGE) out super walk order whole counts ;;
            VERSION) out 1 2 ;;
            FILE | DEVICE) grep -qx thin-pool.img out || bad 'no files' ;;
            *) out '' ;;
            esac
        done <options
    done
    try 0 bash complete.bash "$complete" pdata_tools thin_r
    out thin_restore thin_repair thin_rmap thin_rehearse
    try 0 bash complete.bash "$complete" thin_repair --dry-run -
    out --shared -i --transaction-id --data-block-size --nr-data-blocks --mapping-root --details-root
    try 0 bash complete.bash "$complete" thin_repair -i lost.img --transaction-id 5 --d
    out --data-block-size --details-root --dry-run
    try 0 bash complete.bash "$complete" thin_repair -o fresh.img --d
    out --data-block-size --details-root
    try 0 bash complete.bash "$complete" thin_check --until w
    out walk whole
    try 0 bash complete.bash "$complete" pdata_tools thin_check --until counts -
    out --ignore-non-fatal-errors --clear-needs-check-flag
    try 0 bash complete.bash "$complete" cache_check --ignore-non-fatal-errors -
    out --until --clear-needs-check-flag
    try 0 bash complete.bash "$complete" era_check -
    out --until --ignore-non-fatal-errors --help --version
    try 0 bash complete.bash "$complete" thin_ls --v
    out --version
    try 0 bash complete.bash "$complete" pdata_thin_restore --h
    out --help
    try 0 bash complete.bash "$complete" pdata_tools thin_ls --h
    out ''
    # what the commands alone take
    try 0 bash complete.bash "$complete" thin_metadata_size -
    out --block-size --pool-size --max-thins --unit --numeric-only --help --version
    try 0 bash complete.bash "$complete" pdata_cache_metadata_size --nr-blocks 5 --
    out --max-hint-width --unit --numeric-only
    try 0 bash complete.bash "$complete" thin_ls --no-headers -
    out --format -o
    try 0 bash complete.bash "$complete" thin_ls --format DEV,EXCLUSIVE_
    out DEV,EXCLUSIVE_BLOCKS DEV,EXCLUSIVE_SECTORS DEV,EXCLUSIVE_BYTES
    try 0 bash complete.bash "$complete" thin_trim --metadata-dev thin-pool.img -
    out --dry-run --data-dev
    try 0 bash complete.bash "$complete" pdata_tools thin_trim -
    out --list -o
    try 0 bash complete.bash "$complete" cache_metadata_size --unit ''
    out b s k K m M g G t T p P e E
    try 0 bash complete.bash "$complete" pdata_tools thin_m
    out ''
    try 0 bash complete.bash "$complete" pdata_tools thin_metadata_size -
    out ''
    for stage in super walk order whole; do
        try 0 bash complete.bash "$complete" thin_check --until $stage -
        out ''
    done
    try 0 bash complete.bash "$complete" thin_check --clear-needs-check-flag --until ''
    out counts
    try 0 bash complete.bash "$complete" cache_restore -i cache.txt ''
    out --metadata-version -o
    try 0 bash complete.bash "$complete" cache_writeback --fast-device fast.img ''
    out --metadata-device --origin-device
    try 0 bash complete.bash "$complete" cache_writeback --origin-device thin-pool.i
    out thin-pool.img
    try 0 bash complete.bash "$complete" thin_shrink -i thin-pool.img --data data.img -
    out --shared -o --nr-blocks
    try 0 bash complete.bash "$complete" thin_shrink --data thin-pool.i
    out thin-pool.img
    try 0 bash complete.bash "$complete" thin_dump thin-pool.i
    out thin-pool.img
else
    skip 'completion, as there is no bash'
fi
