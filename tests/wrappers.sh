#!/bin/sh
# Installs into a temporary folder and tries every command on the example images: its status, its output and its notes.
#
#   tests/wrappers.sh           tries what each file of tests/wrappers has
#   tests/wrappers.sh NAME..    tries what these files have, as in: tests/wrappers.sh install lvm
#
# It wants the built program: crates/pdata_tools/out/pdata_tools, or what PROGRAM names. What needs a tool that is
# missing is skipped, with a word.
set -u

here=$(CDPATH='' cd -- "$(dirname -- "$0")/.." && pwd)
# shellcheck source=tests/wrappers/lib.sh
. "$here/tests/wrappers/lib.sh"

# The files' names: first those that all others rest on, and then the others as the alphabet has them
names() {
    echo install
    echo words
    for file in "$here"/tests/wrappers/*.sh; do
        name=${file##*/}
        case ${name%.sh} in
        lib | install | words) ;;
        *) printf '%s\n' "${name%.sh}" ;;
        esac
    done
}

# shellcheck disable=SC2046 # several names
[ $# -gt 0 ] || set -- $(names)
for name do
    if [ ! -f "$here/tests/wrappers/$name.sh" ] || [ "$name" = lib ]; then
        printf 'wrappers: tests/wrappers has no %s.sh\n' "$name" >&2
        exit 2
    fi
done
for name do
    try_file "$name"
done

printf 'wrappers: %s tries, %s wrong\n' "$tries" "$wrong"
[ "$wrong" -eq 0 ]
