#!/bin/sh
# Finds the definitions that the promises rest on, and compares them with docs/TRUSTED_BASE.md and docs/PROVED.md.
#
#   tests/trusted_base.sh            compares; the status is 1 where a list, a mark or a number is wrong
#   tests/trusted_base.sh LAW        prints the lines that one law rests on, or those of the clause of `run_tool`
#   tests/trusted_base.sh numbers    prints for each law on how many lines it rests
#   tests/trusted_base.sh print      prints a row of the list for each file, with what its first lines say
#
# For one law the names are followed that its clause uses: tests/closure.awk says how. For the list of files whole files are followed.
# A promise rests on the files that its clause imports, on those that these import, and so on. The promises are the
# clause of run_tool, and the laws of pd_laws_answers. The clause speaks of any device, source and sink: so their traits say what it
# means, with their ghost members, and are roots too. So are the constants that definitions name, and the types of requests, of
# tools and of words that code and definitions share. A file of definitions of the list has the mark in its first line, and no
# other file has it. The numbers in the document's text are compared too.
set -eu
cd "$(dirname "$0")/.."

mark='-- Trusted base.'
list=docs/TRUSTED_BASE.md
traits='crates/pd_image/src/device.rt crates/pd_image/src/source.rt crates/pd_image/src/sink.rt'
constants='crates/pd_kinds/src/limits.rt'
requests='crates/pd_answers/src/request.rt crates/pd_answers/src/tool.rt'
top="crates/pd_answers/specs/Terms.antt crates/pd_answers/specs/Promises.antt crates/pd_answers/specs/Words.antt $traits $constants $requests"

# These files of definitions, and those that they import; or, of a source file, those that it imports. An import that
# names no file is of the toolchain, or a type that the code declares.
closure() {
    find crates/*/specs -name '*.antt' | awk -v roots="$*" '
        function add(path) {
            if (path in known && !(path in found)) { found[path] = 1; todo[++last] = path }
        }
        function imports(file,    line, part, path) {
            while ((getline line < file) > 0) {
                if (line !~ /^ *(ghost )?use Rattle\./) continue
                sub(/.*use Rattle\./, "", line)
                split(line, part, /\.specs\./)
                path = part[2]
                sub(/\.\{.*/, "", path)
                sub(/ as .*/, "", path)
                gsub(/\./, "/", path)
                add("crates/" part[1] "/specs/" path ".antt")
            }
            close(file)
        }
        { known[$0] = 1 }
        END {
            n = split(roots, start, " ")
            for (i = 1; i <= n; i++) { add(start[i]); imports(start[i]) }
            for (i = 1; i <= last; i++) imports(todo[i])
            for (path in found) print path
        }' | sort
}

# The names of the laws, and of the program's one call.
clauses() {
    echo run_tool
    sed -n 's/^pub fn \([a-z_]*\).*/\1/p' crates/pd_laws_answers/src/*.rt
}

# The lines that a law rests on: a row for each file, in the order of the list, and their number. Definitions that stand one below the
# other are one range.
lines_of() {
    printf '%s\n' "$1" | awk -v listed=1 -f tests/closure.awk | sort -k1,1 -k2n | awk -F '\t' -v list="$list" '
        function end_of_file() { if (file != "") printf "%06d %s: %s\n", rank, file, ranges " " from "-" to; ranges = "" }
        BEGIN {
            while ((getline row < list) > 0)
                if (split(row, part, /[][]/) > 2 && row ~ /^\| \[/) order["crates/" part[2]] = ++rows
        }
        {
            if ($1 == file && $2 <= to + 2) to = $3
            else {
                if ($1 == file) ranges = ranges " " from "-" to
                else { end_of_file(); file = $1; files++; rank = file ~ /\/pd_(laws_answers|tools)\/src\// ? 0 : file in order ? order[file] + 1 : 1 }
                from = $2
                to = $3
            }
            lines += $3 - $2 + 1
        }
        END { end_of_file(); printf "999999 %d lines in %d files\n", lines, files }' |
        sort | sed 's/^[0-9]* //; s/:  /: /'
}

# What the comment at the top of a file says, in one line, without the mark.
says() {
    awk -v mark="$mark" '
        !/^(--|\/\/!)/ { exit }
        { sub(/^(--|\/\/!) ?/, ""); text = text (text == "" ? "" : " ") $0 }
        END { sub("^" substr(mark, 4) " ?", "", text); print text }' "$1"
}

case "${1-}" in
    '' | print) ;;
    numbers)
        clauses | awk -f tests/closure.awk
        exit
        ;;
    *)
        clauses | grep -qx -- "$1" || {
            printf 'There is no law %s. "tests/trusted_base.sh numbers" names them.\n' "$1" >&2
            exit 1
        }
        lines_of "$1"
        exit
        ;;
esac

tmp=$(mktemp -d)
trap 'rm -rf "$tmp"' EXIT
# the names of the files are without blanks
# shellcheck disable=SC2086
closure $top >"$tmp/headline"
# shellcheck disable=SC2046,SC2086
closure $top $(find crates/pd_laws_answers/src -name '*.rt') >"$tmp/all"
# shellcheck disable=SC2086
printf '%s\n' $traits $constants $requests >"$tmp/sources"
cat "$tmp/all" "$tmp/sources" | sort >"$tmp/rows"

if [ "${1-}" = print ]; then
    while read -r file; do
        rests=laws
        ! cat "$tmp/headline" "$tmp/sources" | grep -qx "$file" || rests=headline
        printf '| [%s](../%s) | %s | %s |\n' "${file#crates/}" "$file" "$rests" "$(says "$file")"
    done <"$tmp/rows"
    exit
fi

sed -n 's/^| \[\([^]]*\)\](.*/crates\/\1/p' "$list" | sort >"$tmp/listed"
# shellcheck disable=SC2046
grep -lF -- "$mark" $(find crates/*/specs -name '*.antt') | sort >"$tmp/marked" || true
diff "$tmp/rows" "$tmp/listed"
diff "$tmp/all" "$tmp/marked"

# each law stands in docs/PROVED.md with the number of lines that it rests on
clauses | awk -f tests/closure.awk | awk '{ print $1, $2 }' | sort >"$tmp/numbers"
# shellcheck disable=SC2016
grep -oE '`[a-z_]+`( \|)? [0-9]+' docs/PROVED.md | tr -d '`|' | awk '
    NR == FNR { law[$1] = 1; next }
    $1 in law { print $1, $2 }' "$tmp/numbers" - | sort >"$tmp/told"
diff "$tmp/numbers" "$tmp/told"

# the numbers in the text
number() {
    wc -l <"$1" | tr -d ' '
}
# how many lines the law rests on, or the law over words with the most
rests_on() {
    sed -n "s/^$1 //p" "$tmp/numbers"
}
most() {
    sed -n 's/^pub fn \([a-z_]*\).*/\1/p' crates/pd_laws_answers/src/words.rt | while read -r law; do rests_on "$law"; done |
        sort -n | tail -n 1
}
find crates/*/specs -name '*.antt' >"$tmp/specs"
# shellcheck disable=SC2046
cat $(cat "$tmp/all") >"$tmp/text"
all=$(number "$tmp/all") headline=$(number "$tmp/headline")
tr '\n' ' ' <"$list" >"$tmp/list"
for told in \
    "\`thin_check_tells_clean\` rests on $(rests_on thin_check_tells_clean) lines" \
    "no law over words on more than $(most)" \
    "\`run_tool\` rests on $(rests_on run_tool) lines" \
    "$all of $(number "$tmp/specs") files of definitions, $(number "$tmp/text") lines" \
    "and $(number "$tmp/sources") source files" \
    "$headline files serve the clause of" \
    "The other $((all - headline)) files"; do
    grep -qF "$told" "$tmp/list" || {
        printf '%s should say: %s\n' "$list" "$told"
        exit 1
    }
done
tr '\n' ' ' <README.md | grep -qF "$(rests_on thin_check_tells_clean) lines for \`thin_check\`" || {
    printf 'README.md should say on how many lines thin_check rests\n'
    exit 1
}
