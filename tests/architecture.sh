#!/bin/sh
# Compares the tables of docs/ARCHITECTURE.md with crates.txt: both must name the same crates, in the same order. Each crate must stand
# on earlier rows alone, and no chain of libraries below the program may have more than twelve crates.
#
#   tests/architecture.sh           compares; the status is 1 where something differs
#   tests/architecture.sh chain     prints the longest chain
set -eu
cd "$(dirname "$0")/.."

most=12
tmp=$(mktemp -d)
trap 'rm -rf "$tmp"' EXIT
sed -n 's/^\([a-z_0-9]*\):.*/\1/p' crates.txt >"$tmp/crates.txt"
sed -n 's/^| \(pd[a-z_, ]*\) |.*/\1/p' docs/ARCHITECTURE.md | tr -d ' ' | tr ',' '\n' >"$tmp/ARCHITECTURE.md"
diff "$tmp/crates.txt" "$tmp/ARCHITECTURE.md"

awk -v most="$most" -v asked="${1-}" '
    /^[a-z_0-9]+:/ {
        sub(/#.*/, "")
        name = $1
        sub(/:$/, "", name)
        rank[name] = 1
        way[name] = name
        for (i = 2; i <= NF; i++) {
            if (!($i in rank)) { if (system("test -d crates/" $i) == 0) { print name " stands on the later row " $i; bad = 1 }; continue }
            if (rank[$i] + 1 > rank[name]) { rank[name] = rank[$i] + 1; way[name] = way[$i] " " name }
        }
        library = name !~ /^(pdata_tools|pd_word_list|pd_samples|pd_tests)/
        if (library && rank[name] > longest) { longest = rank[name]; chain = way[name] }
    }
    END {
        if (asked == "chain") print longest ": " chain
        if (longest > most) { print "a chain of " longest " crates: " chain; bad = 1 }
        exit bad
    }' crates.txt
