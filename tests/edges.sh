#!/usr/bin/env bash
# Prints every edge of crates.txt as a table: a row for each crate, a column for each crate that another one stands on.
set -eu
cd "$(dirname "$0")/.."

awk '
    { sub(/#.*/, ""); sub(/ +staticlib *:/, ":") }
    /:/ {
        name = $1; sub(/:$/, "", name)
        own[name] = 1; rows[++count] = name
        for (i = 2; i <= NF; i++) edge[name, $i] = 1
    }
    END {
        for (r = 1; r <= count; r++)
            for (c = 1; c <= count; c++)
                if ((rows[r], rows[c]) in edge) stood[rows[c]] = 1
        head = "| |"; rule = "|---|"
        for (c = 1; c <= count; c++)
            if (rows[c] in stood) { columns[++wide] = rows[c]; head = head " " rows[c] " |"; rule = rule "---|" }
        print head; print rule
        for (r = 1; r <= count; r++) {
            line = "| `" rows[r] "` |"
            for (c = 1; c <= wide; c++) line = line ((rows[r], columns[c]) in edge ? " x |" : " |")
            print line
        }
    }' crates.txt
