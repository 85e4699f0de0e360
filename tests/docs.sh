#!/usr/bin/env bash
# Whether the documents tell the truth about the repository: the edges of ARCHITECTURE, the edits and the theorems that PROMISES and
# TRACE name, the dumps of FORMAT. Says what differs.
set -u
cd "$(dirname "$0")/.." || exit 2
bad=0

differ() { # WHAT LINES: the lines are what is wrong; none is as it should be
    [ -n "$2" ] || return 0
    printf '%s:\n%s\n' "$1" "$2"
    bad=1
}

# ARCHITECTURE shows every edge of crates.txt.
differ "the edges of ARCHITECTURE differ from crates.txt" \
    "$(diff <(tests/edges.sh) <(sed -n '/^| |.* base |/,/^$/p' docs/ARCHITECTURE.md | grep .))"

# Every must-fail edit stands in the table of PROMISES, and every row of the table is an edit.
differ "the must-fail edits of PROMISES differ from those of crates/" \
    "$(diff <(ls crates/*/must-fail/*.edit | sed 's|^crates/||; s|/must-fail/|/|; s|\.edit$||' | sort) \
        <(sed -n '/^## Must-fail edits/,/^## Tested/p' docs/PROMISES.md | sed -n 's/^| `\([a-z_]*\/[a-z0-9_]*\)` .*/\1/p' | sort))"

# Every inner public function or method that asks for something stands in the table of PROMISES, and nothing else does.
differ "the inner functions with a condition differ from those of PROMISES" \
    "$(diff <(awk 'FNR == 1 { owner = ""; name = ""; file = FILENAME; sub("^crates/", "", file); sub("/src/", "::", file); sub("[.]rt$", "", file); sub("::lib$", "", file) }
            /^impl/ { owner = $0; sub(/^impl(<[^>]*>)? /, "", owner); sub(/.* for /, "", owner); sub(/[<( {].*/, "", owner); owner = owner "::" }
            /^}/ { owner = "" }
            /^ *(pub(\([a-z]+\))? )?fn / { name = ""; if ($1 == "pub") { name = $3; sub(/[<(].*/, "", name) } }
            /^ *requires/ { if (name != "") print file "::" owner name }' \
            crates/*/src/*.rt | sort -u) \
        <(sed -n '/^### Inner functions/,/^## /p' docs/PROMISES.md | grep '^|' | cut -d'|' -f3 | grep -oE '`[a-z]+(::[A-Za-z0-9_]+)+`' | tr -d '`' | sort -u))"

# Every type of a library crate that holds something beside its fields stands in the table of types, and nothing else does.
differ "the types that hold something differ from those of PROMISES" \
    "$(diff <(awk 'FNR == 1 { name = ""; file = FILENAME; sub("^crates/", "", file); sub("/src/", "::", file); sub("[.]rt$", "", file); sub("::lib$", "", file) }
            /^pub(\([a-z]+\))? struct .*[{]$/ { name = $3; sub(/[<].*/, "", name) }
            /^}/ { name = "" }
            /^ *(pub )?ghost / { if (name != "") print file "::" name }' \
            $(ls crates/*/src/lib.rt | sed 's|lib[.]rt$|*.rt|') | sort -u) \
        <(sed -n '/^| Type | What it holds /,/^$/p' docs/PROMISES.md | sed -n 's/^| `\([A-Za-z0-9_:]*\)` .*/\1/p' | sort -u))"

# The dumps of files in FORMAT are those files. (Those of what a show gives are compared where there is an archive: tests/run.sh.)
differ "the dumps of FORMAT differ from the files" "$(tests/format.sh)"

# The newest entry of CHANGELOG is of the header's version.
differ "the newest version of CHANGELOG differs from the header's" \
    "$(diff <(sed -n 's/^## \([0-9][0-9.]*\),.*/\1/p' CHANGELOG.md | head -n 1) <(making/version.sh))"

# Contracts cite definitions, never a proof.
differ "a contract cites a proof" "$(grep -nE '^ghost use .*[.]proofs\b' crates/*/src/*.rt)"

# declared: what specs/ and proofs/ declare: definitions, theorems, and the parts of both.
declared() {
    grep -rhoE --include='*.antt' --exclude-dir=out '^ *((pub|abbrev|unfoldable|pattern) )*[a-z][a-z0-9]*(_[a-z0-9]+)+ :( |$)' crates | sed -E 's/ :.*$//; s/^.* //'
}

# other_names: the names that look like a theorem's and are none: crates, functions of the code, of words/ and of the header, and must-fail edits.
other_names() {
    ls crates
    grep -hoE '\bfn [a-z][a-z0-9_]*' crates/*/src/*.rt | cut -d ' ' -f 2
    grep -hoE '^function [a-z_]+' words/*.awk | cut -d ' ' -f 2
    grep -hoE '\bhouse_[a-z_]+' include/house.h
    ls crates/*/must-fail/*.edit | sed 's|.*/||; s|\.edit$||'
}

# named: the names of two or more words that stand alone in backquotes. (What a proof of a function calls its goals is Rattle's.)
named() {
    grep -ohE '`[a-z][a-z0-9]*([_-][a-z0-9]+)+`' docs/PROMISES.md docs/TRACE.md docs/ARCHITECTURE.md | tr -d '`' | grep -vxE '(returns|loop)[_-][0-9a-z_-]+|.*[_-]requires([_-][0-9]+)?'
}

# A theorem that is named is declared. (A name with hyphens never is.)
differ "named in the documents, and declared nowhere" "$(named | sort -u | comm -23 - <({ declared && other_names; } | sort -u))"

exit $bad
