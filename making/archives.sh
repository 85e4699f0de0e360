#!/usr/bin/env bash
# Makes the archives for C: target/staticlib/libNAME.a, by `rt lib` in crates/NAME_c, which proves that crate and those it stands on where they
# are new or changed.
#
# Usage: making/archives.sh [NAME..]: all of them, or those of these libraries: house desk walls version
set -u
cd "$(dirname "$0")/.." || exit 2
. making/kit.sh

[ $# -gt 0 ] || set -- "${libraries[@]}"
for name in "$@"; do
    (cd "crates/${name}_c" && rt lib) || exit
    install -D -m 644 "crates/${name}_c/out/lib${name}_c.a" "target/staticlib/lib$name.a" || exit
done
