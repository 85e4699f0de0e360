#!/usr/bin/env bash
# Whether the dumps of docs/FORMAT.md are true. Says what differs; succeeds where nothing does.
#
# Usage: tests/format.sh             the dumps of files, against the files
#        tests/format.sh BRIDGE..    those of what a show gives, against house_run_to, where BRIDGE.. speaks the protocol of bridge.c
set -u
cd "$(dirname "$0")/.." || exit 2
page=docs/FORMAT.md
work=$(mktemp -d) || exit 2
trap 'rm -rf "$work"' EXIT

# octets FILE FROM LENGTH: in hexadecimal, on one line.
octets() {
    od -An -v -tx1 -j "$2" -N "$3" "$1" | xargs
}

# dump TITLE FROM: the octets of the block of this title, on one line. Each of its lines has an offset, which must be that of its first
# octet, counted from FROM; octets with one space between; and after two spaces what they mean.
dump() {
    awk -v title="\`\`\`hex $1" -v at="$2" '
        $0 == title { inside = 1; next }
        /^```/ { inside = 0 }
        inside {
            sub(/^ +/, "")
            split($0, part, ": ")
            if (part[1] != at) printf "(offset %s is %d) ", part[1], at
            sub(/^[0-9]+: /, "")
            sub(/  .*/, "")
            at += NF
            printf "%s ", $0
        }' "$page" | xargs
}

# compare TITLE FROM OCTETS
compare() {
    local shown
    compared=$((compared + 1))
    shown=$(dump "$1" "$2")
    [ "$shown" = "$3" ] || { printf '%s: %s\n  it is %s\n' "$1" "$shown" "$3" && bad=1; }
}

# The titles of the dumps: a file, from where and how many octets; or what is given by which show.
titles() {
    sed -n 's/^```hex //p' "$page"
}

# little NUMBER: four octets, least significant first, as the bridge reads them.
little() {
    printf "$(printf '\\x%02x' $(($1 & 255)) $(($1 >> 8 & 255)) $(($1 >> 16 & 255)) $(($1 >> 24)))"
}

# play SHOW BRIDGE..: what house_run_to gives, in a file for each part. The room is just what the show asks for.
play() {
    local show=$1 n length
    shift
    n=$((16#$(octets "$show" 8 4 | tr -d ' ')))
    {
        printf t
        for length in "$(stat -c %s "$show")" 56 $((8 * (3 * n + 3))) "$n" 0; do little "$length"; done
        printf '\0\0\0'
        cat "$show"
        head -c 56 /dev/zero
    } | "$@" >"$work/given"
    number=$(octets "$work/given" 0 8 | tr ' ' '\n' | tac | xargs)
    state=$(octets "$work/given" 8 56)
    records=$(octets "$work/given" 64 $((8 * 16#$(cut -d ' ' -f 5- <<<"$number" | tr -d ' '))))
    answers=$(octets "$work/given" $((64 + 8 * (3 * n + 3))) "$n")
}

compare_files() {
    local file from length
    while read -r file from length; do
        case $file in shows/*) compare "$file $from $length" "$from" "$(octets "$file" "$from" "$length")" ;; esac
    done < <(titles)
}

compare_given() {
    local what show
    while read -r what _ show; do
        case $what in number | state | records | answers) ;; *) continue ;; esac
        play "$show" "$@"
        compare "$what of $show" 0 "${!what}"
    done < <(titles)
}

bad=0
compared=0
if [ $# -eq 0 ]; then compare_files; else compare_given "$@"; fi
[ "$compared" -ge 4 ] || { echo "$page has only $compared such dumps" && bad=1; }
exit $bad
