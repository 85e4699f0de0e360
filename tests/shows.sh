#!/usr/bin/env bash
# Plays every show and holds what ./preview prints, and how it ends, to what is written down. The last line is
# 'N passed, M failed'; the exit status is 0 exactly when M is 0.
set -u
cd "$(dirname "$0")/.." || exit 2

. tests/holds.sh

# play_all END WORDS..: every shows/NAME.END, by ./preview WORDS.. and the file.
play_all() {
    local end=$1 show name
    shift
    for show in shows/*."$end"; do
        [ -f "$show" ] || continue
        shows=$((shows + 1))
        name=$(basename "$show" ".$end")
        case $name in
        refused_*) holds "$name" 1 "shows/$name.txt" "shows/$name.why" ./preview "$@" "$show" ;;
        *)
            holds "$name" 0 "shows/$name.txt" 0 ./preview "$@" "$show"
            holds "$name in words" 0 "shows/$name.words" 0 ./preview --words "$@" "$show"
            ;;
        esac
    done
}

shows=0
play_all cue
play_all wall --wall

echo "NO 1 0" >"$work/no_1"
echo "NO 4 0" >"$work/no_4"
(cat shows/example.cue && head -c 20000 /dev/zero) >"$work/long.cue"
(cat shows/foyer.wall && head -c 20000 /dev/zero) >"$work/long.wall"

# the longest files: every input is an Off at 0, and changes nothing
longest() { # VERSION HEADER-OFFSET-OF-INPUTS TIMES-OCTETS
    printf "\\0\\$1\\0\\1\\0\\0\\0\\24\\0\\0\\10\\0\\0\\0\\0\\$2\\0\\0\\0\\0"
    printf "$3"
    printf '\0%.0s' {1..8}
    printf '\377\0%.0s' {1..8}
    printf '\0\0\0\0\1\0\0\0%.0s' {1..2048}
}
{
    echo "OK 2048"
    echo "R 0 0 1 0"
    for i in {0..2047}; do echo "A $i 1"; done
    echo "E 1"
} >"$work/longest.txt"
longest 1 64 '\0\0\0\0\0\1\0\0' >"$work/longest_1.cue"
longest 2 74 '\0\0\0\0\0\0\0\0\0\0\0\1\0\0\0\0' >"$work/longest_2.cue"
(cat "$work/longest_2.cue" && printf '\0\0\0\0') >"$work/longest_2.wall"
holds "the longest file of version 1" 0 "$work/longest.txt" 0 ./preview "$work/longest_1.cue"
holds "the longest file of version 2" 0 "$work/longest.txt" 0 ./preview "$work/longest_2.cue"
holds "the longest wall list of version 2" 0 "$work/longest.txt" 0 ./preview --wall "$work/longest_2.wall"

holds "no file named: the example" 0 shows/example.txt 0 ./preview
holds "an empty file" 1 "$work/no_1" 1 ./preview "$work/nothing"
holds "an empty wall list" 1 "$work/no_1" 1 ./preview --wall "$work/nothing"
holds "a file longer than the longest" 1 "$work/no_4" 1 ./preview "$work/long.cue"
holds "a wall list longer than the longest" 1 "$work/no_4" 1 ./preview --wall "$work/long.wall"
holds "a file that is not there" 2 "$work/nothing" 1 ./preview "$work/missing.cue"
holds "a folder" 2 "$work/nothing" 1 ./preview shows
holds "a name from another folder" 0 shows/ties.txt 0 bash -c 'cd shows && ../preview ties.cue'

# the stored test of the print program is the example show
for pair in example.cue:stdin example.txt:stdout; do
    verdict "shows/${pair%:*} is crates/cueprint/${pair#*:}" "$(cmp "shows/${pair%:*}" "crates/cueprint/${pair#*:}" 2>&1)"
done

# the files are those that make.py writes
if command -v python3 >/dev/null; then
    mkdir "$work/made" && cp shows/make.py "$work/made/" && python3 "$work/made/make.py"
    for show in shows/*.cue shows/*.wall; do
        cmp "$show" "$work/made/$(basename "$show")" || echo "$show"
    done >"$work/other" 2>&1
    made=$(find "$work/made" -name '*.cue' -o -name '*.wall' | wc -l)
    [ "$made" -eq "$shows" ] || echo "$made shows are made, $shows are there" >>"$work/other"
    verdict "shows/make.py writes the $shows shows" "$(cat "$work/other")"
fi

[ "$shows" -gt 0 ] || failed=$((failed + 1))
tally
