#!/usr/bin/env bash
# The earlier of two moments is chosen once for every lit phase: the laws of Timed, of Warning and of Ending each refuse the must-fail edits of
# that choice, for themselves. rt tells only the first error of an edit, so both are checked here once more, in a copy of `rules` and of what it
# stands on. Says what differs; succeeds where nothing does.
set -u
cd "$(dirname "$0")/.." || exit 2
root=$PWD
. making/files.sh

work=$(mktemp -d) || exit 2
trap 'rm -rf "$work"' EXIT

# edited EDIT: applies a must-fail edit to the copy: each text stands once in its file, and makes way for the new one.
edited() {
    local line file='' old='' text
    while IFS= read -r line; do
        case $line in
        'file: '*) file=$work/crates/rules/${line#file: } ;;
        'old: '*) old=${line#old: } ;;
        'new: '*)
            text=$(<"$file")
            [[ $text == *"$old"* && ${text#*"$old"} != *"$old"* ]] || return
            printf '%s\n' "${text/"$old"/"${line#new: }"}" >"$file"
            ;;
        esac
    done <"crates/rules/must-fail/$1.edit"
}

# refused_by EDIT LAW..: the check refuses the edit, and each law's own proof fails: it is not only left out after another.
refused_by() {
    local edit=$1 law bad=0
    shift
    rm -rf "$work/crates/rules" && cp -r crates/rules "$work/crates/" && edited "$edit" || { echo "$edit cannot be applied"; return 1; }
    ! (cd "$work/crates/rules" && rt check) >"$work/log" 2>&1 || { echo "$edit: not refused"; return 1; }
    for law in "$@"; do
        grep -F "error: \`$law\`: " "$work/log" | grep -qv 'was not admitted' || { echo "$edit: not refused by $law"; bad=1; }
    done
    [ "$bad" -eq 0 ] || grep -F ': error: ' "$work/log" | cut -c 1-200
    return "$bad"
}

mkdir "$work/crates"
for crate in $(needed rules); do
    cp -r "crates/$crate" "$work/crates/"
    grep "^$crate:" crates.txt >>"$work/crates.txt"
done
bad=0
for edit in off_ignores_the_own_end off_is_forgotten; do
    refused_by "$edit" off_timed off_warning off_ending || bad=1
done
exit $bad
