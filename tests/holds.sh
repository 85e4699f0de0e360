# What the tests of ./preview share: a folder of their own, with an empty file in it, and a command held to what it must write. Source it.
. tests/count.sh

work=$(mktemp -d) || exit 2
trap 'rm -rf "$work"' EXIT
: >"$work/nothing"

# verdict NAME WHY: a test that has passed where nothing is wrong.
verdict() {
    if [ -z "$2" ]; then
        pass "$1"
    else
        fail "$1: ${2#; }"
    fi
}

# holds NAME STATUS WANTED SAID WORDS..: the command WORDS.. ends with STATUS, prints exactly the file WANTED, and says on standard
# error exactly the file SAID, or, where that is a number, so many lines.
holds() {
    local name=$1 status=$2 wanted=$3 said=$4 got why=
    shift 4
    "$@" >"$work/out" 2>"$work/err"
    got=$?
    [ "$got" -eq "$status" ] || why="$why; exit status $got, not $status"
    cmp -s "$work/out" "$wanted" || why="$why; another printout"
    if [[ $said =~ ^[0-9]+$ ]]; then
        [ "$(wc -l <"$work/err")" -eq "$said" ] || why="$why; not $said lines on standard error"
    else
        cmp -s "$work/err" "$said" || why="$why; other words on standard error"
    fi
    verdict "$name" "$why"
    [ -z "$why" ] || { diff "$wanted" "$work/out" | head -n 10; head -n 10 "$work/err"; }
}
