#!/usr/bin/env bash
# Instructions and time of the proved calls against the second model in Rust, over the kinds of show of shows.rs: of an input, and of
# a whole call where a show has none. Needs valgrind and rustc. The proved calls are those of the archives.
set -eu
cd "$(dirname "$0")/.."
. making/kit.sh
out=target/bench
mkdir -p "$out"

# counted SHOW N SIDE TIMES: the instructions of the whole program.
counted() {
    valgrind --tool=callgrind --callgrind-out-file=/dev/null "$out/bench" count "$@" 2>&1 |
        sed -n 's/.*Collected : *\([0-9]*\).*/\1/p'
}

# instructions SHOW N SIDE: those of one show, a tenth of what ten times more cost.
instructions() {
    echo $((($(counted "$@" 11) - $(counted "$@" 1)) / 10))
}

# per_input A N: of one input of a show; of the show, where it has none.
per_input() {
    awk "BEGIN { printf \"%.1f\", $1 / ($2 ? $2 : 1) }"
}

ratio() {
    awk "BEGIN { printf \"%.2f\", $1 / $2 }"
}

making/archives.sh "${played[@]}" >"$out/archives" 2>&1
rustc --edition 2021 -C opt-level=3 -C codegen-units=1 bench/bench.rs -o "$out/bench" -L target/staticlib "${played[@]/#/-lstatic=}"
"$out/bench" shows >"$out/shows"

echo "| show | inputs | change | change nothing | noted | stopped | records | of timers |"
echo "|---|---|---|---|---|---|---|---|"
while read -r show lengths; do
    n=${lengths##* }
    echo "| $show | $n | $("$out/bench" mix "$show" "$n" | sed 's/ / | /g') |"
done <"$out/shows"
echo
echo "| show | inputs | instructions an input, proved | Rust | ratio | ns an input, proved | Rust | ratio |"
echo "|---|---|---|---|---|---|---|---|"
while read -r show lengths; do
    for n in $lengths; do
        a=$(instructions "$show" "$n" proved)
        b=$(instructions "$show" "$n" model)
        read -r x y < <("$out/bench" time "$show" "$n")
        echo "| $show | $n | $(per_input "$a" "$n") | $(per_input "$b" "$n") | $(ratio "$a" "$b")" \
            "| $(per_input "$x" "$n") | $(per_input "$y" "$n") | $(ratio "$x" "$y") |"
    done
done <"$out/shows"
