#!/usr/bin/env bash
# Fuzzes the calls of include/house.h with libFuzzer, guided by what it reaches of the proved code itself, and compares every call with
# the second model. README.md beside it says more. The last line is 'N passed, M failed'; the exit status is 0 exactly when M is 0.
#
# Usage: tests/fuzz/run.sh [SECONDS] [TARGET]: 20 seconds, and the targets cues, walls and live at the same time. The archives must be made
# (making/archives.sh).
set -u
cd "$(dirname "$0")/../.." || exit 2
. tests/count.sh
. making/kit.sh
. making/modules.sh

seconds=${1:-20}
targets=(${2:-cues walls live})
out=target/fuzz
mkdir -p "$out"

# The calls that a target makes.
declare -A calls=([cues]="house_run house_run_to" [walls]="house_wall_run" [live]="house_fresh house_change house_move")

finish() {
    tally
    exit
}

# proved_objects: sets `proved` to the proved code, compiled as for the archives, with a counter at every edge.
proved_objects() {
    local crate
    proved=()
    for crate in "${played[@]}"; do
        proved+=("$out/$crate.o")
        proved_object "$out/$crate.o" "$crate" -fsanitize-coverage=inline-8bit-counters,pc-table,trace-cmp || return 1
    done
}

# target_objects: what calls the proved code. It has no counters: what counts is the proved code.
target_objects() {
    local part
    for part in calls fuzz mend rooms; do
        clang -std=c11 -O2 -Wall -Wextra -Werror -c "tests/fuzz/$part.c" -o "$out/$part.o" || return 1
    done
}

build() {
    rm -rf "$out/seeds"
    rustc --edition 2021 -O -D warnings -C panic=abort -C overflow-checks=on --crate-type staticlib tests/fuzz/model.rs \
        -o "$out/libmodel.a" && proved_objects && target_objects &&
        clang -fsanitize=fuzzer "$out"/{calls,fuzz,mend,rooms}.o "${proved[@]}" "$out/libmodel.a" -lm -ldl -lpthread -o "$out/fuzz" &&
        rustc --edition 2021 -O -D warnings tests/fuzz/seeds.rs -o "$out/make_seeds" && "$out/make_seeds" "$out/seeds"
}

# fuzz TARGET: for so many seconds; inputs that reach something new stay in its corpus. It is started in the background, and takes the
# place of the shell there, so that it ends with this script.
fuzz() {
    local target=$1
    mkdir -p "$out/corpus/$target"
    exec "$out/fuzz" -max_total_time="$seconds" -max_len=2400 -timeout=10 -print_final_stats=1 -artifact_prefix="$out/found-$target-" \
        "$out/corpus/$target" "$out/seeds/$target" "$out/seeds/$target-refused" >"$out/$target.log" 2>&1
}

# figure LOG NAME: the last number that libFuzzer gives after a name.
figure() {
    grep -oE "$2[ (]+[0-9]+" "$1" | tail -n 1 | grep -oE '[0-9]+$' || echo 0
}

# all_met TARGET: every call of it was made, and gave every code and every answer that it can give.
all_met() {
    local log=$out/$1.log call met=0
    for call in ${calls[$1]}; do
        grep -q "^code 0 of $call: " "$log" || { echo "$call was not made"; met=1; }
        ! grep -E "^(code|answer) [0-9]+ of $call: 0$" "$log" || met=1
    done
    return $met
}

# judge TARGET STATUS
judge() {
    local target=$1 status=$2 log=$out/$1.log runs
    runs=$(figure "$log" number_of_executed_units:)
    if [ "$status" -ne 0 ] || [ "$runs" -eq 0 ]; then
        fail "$target ended with status $status after $runs executions"
        grep -E '^FOUND: |^SUMMARY: |Test unit written to' "$log" || tail -n 20 "$log"
    elif ! all_met "$target"; then
        fail "$target: $runs executions found nothing, and did not meet every code and answer"
    else
        pass "$target: $runs executions, $(figure "$log" cov:) edges, $(figure "$log" ft:) features, every code and answer met, nothing found"
    fi
}

# edges_of FOLDER..: how many edges the inputs in these folders reach.
edges_of() {
    "$out/fuzz" -runs=0 "$@" >"$out/edges.log" 2>&1
    figure "$out/edges.log" cov:
}

# More is reached than by refused inputs alone: else the counters count nothing, or nothing is accepted.
judge_edges() {
    local seeds=("${targets[@]/#/$out/seeds/}") reached refused all
    refused=$(edges_of "${seeds[@]/%/-refused}")
    reached=$(edges_of "${seeds[@]}" "${targets[@]/#/$out/corpus/}")
    all=$(figure "$out/edges.log" 'Loaded 1 PC tables')
    if [ "$reached" -gt "$refused" ]; then
        pass "$reached of the $all edges of the proved code are reached, by refused seeds alone $refused"
    else
        fail "$reached of the $all edges of the proved code are reached, by refused seeds alone $refused"
    fi
}

for target in "${targets[@]}"; do
    [ -n "${calls[$target]:-}" ] || { fail "there is no target $target, but for: ${!calls[*]}"; finish; }
done
[[ $seconds =~ ^[1-9][0-9]*$ ]] || { fail "$seconds is no number of seconds"; finish; }
command -v clang >/dev/null || { fail "there is no clang, which brings libFuzzer"; finish; }
command -v rustc >/dev/null || { fail "there is no Rust compiler"; finish; }
if build >"$out/build.log" 2>&1; then
    pass "the proved code, the second model and the fuzz targets are built ($(tail -n 1 "$out/build.log"))"
else
    fail "the fuzz targets are not built"
    cat "$out/build.log"
    finish
fi
declare -A running
trap 'kill $(jobs -p) 2>/dev/null' EXIT
for target in "${targets[@]}"; do
    fuzz "$target" &
    running[$target]=$!
done
for target in "${targets[@]}"; do
    wait "${running[$target]}"
    judge "$target" $?
done
[ "$failed" -gt 0 ] || judge_edges
finish
