#!/usr/bin/env bash
# Compares the stored output of the program `paces` and the printouts of the shows with what the independent model in Rust gives,
# and runs the model's own tests. Needs a rustc on the PATH (1.63 or newer); builds in a temporary folder. (That the proved program
# writes its stored output is for `rt ci`.) The last line is 'N passed, M failed'; succeeds exactly when M is 0.
set -u
cd "$(dirname "$0")/.." || exit 2

. tests/count.sh
room=$(mktemp -d) || exit 2
trap 'rm -rf "$room"' EXIT

# build NAME OPTION..: tests/NAME.rs to a program, with sums that overflow caught.
build() {
    local name=$1
    shift
    rustc --edition 2021 -O -C overflow-checks=on "$@" "tests/$name.rs" -o "$room/$name"
}

# The stored steps are those that the script writes, where there is a Python to ask.
if command -v python3 >/dev/null; then
    if python3 tests/make_paces.py >"$room/stdin" && cmp "$room/stdin" crates/paces/stdin; then
        pass "crates/paces/stdin is what tests/make_paces.py writes"
    else
        fail "crates/paces/stdin is not what tests/make_paces.py writes"
    fi
fi

# The model, at the same steps, gives the stored lines.
if build paces && "$room/paces" <crates/paces/stdin >"$room/stdout" && cmp "$room/stdout" crates/paces/stdout; then
    pass "the model gives the $(wc -l <crates/paces/stdout) lines of crates/paces/stdout"
else
    fail "the model does not give crates/paces/stdout"
fi

# The model prints every show as it is written down.
printed() {
    local show words count=0
    for show in shows/*.cue shows/*.wall; do
        words=()
        [ "${show##*.}" != wall ] || words=(--wall)
        "$room/model_print" "${words[@]}" <"$show" | cmp - "${show%.*}.txt" || return 1
        count=$((count + 1))
    done
    shows=$count
}
if build model_print && printed; then
    pass "the model prints the $shows shows as they are written down"
else
    fail "the model prints a show otherwise"
fi

# tests_of NAME WORDS: the tests in tests/NAME.rs, which are of WORDS.
tests_of() {
    local name=$1 words=$2 status
    if ! build "$name" --test; then
        fail "the tests of $words do not compile"
        return
    fi
    "$room/$name" >"$room/tests" 2>&1
    status=$?
    if [[ $(grep '^test result:' "$room/tests") =~ ([0-9]+)\ passed\;\ ([0-9]+)\ failed ]]; then
        pass "${BASH_REMATCH[1]} tests of $words" "${BASH_REMATCH[1]}"
        if [ "$status" -ne 0 ]; then
            cat "$room/tests"
            fail "tests of $words" "$((BASH_REMATCH[2] > 0 ? BASH_REMATCH[2] : 1))"
        fi
    else
        cat "$room/tests"
        fail "the tests of $words ended without a count"
    fi
}

# The model's own tests.
tests_of model_tests "the model"
tests_of wall_tests "the model of the wall buttons"
tests_of live_tests "the model of the live calls"
tests_of noted_tests "night and force as values, in every form"

tally
