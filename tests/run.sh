#!/usr/bin/env bash
# The tests of what is built: the archives against the second model, the print program, the C examples, the package, the fuzz tests.
# Called by ./test after the proofs and after tests/tools.sh, from the repository's root. The last line is 'N passed, M failed'.
#
# The Rust tests link the archives plainly, and a sample of their calls goes through a small C program (bridge.c) that the kit alone builds
# and runs.
set -u
cd "$(dirname "$0")/.." || exit 2
. tests/count.sh
. making/kit.sh
. making/modules.sh

out=target/tests
program=crates/cueprint/out/cueprint
archives=("${libraries[@]/#/target/staticlib/lib}")
archives=("${archives[@]/%/.a}")
mkdir -p "$out"

# done_or_not NAME COMMAND..: one check.
done_or_not() {
    local name=$1
    shift
    if "$@"; then
        pass "$name"
    else
        fail "$name"
    fi
}

# rust NAME [WORDS..]: tests/NAME.rs, compiled.
rust() {
    local name=$1
    shift
    rustc --edition 2021 -O -D warnings "tests/$name.rs" -o "$out/$name" "$@"
}

# compared NAME WORDS: tests/NAME.rs, which compares the archives with the second model.
compared() {
    local name=$1 words=$2
    done_or_not "tests/$name.rs is built and linked with the archives" \
        rust "$name" --cfg linked -L target/staticlib "${libraries[@]/#/-lstatic=}"
    counted "$words" "$out/$name" "${kit_run[@]}" "$out/bridge"
}

# nothing_reached: what rt says of each archive: which C functions its proof rests on. They are the axioms that a crate can have.
nothing_reached() {
    local said
    said=$(grep -E '^axioms |^logic=proved .* target=' "$out/archives")
    [ "$(grep -c '^logic=' <<<"$said")" -eq "${#libraries[@]}" ] && ! grep ' axioms=' <<<"$said" &&
        ! grep '^axioms ' <<<"$said" | grep -v ': none reached of the [0-9]* declared$'
}

build_bridge() {
    kit_cc "$out/bridge.o" tests/bridge.c && kit_link "$out/bridge" "$out/bridge.o" "${archives[@]}"
}

# no_warning NAME: examples/NAME.c compiles without one.
no_warning() {
    cc -std=c99 -Wall -Wextra -Wconversion -Wpedantic -Werror -Iinclude -fsyntax-only "examples/$1.c"
}

# its_line NAME: the line in the comment of examples/NAME.c that builds and runs it.
its_line() {
    sed -n 's/^ \* \(cc .*\)/\1/p' "examples/$1.c"
}

# example_says NAME SHOW COMMAND..: the command writes examples/NAME.SHOW.txt of a show, or examples/NAME.txt where SHOW is empty.
example_says() {
    local name=$1 show=$2
    shift 2
    "$@" <"${show:+shows/}${show:-/dev/null}" | diff - "examples/$name${show:+.${show%.*}}.txt"
}

# example NAME [SHOW..]: examples/NAME.c, built by the line in its comment, which also plays the first show, and run over each other show.
example() {
    local name=$1 show
    shift
    done_or_not "examples/$name.c has no warning" no_warning "$name"
    done_or_not "examples/$name.c says what the house does${1:+ in shows/$1}, by the line in its comment" \
        example_says "$name" "${1:-}" bash -c "$(its_line "$name")"
    for show in "${@:2}"; do
        done_or_not "examples/$name.c says what the house does in shows/$show" example_says "$name" "$show" "target/${name}_c"
    done
}

# make_modules: of the proved code, for the fuzz tests. They prove each crate once more.
make_modules() {
    local name
    for name in "${played[@]}"; do proved_module "$name" || return 1; done
}

# The archives are made beside what needs neither them nor rt. (What rt ci proved is its own: rt lib proves what it compiles.)
making/archives.sh >"$out/archives" 2>&1 &
archive=$!
if command -v rustc >/dev/null; then
    done_or_not "the printout's comparison is built" rust prints
    counted "the printout against the second model" "$out/prints" "${kit_run[@]}" "$program"
    counted "the printout of wall lists against the second model" "$out/prints" --wall ./preview --wall /dev/stdin
    counted "the printout with its phases against the second model" "$out/prints" --phases "${kit_run[@]}" "$program" phases
    counted "the same of wall lists" "$out/prints" --wall --phases "${kit_run[@]}" "$program" wall phases
    counted "the run in words against the second model" "$out/prints" --words ./preview --words -
    counted "the same of wall lists" "$out/prints" --wall --words ./preview --wall --words -
    counted "the by-value calls of sensor and pair against the second model, and that model's own tests" bash tests/paces.sh
else
    fail "there is no Rust compiler"
fi

done_or_not "the archives for C are built (making/archives.sh)" wait "$archive"
tail -n 1 "$out/archives"
done_or_not "nothing of the C library is reached from the archives" nothing_reached
make_modules &
modules=$!
done_or_not "the bridge is built by the kit alone" build_bridge
done_or_not "number, records, answers and state are as docs/FORMAT.md shows them" tests/format.sh "${kit_run[@]}" "$out/bridge"
if command -v rustc >/dev/null; then
    compared compare "the run against the second model"
    compared compare_walls "the run over wall lists against the second model"
    compared compare_live "the live calls against the second model"
fi
counted "the shows" bash tests/shows.sh
counted "the command ./preview" bash tests/preview.sh
example preview example.cue tenths.cue night_under_force.cue
example wall foyer.wall stage_door.wall
example live
counted "the package" bash tests/package.sh
wait "$modules"
counted "the calls from C, fuzzed" tests/fuzz/run.sh
tally
