# How many checks passed and failed, and the last line that tells it. Source it.
passed=0
failed=0

# pass NAME [HOW MANY]
pass() {
    passed=$((passed + ${2:-1}))
    echo "ok: $1"
}

# fail NAME [HOW MANY]
fail() {
    failed=$((failed + ${2:-1}))
    echo "FAILED: $1"
}

# tally: the last line, and whether nothing failed.
tally() {
    echo "$passed passed, $failed failed"
    [ "$failed" -eq 0 ]
}

# counted NAME COMMAND..: a command that counts for itself, by a last line 'N passed, M failed'.
counted() {
    local name=$1 log status last
    shift
    echo "-- $name"
    log=$(mktemp)
    "$@" 2>&1 | tee "$log"
    status=${PIPESTATUS[0]}
    last=$(tail -n 1 "$log")
    rm -f "$log"
    if [[ $last =~ ^([0-9]+)\ passed,\ ([0-9]+)\ failed$ ]]; then
        passed=$((passed + BASH_REMATCH[1]))
        failed=$((failed + BASH_REMATCH[2]))
        [ "$status" -eq 0 ] || [ "${BASH_REMATCH[2]}" -gt 0 ] || failed=$((failed + 1))
    else
        fail "$name ended without a count"
    fi
}
