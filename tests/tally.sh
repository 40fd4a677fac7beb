# Counts tests: passed and failed, and how to add to them. To be sourced.
passed=0 failed=0

# tests NAME COMMAND..: a command whose last line is 'N passed, M failed'. Its exit status counts too, as one failure where it owned up to none.
tests() {
    local name=$1 out good bad status
    shift
    out=$(mktemp)
    "$@" 2>&1 | tee "$out"
    status=${PIPESTATUS[0]}
    if read -r good _ bad _ < <(tail -n 1 "$out" | grep -xE '[0-9]+ passed, [0-9]+ failed'); then
        [ "$status" -eq 0 ] || [ "$bad" -gt 0 ] || bad=1
    else
        good=0 bad=1
    fi
    rm -f "$out"
    passed=$((passed + good)) failed=$((failed + bad))
    [ "$bad" -eq 0 ] || echo "FAILED: $name"
}

# try COMMAND..: one test, by its exit status.
try() {
    if "$@"; then passed=$((passed + 1)); else failed=$((failed + 1)); echo "FAILED: $*"; fi
}

# The last line, and the exit status that goes with it.
total() {
    echo "$passed passed, $failed failed"
    [ "$failed" -eq 0 ]
}
