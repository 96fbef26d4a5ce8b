# shellcheck shell=bash
# What tests/run and .ci/run share, both of bash: the counts of all suites, in $passed, $failed and $skipped.

passed=0
failed=0
skipped=0
log=$(mktemp) || exit 2
trap 'rm -f "$log"' EXIT

# counted NAME COMMAND..: shows what the command prints, each line after the name, and adds the counts of its last line.
# A command that prints no counts, or that fails though it counts no failure, is a failure itself.
counted() {
    local name=$1 status
    shift
    "$@" 2>&1 | tee "$log" | while IFS= read -r line || [ -n "$line" ]; do
        printf '%s: %s\n' "$name" "$line"
    done
    status=${PIPESTATUS[0]}
    if [[ $(tail -n 1 "$log") =~ ^([0-9]+)\ passed,\ ([0-9]+)\ failed(,\ ([0-9]+)\ skipped)?$ ]]; then
        passed=$((passed + BASH_REMATCH[1]))
        failed=$((failed + BASH_REMATCH[2]))
        skipped=$((skipped + ${BASH_REMATCH[4]:-0}))
        if [ "$status" -ne 0 ] && [ "${BASH_REMATCH[2]}" -eq 0 ]; then
            failed=$((failed + 1))
        fi
    else
        failed=$((failed + 1))
        echo "$name: ended with status $status and no counts"
    fi
}

# end_counted: prints the sum; the status is 0 if none failed and some passed
end_counted() {
    if [ "$skipped" -eq 0 ]; then
        echo "$passed passed, $failed failed"
    else
        echo "$passed passed, $failed failed, $skipped skipped"
    fi
    [ "$failed" -eq 0 ] && [ "$passed" -gt 0 ]
}
