# shellcheck shell=sh
# A folder for work, what passed and what failed, and how it is judged and told, for the tests that read this.

work=$(mktemp -d) || exit 2
trap 'rm -rf "$work"' EXIT
trap 'exit 130' INT TERM
passed=0 failed=0

# judge WHAT COMMAND..: whether the command ends with status 0. What it said stands in $work/said, and is told where it does not.
judge() {
    what=$1
    shift
    if "$@" >"$work/said" 2>&1; then
        passed=$((passed + 1))
    else
        failed=$((failed + 1))
        echo "$(basename "$0" .sh): $what" >&2
        tail -n 20 "$work/said" >&2
    fi
}

# tell: the last line and the status of a test.
tell() {
    echo "$passed passed, $failed failed"
    [ "$failed" = 0 ]
    exit
}
