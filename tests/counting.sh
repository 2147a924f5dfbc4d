# What the tests share; sourced by them from the repository. `room` is a folder that is gone afterwards.
. tools/kit.sh
passed=0 failed=0
room=$(mktemp -d)
trap 'rm -rf "$room"' EXIT

# NAME COMMAND..: a test, which the command passes or not. What fails could not be built or started, or answers otherwise: it is said which
try() {
    local status=0
    "${@:2}" || status=$?
    if [ "$status" -eq 0 ]; then
        passed=$((passed + 1))
    else
        failed=$((failed + 1))
        echo "$(basename "$0"): $1: $(fault_of "$status")"
    fi
    return "$status"
}

# EXPECTED COMMAND..: whether the command prints what is in the file; shows the first lines where it does not
prints() {
    "${@:2}" >"$room/printed" || return
    diff -a "$1" "$room/printed" >"$room/differences" && return
    head -n 6 "$room/differences"
    return 1
}

# the last line, 'N passed, M failed', and whether all passed
end_tests() {
    echo "$passed passed, $failed failed"
    [ "$failed" -eq 0 ]
}
