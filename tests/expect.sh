# shellcheck shell=sh
# What the tests of the commands share. A test sets `command`, the command's name, and stands in the root of the clone; it has a folder $work of its own,
# expects what it expects, and concludes.
: "${command:?}"
work=$(mktemp -d)
trap 'chmod -R u+w "$work"; rm -rf "$work"' EXIT
failed=0
passed=0

# Takes note of a test by its name and whether it holds.
note() {
    if [ "$2" -eq 0 ]; then
        passed=$((passed + 1))
    else
        echo "$command: $1: NOT SO" >&2
        sed 's/^/    /' "$work/said" >&2
        failed=1
    fi
}

# expect NAME STATUS TEXT MESSAGE COMMAND..: the command ends with this status; it prints what the file TEXT has, nothing where that is -, or
# anything where that is ?; on standard error it prints a line that has MESSAGE, or nothing where that is empty.
expect() {
    name=$1 status=$2 text=$3 message=$4
    shift 4
    "$@" >"$work/text" 2>"$work/said"
    ended=$?
    [ "$ended" -eq "$status" ] || echo "(status $ended)" >>"$work/said"
    case $text in
        -) [ ! -s "$work/text" ] ;;
        '?') true ;;
        *) cmp -s "$text" "$work/text" ;;
    esac
    same=$?
    if [ -n "$message" ]; then grep -qF -e "$message" "$work/said"; else [ ! -s "$work/said" ]; fi
    told=$?
    [ "$ended" -eq "$status" ] && [ "$same" -eq 0 ] && [ "$told" -eq 0 ]
    note "$name" $?
}

# What each text means: accepted or refused.
status_of() { if grep -q '^refused' "$1"; then echo 1; else echo 0; fi; }

# Tells how many tests hold, and ends with status 1 where one does not.
conclude() {
    [ "$failed" -ne 0 ] || echo "$command: $passed tests, as expected"
    exit "$failed"
}
