# shellcheck shell=sh
# What the commands share: `layers`, and each further one that runs a program of the same name. A command sets `command` (its name) and `here`
# (its folder), and then calls these functions. They give an exit status, which the programs themselves, that end with 0 in any case, do not:
#
#     0  accepted      1  refused      2  wrong use, an input that cannot be read, an output that cannot be written, or no program to run
#
# In a clone the program is proved and built first where it is missing or older than its sources; where the commands have been installed, it
# stands in libexec/thoquenry beside bin.

: "${command:?}" "${here:?}"

# Tells what is wrong, and ends.
wrong() {
    printf '%s: %s\n' "$command" "$*" >&2
    exit 2
}

# Ends where a file is none that can be read.
may_be_read() {
    [ -e "$1" ] || wrong "$1: there is no such file"
    [ ! -d "$1" ] || wrong "$1: this is a directory"
    [ -r "$1" ] || wrong "$1: this file cannot be read (permission denied)"
}

# Takes a file as standard input, or standard input itself for `-`.
take_input() {
    [ "$1" != - ] || return 0
    may_be_read "$1"
    # shellcheck disable=SC2217  # the shell's own standard input
    exec <"$1" || wrong "$1: this file cannot be opened"
}

# Takes a file beside standard input: `second` is a path by which a program opens it. Such a path is UTF-8, so that the file is opened here, as
# descriptor 3, and the path is that descriptor's. But a named pipe has one reader, who waits for what is written to it: the program opens it itself.
take_second() {
    may_be_read "$1"
    second=$(readlink -f -- "$1")
    [ ! -p "$second" ] || return 0
    exec 3<"$1" || wrong "$1: this file cannot be opened"
    second=/dev/fd/3
}

# Makes sure that there is a program to run, of this name or the command's.
have_program() {
    name=${1:-$command}
    [ -f "$here/crates.txt" ] || return 0
    built=$here/crates/$name/out/$name
    if ! "$here/scripts/up-to-date" "$built" "$name"; then
        "$here/scripts/prove" "$name" </dev/null || wrong "the program could not be proved and built"
        # What has not changed is not built again; now it is newer than its sources.
        touch "$built"
    fi
}

# Runs a program by its name.
run_program() {
    name=$1
    shift
    if [ -f "$here/crates.txt" ]; then
        "$here/scripts/run" "$name" "$@"
    else
        "$here/../libexec/thoquenry/$name" "$@"
    fi
}

# Runs the program of the command's name.
program() {
    run_program "$command" "$@"
}

# The version of the library that the command belongs to.
version() {
    if [ -f "$here/crates.txt" ]; then
        sed -n "s/^#define THQ_VERSION \"\(.*\)\"/$command \1/p" "$here/include/thoquenry.h"
    else
        printf '%s %s\n' "$command" "$(cat "$here/../share/thoquenry/version")"
    fi
}

# The refusal of a line `refused N WHAT PLACE`, in words.
in_words() {
    table=$here/words/refusals.tsv
    [ -f "$table" ] || table=$here/../share/thoquenry/refusals.tsv
    # shellcheck disable=SC2086  # a line of words
    set -- $1
    awk -F '\t' -v number="$2" -v place="${4:-0}" '
        $1 == number { sub(/[{][}]/, place, $4); print number ": " $4; found = 1 }
        END { if (!found) print number ": (no words for this number)" }' "$table"
}

# Runs the program with these words, hands on what it writes, and ends with the status. Where `explain` is set, a refusal is told in words too.
answer() {
    have_program
    text=$(program "$@") || wrong "the program ended with status $?"
    # A program that could not read, or not write, has told so on standard error, and has written no line, or not all of them.
    [ -n "$text" ] || exit 2
    printf '%s\n' "$text" 2>/dev/null || wrong "standard output cannot be written"
    case $text in
        accepted*) exit 0 ;;
        refused*)
            [ -z "$explain" ] || printf '%s: %s\n' "$command" "$(in_words "$text")" >&2
            exit 1
            ;;
        *) wrong "the program wrote neither an acceptance nor a refusal" ;;
    esac
}
