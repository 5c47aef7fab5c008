#!/bin/sh
# linked.sh: the tests of the library that others link. The archive and the shared object are built; the declarations agree; the archive asks for no more than it did; C, Rust
# and Python call them on document 01's worked examples and run their own examples, those of docs/USING.md among them; a library that is missing is
# told with its remedy; every call is compared with the independent implementation on generated inputs, by a fixed seed; and small real recordings
# are read. It prints a line for each part and fails if anything fails.
set -eu
cd "$(dirname "$0")/.."
log=target/linked/log
export PYTHONPATH=python/src
mkdir -p target/linked

# part NAME PATTERN COMMAND..: runs a part of the tests and shows the last line that has the pattern; a part that prints none has failed.
# What it prints else is kept for when it fails. (The part is no condition of an `if`: there the shell would go on after a command that
# fails.)
part() {
    name=$1
    pattern=$2
    shift 2
    set +e
    (
        set -e
        "$@"
    ) >"$log" 2>&1
    status=$?
    set -e
    if [ "$status" -ne 0 ] || ! grep -q "$pattern" "$log"; then
        cut -c 1-500 "$log" | tail -n 60 >&2
        echo "linked: $name FAILED" >&2
        exit 1
    fi
    printf 'linked: %-12s %s\n' "$name" "$(grep "$pattern" "$log" | tail -n 1)"
}

build() {
    scripts/install-tools
    scripts/build-library
    echo "archive $(wc -c <target/lib/libthoquenry.a) bytes, shared object $(wc -c <target/lib/libthoquenry.so) bytes"
}

declarations() {
    x86_64-linux-gnu-nm -D --defined-only target/lib/libthoquenry.so | awk '$2 == "T" { print $3 }' >target/linked/offered
    python3 -B tests/declarations.py target/linked/offered
}

# What the archive asks of whoever links it: two functions of C's library, so that a program without that library can bring them.
asked_for() {
    asked=$(x86_64-linux-gnu-nm -u target/lib/libthoquenry.a | awk '$1 == "U" && $2 !~ /^thq_/ { print $2 }' | sort -u | tr '\n' ' ')
    [ "$asked" = "memcpy memset " ] || { echo "the archive asks for: $asked"; return 1; }
    echo "the archive asks for memcpy and memset alone"
}

called_from_c() {
    for way in target/lib/libthoquenry.a "-Ltarget/lib -lthoquenry"; do
        for test in tests/c/*.c; do
            program=target/linked/$(basename "$test" .c)
            # shellcheck disable=SC2086  # a list of words
            x86_64-linux-gnu-gcc -std=c11 -O2 -Wall -Wextra -Werror -pedantic -Iinclude "$test" $way -o "$program"
            THOQUENRY_LIBRARIES=$PWD/target/lib LD_LIBRARY_PATH=$PWD/target/lib scripts/x86 "$program"
        done
    done
    echo "ok, with the archive and with the shared object"
}

# Each of Rust's tests says how many it has run.
called_from_rust() {
    scripts/cargo test -p thoquenry-sys -p thoquenry -p plain >target/linked/rust-tests || { cat target/linked/rust-tests; return 1; }
    scripts/cargo run --quiet -p thoquenry --example join >target/linked/rust-example
    diff tests/example.txt target/linked/rust-example
    scripts/cargo run --quiet -p thoquenry --example units >target/linked/rust-units
    diff tests/recordings/two-rates.units target/linked/rust-units
    if THOQUENRY_LIB=/nowhere CARGO_TARGET_DIR=target/linked/cargo scripts/cargo check -p thoquenry-sys 2>target/linked/rust-missing; then return 1; fi
    grep -q 'scripts/build-library' target/linked/rust-missing && grep -q THOQUENRY_LIB target/linked/rust-missing
    awk '/^test result: ok/ { passed += $4 } END { print passed " tests passed" }' target/linked/rust-tests
}

called_from_python() {
    scripts/python-x86 -B python/tests/test_packets.py
    scripts/python-x86 -B python/tests/test_points.py
    scripts/python-x86 -B python/tests/test_recording.py
    scripts/python-x86 -B python/tests/test_stereo.py
    scripts/python-x86 -B python/tests/test_thoquenry.py
    scripts/python-x86 -B python/tests/test_layer_sets.py
    scripts/python-x86 -B python/examples/join.py >target/linked/python-example
    diff tests/example.txt target/linked/python-example
    scripts/python-x86 -B python/examples/units.py >target/linked/python-units
    diff tests/recordings/two-rates.units target/linked/python-units
}

# The page of examples; its Rust is among Rust's tests.
as_the_page_says() {
    rm -f target/linked/using-*.c
    scripts/python-x86 -B tests/using.py target/linked
    for block in target/linked/using-*.c; do
        x86_64-linux-gnu-gcc -std=c11 -O2 -Wall -Wextra -Werror -pedantic -Iinclude "$block" target/lib/libthoquenry.a -o target/linked/using
        scripts/x86 target/linked/using
    done
    echo "ok, the examples of docs/USING.md"
}

compared() {
    scripts/cargo run --quiet --profile checked -p compare
}

part library '^archive' build
part declarations 'agree' declarations
part asks '^the archive asks' asked_for
part c '^ok' called_from_c
part rust '^[1-9][0-9]* tests passed' called_from_rust
part python '^Ran [1-9]' called_from_python
part using '^ok' as_the_page_says
part compare '^compare: .* agree' compared
# How often each call answered each number.
sed '$d' "$log"
part recordings '^recordings: ok' sh tests/recordings.sh
