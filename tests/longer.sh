#!/bin/sh
# longer.sh [COUNT]: the longer run, by hand. The linked tests first; then the programs that are wrong in several crates are tried, five minutes of
# processor time (tests/wrong-programs); then every call is compared with the independent implementation on
# COUNT generated inputs (500,000 where it is not said) for each of several seeds, and again with each buffer beside pages that cannot be
# touched; under valgrind too where the machine is x86-64; the parts that Debian has a peer for are compared with that peer: libbitstream-dev
# (PTS, DTS, the hierarchy descriptor) and libdvbpsi-dev (the hierarchy descriptor); longer recordings are made by Debian's ffmpeg and held to what
# ffprobe lists of them (tests/recordings.sh); and the packages are tried (tests/packages.sh), and how fast Python calls. It prints what each part
# counts and fails if anything fails.
set -eu
cd "$(dirname "$0")/.."
count=${1:-500000}
# Fewer calls than these do not see every number.
few=$((count / 5 > 20000 ? count / 5 : 20000))
seeds="2 3 4 5"
guarded_seeds="6 7"

sh tests/linked.sh
tests/wrong-programs
scripts/install-tools libbitstream-dev libdvbpsi-dev gcc libc6-dev
out=$PWD/target/longer
mkdir -p "$out"

compare=$PWD/target/cargo/x86_64-unknown-linux-gnu/checked/compare
for seed in $seeds; do
    echo "longer: compare, seed $seed, $count calls"
    scripts/x86 "$compare" "$seed" "$count"
done
echo "longer: compare, a table of a million rows"
scripts/x86 "$compare" --long 1000000
for seed in $guarded_seeds; do
    echo "longer: compare beside guard pages, seed $seed, $count calls"
    scripts/x86 "$compare" --guarded "$seed" "$count"
done

# Memcheck knows the processor that it runs on, so elsewhere the guard pages stand alone. (The archive is not instrumented, so
# AddressSanitizer would see nothing of what it touches.)
if [ "$(uname -m)" = x86_64 ]; then
    scripts/install-tools valgrind
    checked="valgrind --quiet --error-exitcode=1"
    echo "longer: Rust's tests under valgrind"
    THOQUENRY_RUNNER=$checked scripts/cargo test --quiet --tests -p thoquenry
    echo "longer: C's tests under valgrind"
    for test in tests/c/*.c; do
        LD_LIBRARY_PATH=$PWD/target/lib $checked "target/linked/$(basename "$test" .c)"
    done
    echo "longer: compare under valgrind, seed 8, $few calls"
    $checked "$compare" 8 "$few"
    said=$(PYTHONPATH=python/src python3 -B python/tests/speed.py) || { echo "longer: from Python, $said: TOO LONG" >&2; exit 1; }
    echo "longer: from Python, $said"
else
    echo "longer: valgrind left out: this machine is no x86-64"
fi

strict="-std=c11 -O2 -Wall -Wextra -Werror"
# shellcheck disable=SC2086  # lists of words
{
    x86_64-linux-gnu-gcc $strict -pedantic -Iinclude tests/peers/ours.c target/lib/libthoquenry.a -o "$out/ours"
    gcc $strict tests/peers/bitstream.c -o "$out/bitstream"
    gcc $strict tests/peers/dvbpsi.c -ldvbpsi -o "$out/dvbpsi"
}
# peer NAME KIND: the peer and the library print the same for each case of a kind.
peer() {
    scripts/x86 "$out/ours" "$2" 9 "$count" >"$out/ours.txt"
    "$out/$1" "$2" 9 "$count" >"$out/$1.txt"
    if ! cmp "$out/ours.txt" "$out/$1.txt"; then
        diff "$out/ours.txt" "$out/$1.txt" | head -n 20 >&2
        echo "longer: $1 $2 DIFFERENT" >&2
        exit 1
    fi
    echo "longer: $1 agrees on $(wc -l <"$out/ours.txt") cases of $2, of which $(grep -c '^refused' "$out/ours.txt" || true) are refused by both"
}
peer bitstream times
peer bitstream hierarchy
peer dvbpsi hierarchy
sh tests/recordings.sh --made
sh tests/packages.sh
echo "longer: all passed"
