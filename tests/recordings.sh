#!/bin/sh
# recordings.sh [--made]: real recordings, read by the library and by the plain implementation, whole and in pieces (`compare --recording`), and by `units`. Those of
# samples/recordings are held to what ffprobe has listed of them (tests/recordings: rows by position, PTS and DTS, and units by the times of
# presentation). With --made, in the longer run, Debian's ffmpeg makes longer ones, and ffprobe lists each anew: two AVC streams of different frame
# rates with B pictures, audio and null packets between; then with a TREF in each unit of the upper stream, and with something done to packets, by
# tests/recordings/change.py. It needs the library, prints a line for each part and fails if anything differs.
set -eu
cd "$(dirname "$0")/.."
case $*:$# in
    :0) made= ;;
    --made:1) made=yes ;;
    *) echo "usage: tests/recordings.sh [--made]" >&2; exit 2 ;;
esac
samples=samples/recordings
expected=tests/recordings
loop=$samples/two-rates.bin
work=$PWD/target/recordings
mkdir -p "$work"
export PYTHONPATH=python/src
python="python3 -B"

scripts/cargo build --quiet --profile checked -p compare
compare() { scripts/x86 "$PWD/target/cargo/x86_64-unknown-linux-gnu/checked/compare" --recording "$@"; }
fail() { echo "recordings: $*" >&2; exit 1; }

# same TEXT RECORDING [TARGET]: what is told of a recording, its rows or the units of a target, is a text; and so is what the command `units` prints.
same() {
    text=$1
    shift
    compare "$loop" "$@" >"$work/told" || { tail -n 5 "$work/told" >&2; fail "$1: library and plain implementation differ"; }
    cmp -s "$text" "$work/told" || { diff "$text" "$work/told" | head -n 10 >&2; fail "$1${2:+ for target $2}: not as expected"; }
    [ -e units ] || return 0
    if [ $# -gt 1 ]; then set -- "$2" "$loop" "$1"; else set -- --rows 1 "$loop" "$1"; fi
    status=0
    ./units "$@" >"$work/told" || status=$?
    cmp -s "$text" "$work/told" || { diff "$text" "$work/told" | head -n 10 >&2; fail "units $*: not as expected"; }
    case $(head -n 1 "$text") in refused*) [ "$status" -eq 1 ] ;; *) [ "$status" -eq 0 ] ;; esac || fail "units $*: ends with status $status"
}

[ -e units ] || echo "recordings: left out: the command units, which is not here"
# The loop, by the library's own writer.
scripts/python-x86 -B $expected/loop.py >"$work/loop"
cmp "$work/loop" $loop

same $expected/two-rates.rows $samples/two-rates.ts
same $expected/two-rates.units $samples/two-rates.ts 1
same $expected/no-tref.rows $samples/no-tref.ts
echo "refused 15 place 0" >"$work/refusal"
same "$work/refusal" $samples/no-tref.ts 1
while read -r name answer; do
    if [ "$answer" = units ]; then
        same $expected/two-rates.units "$samples/$name.ts" 1
    else
        echo "$answer" >"$work/refusal"
        same "$work/refusal" "$samples/$name.ts"
        same "$work/refusal" "$samples/$name.ts" 1
    fi
done <$expected/answers.txt
echo "recordings: ok, $(wc -l <$expected/two-rates.rows) rows and $(wc -l <$expected/two-rates.units) units as ffprobe has listed them, and $(wc -l <$expected/answers.txt) recordings with something done to them"
[ -n "$made" ] || exit 0

scripts/install-tools ffmpeg
# record NAME SIZE SECONDS BASE UPPER ALL: a recording of that size of pictures, with these rates.
record() {
    ffmpeg -hide_banner -loglevel error -y -f lavfi -i "testsrc2=size=$2:rate=50" -f lavfi -i "testsrc2=size=$2:rate=25" -f lavfi -i sine=frequency=440:sample_rate=48000 \
        -map 0:v -map 1:v -map 2:a -c:v libx264 -preset veryfast -bf 2 -b:v:0 "$4" -b:v:1 "$5" -c:a mp2 -b:a 128k -muxrate "$6" \
        -streamid 0:256 -streamid 1:257 -streamid 2:259 -t "$3" -f mpegts "$work/$1.ts"
}
# listed NAME [tref]: rows as ffprobe lists them.
listed() {
    $python $expected/probed.py rows "$work/$1.ts" 0=256 1=257 ${2:+"$2"} >"$work/$1.rows"
    same "$work/$1.rows" "$work/$1.ts"
}
for recording in "small 352x288 20 1500k 800k 4M" "large 704x576 6 6M 4M 14M"; do
    # shellcheck disable=SC2086  # words
    set -- $recording
    record "$@"
    listed "$1"
    $python $expected/change.py "$work/$1.ts" "$work/$1-tref.ts" tref 257 256
    listed "$1-tref" tref
    $python $expected/probed.py units "$work/$1-tref.ts" 0=256 1=257 tref >"$work/units"
    same "$work/units" "$work/$1-tref.ts" 1
    for kind in gap told-gap copies clocked-copy other-copy scrambled error other-pids lost overlong long-header no-header no-time wrong-marker cut; do
        $python $expected/change.py "$work/$1-tref.ts" "$work/changed.ts" "$kind" 257 256 >"$work/answer"
        if [ "$(cat "$work/answer")" = units ]; then
            same "$work/units" "$work/changed.ts" 1
        else
            same "$work/answer" "$work/changed.ts"
            same "$work/answer" "$work/changed.ts" 1
        fi
    done
    echo "recordings: ok, $1, $(($(wc -c <"$work/$1-tref.ts") / 188)) packets, $(wc -l <"$work/$1-tref.rows") rows and $(wc -l <"$work/units") units as ffprobe lists them, and 15 changes"
done
