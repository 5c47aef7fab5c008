#!/bin/sh
# The command `points`. On each program's loop of samples/points/, over the streams of samples/mv-hevc.bin, on empty loops and on ones that are too long it prints the text
# of the same name in tests/points/, each written by hand from document 02 and the loops' bytes; it ends with the status that README.md promises; and what it cannot
# read or write it tells. What it has in common with `layers` (scripts/command.sh) is tried by tests/layers.sh. Ends with status 1 where something differs. To be
# run after `rt check`.
cd "$(dirname "$0")/.." || exit 1
command=points
# shellcheck source=tests/expect.sh
. tests/expect.sh

streams=samples/mv-hevc.bin
for sample in samples/points/*.bin; do
    text=tests/points/$(basename "$sample" .bin).txt
    expect "$sample" "$(status_of "$text")" "$text" "" ./points "$sample" "$streams"
done
views=samples/points/views.bin
five=tests/points/views.txt
expect "no bytes" 0 tests/points/empty.txt "" ./points /dev/null /dev/null
expect "no descriptors" 0 tests/points/empty.txt "" ./points /dev/null "$streams"
expect "no streams" 1 tests/points/unknown.txt "" ./points "$views" /dev/null
for length in 1009 1000000; do
    head -c "$length" /dev/zero >"$work/long"
    expect "$length bytes of descriptors" 1 tests/points/too-long.txt "" ./points "$work/long" "$streams"
    expect "$length bytes of streams" 1 tests/points/loop-too-long.txt "" ./points "$views" "$work/long"
    expect "$length bytes of both" 1 tests/points/loop-too-long.txt "" ./points "$work/long" "$work/long"
done
# 1,008 bytes are not too long: three descriptors of 257 bytes, one of 237.
for length in 255 255 255 235; do
    # shellcheck disable=SC2059  # an octal escape
    printf "\\012\\$(printf %o "$length")"
    head -c "$length" /dev/zero
done >"$work/longest"
expect "1008 bytes of descriptors" 0 tests/points/empty.txt "" ./points "$work/longest" "$streams"

# ---- the loop's numbers come first; 42 for an absent layer by a reference, and by a dependency that is to be put before its reference, and not where it is not
expect "a loop that is refused" 1 tests/points/refused-loop.txt "" ./points "$views" samples/refused.bin
expect "a loop that is refused, before 40" 1 tests/points/refused-loop.txt "" ./points samples/points/does-not-fit.bin samples/refused.bin
expect "an absent layer" 1 tests/points/unknown.txt "" ./points "$views" samples/absent.bin
printf '\077\011\005\300\001\001\001\302\301\300\200' >"$work/prepended"
expect "an absent dependency, put before" 1 tests/points/unknown.txt "" ./points "$work/prepended" samples/absent.bin
printf '\077\011\005\300\001\001\001\202\301\300\200' >"$work/alone"
echo "accepted 1
point 0 target_ols 1 temporal_id 0 frame_rate none average none maximum none closed no streams 2" >"$work/alone.txt"
expect "an absent dependency, not put before" 0 "$work/alone.txt" "" ./points "$work/alone" samples/absent.bin
printf '\077\011\005\300\001\005\000\300\227\000\000' >"$work/none"
echo "accepted 1
point 0 target_ols 5 temporal_id 7 frame_rate 0 average none maximum none closed yes streams none" >"$work/none.txt"
expect "no streams, and a frame rate of 0" 0 "$work/none.txt" "" ./points "$work/none" "$streams"

# ---- each number that operation points have of their own, in words
expect "40 in words" 1 tests/points/does-not-fit.txt "points: 40: the program's descriptor loop is longer than 1,008 bytes, a descriptor in it runs past it" \
    ./points --explain samples/points/does-not-fit.bin "$streams"
expect "41 in words" 1 tests/points/reserved.txt "points: 41: an operation point has the reserved ES_count 0xFF" ./points --explain samples/points/reserved.bin "$streams"
expect "42 in words" 1 tests/points/unknown.txt "points: 42: an operation point refers to, or is to prepend, what is no layer of the loop" \
    ./points --explain samples/points/unknown.bin "$streams"
expect "9 in words" 1 tests/points/refused-loop.txt "points: 9: entry 1 has an embedded index" ./points --explain "$views" samples/refused.bin
expect "an acceptance needs no words" 0 "$five" "" ./points --explain "$views" "$streams"

# ---- inputs
expect "the streams by a pipe" 0 "$five" "" sh -c "cat $streams | ./points $views"
expect "the streams by -" 0 "$five" "" sh -c "./points $views - <$streams"
expect "the descriptors by -" 0 "$five" "" sh -c "cat $views | ./points - $streams"
expect "bytes one after the other" 0 "$five" "" sh -c "(head -c 5 $streams; sleep 0.2; tail -c +6 $streams) | ./points $views"
mkfifo "$work/pipe"
expect "the descriptors by a named pipe" 0 "$five" "" sh -c "cat $views >'$work/pipe' & ./points '$work/pipe' $streams"
expect "the version" 0 '?' "" ./points --version
expect "the help" 0 '?' "" ./points --help
for status in "0 where" "1 where" "2 for a wrong use"; do
    ./points --help >"$work/said"
    grep -qF "$status" "$work/said"
    note "the help tells $status" $?
done
printf 'G%187s' 1 >"$work/packets"
expect "a packet for the streams" 1 '?' "this looks like a transport stream, not a loop" ./points "$views" "$work/packets"
expect "a packet for the descriptors" 1 '?' "this looks like a transport stream, not a loop" ./points "$work/packets" "$streams"

# ---- what is wrong is told, and nothing is told as accepted
expect "no file" 2 - "no file is named" ./points
expect "no such file" 2 - "nowhere.bin: there is no such file" ./points nowhere.bin "$streams"
expect "no such streams" 2 - "nowhere.bin: there is no such file" ./points "$views" nowhere.bin
expect "a directory" 2 - "samples: this is a directory" ./points samples "$streams"
expect "three files" 2 - "more than two files" ./points "$views" "$streams" "$streams"
expect "standard input twice" 2 - "standard input is one of the two loops alone" sh -c "./points - - <$streams"
expect "standard input for the descriptors, and no streams" 2 - "standard input is one of the two loops alone" sh -c "./points - <$streams"
expect "no reading" 2 - "there is no option --reading" ./points --reading 2015 "$views" "$streams"
expect "a directory as standard input" 2 - "standard input cannot be read: Is a directory" sh -c "./points $views <samples"
expect "a directory as the descriptors" 2 - "descriptor 3 cannot be read: Is a directory" sh -c "./points - $streams <samples"
expect "standard input closed" 2 - "standard input cannot be read: Bad file descriptor" sh -c "./points $views <&-"
expect "standard output full" 2 - "standard output cannot be written" sh -c "./points $views $streams >/dev/full"
expect "the program, descriptor 3 closed" 0 - "descriptor 3 cannot be read" sh -c "scripts/run points /dev/fd/3 <$streams 3<&-"
expect "the program, standard input closed" 0 - "standard input cannot be read" sh -c "scripts/run points /dev/fd/3 3<$views <&-"
expect "the program, standard output full" 0 - "standard output was not written whole" sh -c "scripts/run points /dev/fd/3 <$streams 3<$views >/dev/full"
expect "the program, a word" 0 - "it takes no argument" sh -c "scripts/run points /dev/fd/3 - 2015 <$streams 3<$views"

conclude
