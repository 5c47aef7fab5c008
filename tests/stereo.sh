#!/bin/sh
# The command `stereo`. On each loop of samples/, on the empty loop and on one that is too long it prints the text of the same name in tests/stereo/, each written by
# hand from document 02 and the loop's bytes; it ends with the status that README.md promises; and what it cannot read or write it tells. What it has in
# common with `layers` (scripts/command.sh) is tried by tests/layers.sh. Ends with status 1 where something differs. To be run after `rt check`.
cd "$(dirname "$0")/.." || exit 1
command=stereo
# shellcheck source=tests/expect.sh
. tests/expect.sh

for sample in samples/*.bin; do
    text=tests/stereo/$(basename "$sample" .bin).txt
    expect "$sample" "$(status_of "$text")" "$text" "" ./stereo "$sample"
done
a=samples/stereo.bin
set=tests/stereo/stereo.txt
expect "no bytes" 1 tests/stereo/empty.txt "" ./stereo /dev/null
for length in 1009 1000000; do
    head -c "$length" /dev/zero >"$work/long"
    expect "$length bytes" 1 tests/stereo/too-long.txt "" ./stereo "$work/long"
done

# ---- each number that a stereo set has of its own, in words; 46 by the second view's least index, which becomes the base's
expect "44 in words" 1 tests/stereo/mvc.txt "stereo: 44: the loop has not exactly two layers" ./stereo --explain samples/mvc.bin
expect "45 in words" 1 tests/stereo/sports.txt "stereo: 45: on one of the two views the MVC extension descriptor is missing" ./stereo --explain samples/sports.bin
{ head -c 39 "$a"; printf '\000'; tail -c +41 "$a"; } >"$work/meeting"
echo "refused 46 entry 0" >"$work/meeting.txt"
expect "46 in words" 1 "$work/meeting.txt" "stereo: 46: a range of view order index has a least above its greatest, or the two ranges share an index" \
    ./stereo --explain "$work/meeting"
expect "9 in words" 1 tests/stereo/refused.txt "stereo: 9: entry 1 has an embedded index" ./stereo --explain samples/refused.bin
expect "an acceptance needs no words" 0 "$set" "" ./stereo --explain "$a"

# ---- inputs
expect "a pipe" 0 "$set" "" sh -c "cat $a | ./stereo"
expect "-" 0 "$set" "" sh -c "./stereo - <$a"
expect "bytes one after the other" 0 "$set" "" sh -c "(head -c 5 $a; sleep 0.2; tail -c +6 $a) | ./stereo"
expect "the version" 0 '?' "" ./stereo --version
expect "the help" 0 '?' "" ./stereo --help
for status in "0 where" "1 where" "2 for a wrong use"; do
    ./stereo --help >"$work/said"
    grep -qF "$status" "$work/said"
    note "the help tells $status" $?
done
printf 'G%187s' 1 >"$work/packets"
expect "a packet" 1 '?' "this looks like a transport stream, not a loop" ./stereo "$work/packets"

# ---- what is wrong is told, and nothing is told as accepted
expect "no such file" 2 - "nowhere.bin: there is no such file" ./stereo nowhere.bin
expect "no reading" 2 - "there is no option --reading" ./stereo --reading 2015 "$a"
expect "two files" 2 - "more than one file" ./stereo "$a" "$a"
expect "a directory as standard input" 2 - "standard input cannot be read: Is a directory" sh -c "./stereo <samples"
expect "standard output full" 2 - "standard output cannot be written" sh -c "./stereo $a >/dev/full"
expect "the program, standard input closed" 0 - "standard input cannot be read" sh -c "scripts/run stereo <&-"
expect "the program, standard output full" 0 - "standard output was not written whole" sh -c "scripts/run stereo <$a >/dev/full"

conclude
