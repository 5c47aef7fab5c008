#!/bin/sh
# The command `units`. On each recording that is written down in tests/units/ it prints the text of the same name there, which was worked out by hand from documents 01 and 02; on real ones of
# samples/recordings/ what ffprobe has listed of them (tests/recordings/); it ends with the status that README.md promises; and what it cannot read or write it tells. What it has in
# common with `layers` (scripts/command.sh) is tried by tests/layers.sh. Ends with status 1 where something differs. To be run after `rt check`.
cd "$(dirname "$0")/.." || exit 1
command=units
# shellcheck source=tests/expect.sh
. tests/expect.sh

loop=samples/loop-a.bin
recordings=samples/recordings
example=$recordings/example.ts
for text in tests/units/*.packets; do
    name=$(basename "$text" .packets)
    python3 -B tests/units/recording.py "$text" >"$work/recording"
    cmp "$work/recording" "$recordings/$name.ts" >"$work/said" 2>&1
    note "$name is as it is written down" $?
done
expect "the example" 0 tests/units/example.txt "" ./units 1 $loop $example
expect "its rows" 0 tests/units/example.rows "" ./units --rows 1 $loop $example
printf '0 0\n2 0\n4 0\n' >"$work/base"
expect "another target" 0 "$work/base" "" ./units 0 $loop $example
expect "a target that takes no row more" 0 "$work/base" "" ./units 2 $loop $example
expect "implied layers" 0 tests/units/sports.txt "" ./units 1 samples/sports.bin $recordings/sports.ts
expect "a header that is refused" 1 tests/units/late.txt "" ./units 1 $loop $recordings/late.ts
expect "its rows" 1 tests/units/late.txt "" ./units --rows 1 $loop $recordings/late.ts
for text in tests/recordings/*.units tests/recordings/*.rows; do
    [ -f "$text" ] || continue
    name=$(basename "${text%.*}")
    case $text in *.rows) rows=--rows ;; *) rows='' ;; esac
    # shellcheck disable=SC2086  # a word, or none
    expect "$text" 0 "$text" "" ./units $rows 1 $recordings/two-rates.bin "$recordings/$name.ts"
done

# ---- refusals: the loop's numbers, 11 and 12 first; 30; rows where joining refuses
refusal() { echo "refused $1 place $2" >"$work/refusal"; }
refusal 9 1
expect "a loop that is refused" 1 "$work/refusal" "" ./units 1 samples/refused.bin $example
refusal 11 0
expect "no such layer" 1 "$work/refusal" "" ./units 3 $loop $example
expect "a target above 63" 1 "$work/refusal" "" ./units 64 $loop $example
expect "a long target" 1 "$work/refusal" "" ./units 99999999999999999999999999 $loop $example
expect "no such layer, for the rows" 1 "$work/refusal" "" ./units --rows 3 $loop $example
refusal 12 1
expect "an absent layer" 1 "$work/refusal" "" ./units 2 samples/absent.bin $example
refusal 1 0
head -c 1009 /dev/zero >"$work/long"
expect "a loop that is too long" 1 "$work/refusal" "" ./units 1 "$work/long" $example
refusal 30 9
head -c 1879 $example >"$work/cut"
expect "a last part of a packet" 1 "$work/refusal" "" ./units 1 $loop "$work/cut"
refusal 30 0
expect "no packets" 1 "$work/refusal" "" ./units 1 $loop tests/units/example.txt
sed '1,/^# packet 3/d' tests/units/example.packets | sed '1i 47 1F FF 10 /' >"$work/upper"
# Without the first picture of layer 0 that of layer 1 has nothing to rest on: row 0 is refused.
python3 -B tests/units/recording.py "$work/upper" >"$work/upper.ts"
refusal 15 0
expect "a row without its partner" 1 "$work/refusal" "" ./units 1 $loop "$work/upper.ts"
printf '0 1 1 9000 9000 0\n1 4 0 12600 12600 0\n2 5 1 12000 12600 1\n3 7 0 16200 16200 0\n' >"$work/rows"
expect "the rows, though joining refuses them" 0 "$work/rows" "" ./units --rows 1 $loop "$work/upper.ts"
: >"$work/none"
expect "an empty recording" 0 - "" ./units 1 $loop "$work/none"
expect "its rows" 0 - "" ./units --rows 1 $loop "$work/none"
expect "no recording, by a device" 0 - "" ./units 1 $loop /dev/null
expect "24 in words" 1 '?' "units: 24: " ./units --explain 1 $loop $recordings/late.ts
expect "11 in words" 1 '?' "units: 11: " ./units --explain 3 $loop $example
expect "an acceptance needs no words" 0 tests/units/example.txt "" ./units --explain 1 $loop $example

# ---- inputs
expect "the recording by a pipe" 0 tests/units/example.txt "" sh -c "cat $example | ./units 1 $loop"
expect "the recording by -" 0 tests/units/example.txt "" sh -c "./units 1 $loop - <$example"
expect "the loop by -" 0 tests/units/example.txt "" sh -c "cat $loop | ./units 1 - $example"
expect "bytes one after the other" 0 tests/units/example.txt "" sh -c "(head -c 500 $example; sleep 0.2; tail -c +501 $example) | ./units 1 $loop"
mkfifo "$work/pipe"
expect "the recording by a named pipe" 0 tests/units/example.txt "" sh -c "cat $example >'$work/pipe' & ./units 1 $loop '$work/pipe'"
expect "the version" 0 '?' "" ./units --version
expect "the help" 0 '?' "" ./units --help
for status in "0 where" "1 where" "2 for a wrong use"; do
    ./units --help >"$work/said"
    grep -qF "$status" "$work/said"
    note "the help tells $status" $?
done
expect "a packet for the loop" 1 '?' "the loop looks like a transport stream" ./units 1 $example $example

# ---- long recordings: 70,000 pictures of layer 0 are more rows than the smaller program holds
python3 -B - "$work/many.ts" <<'PYTHON'
import sys
def stamp(time):
    return bytes([0x21 | time >> 30 << 1 & 14, time >> 22 & 255, time >> 14 & 254 | 1, time >> 7 & 255, time << 1 & 254 | 1])
with open(sys.argv[1], "wb") as out:
    for picture in range(70000):
        head = bytes([0x47, 0x41, 0x00, 0x10 | picture % 16, 0, 0, 1, 0xE0, 0, 0, 0x84, 0x80, 5])
        out.write((head + stamp(picture * 3600)).ljust(188, b"\xff"))
PYTHON
seq 0 69999 | sed 's/$/ 0/' >"$work/many"
awk 'BEGIN { for (k = 0; k < 70000; k++) print k, k, 0, k * 3600, k * 3600, 0 }' >"$work/many.rows"
expect "70,000 units" 0 "$work/many" "" ./units 0 $loop "$work/many.ts"
expect "70,000 rows" 0 "$work/many.rows" "" ./units --rows 0 $loop "$work/many.ts"
expect "70,000 units by a pipe" 0 "$work/many" "" sh -c "cat '$work/many.ts' | ./units 0 $loop"
head -c 12320768 "$work/many.ts" >"$work/most.ts"
head -n 65536 "$work/many" >"$work/most"
expect "65,536 units within 8 MB of stack" 0 "$work/most" "" sh -c "ulimit -s 8192; ./units 0 $loop '$work/most.ts'"
refusal 13 0
expect "more of them within 8 MB of stack" 1 "$work/refusal" "" sh -c "ulimit -s 8192; ./units 0 $loop '$work/many.ts'"

# ---- what is wrong is told, and nothing is told as whole
expect "no target" 2 - "no target is named" ./units
expect "no loop" 2 - "no loop is named" ./units 1
expect "a target that is no number" 2 - "the target is the index of a layer" ./units one $loop $example
expect "a loop for the target" 2 - "the target is the index of a layer" ./units $loop $example
expect "no such recording" 2 - "nowhere.ts: there is no such file" ./units 1 $loop nowhere.ts
expect "no such loop" 2 - "nowhere.bin: there is no such file" ./units 1 nowhere.bin $example
expect "a directory" 2 - "samples: this is a directory" ./units 1 $loop samples
expect "three files" 2 - "more than two files" ./units 1 $loop $example $example
expect "standard input twice" 2 - "standard input is one of the two inputs alone" sh -c "./units 1 - - <$example"
expect "no such option" 2 - "there is no option --reading" ./units --reading 2015 1 $loop $example
expect "a directory as standard input" 2 - "standard input cannot be read: Is a directory" sh -c "./units 1 $loop <samples"
expect "standard input closed" 2 - "standard input cannot be read: Bad file descriptor" sh -c "./units 1 $loop <&-"
expect "standard output full" 2 - "standard output was not written whole" sh -c "./units 1 $loop $example >/dev/full"
expect "standard output full, of a refusal" 2 - "standard output was not written whole" sh -c "./units 1 $loop $recordings/late.ts >/dev/full"
expect "standard output full, of many units" 2 - "standard output was not written whole" sh -c "./units 0 $loop '$work/many.ts' >/dev/full"
expect "standard output closed" 2 - "standard output cannot be written" sh -c "./units 1 $loop $example >&-"
expect "the program, descriptor 3 closed" 0 - "descriptor 3 cannot be read" sh -c "scripts/run units 1 /dev/fd/3 <$example 3<&-"
expect "the program, standard input closed" 0 - "standard input cannot be read" sh -c "scripts/run units 1 /dev/fd/3 3<$loop <&-"
expect "the program, standard output full" 0 - "standard output was not written whole" sh -c "scripts/run units 1 /dev/fd/3 <$example 3<$loop >/dev/full"
expect "the program, no target" 0 - "the target is a decimal number" sh -c "scripts/run units <$example 3<$loop"

conclude
