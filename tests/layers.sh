#!/bin/sh
# The command `layers`. On each loop of samples/, on the empty loop and on two loops that are too long it prints the text of the same name in
# tests/layers/, each written by hand from document 01 and the loop's bytes; it ends with the status that README.md promises; what it cannot read
# or write it tells; and it runs through a link, from another folder, and in a clone that cannot be written. Ends with status 1 where
# something differs. To be run after `rt check`.
cd "$(dirname "$0")/.." || exit 1
root=$PWD
command=layers
# shellcheck source=tests/expect.sh
. tests/expect.sh

for sample in samples/*.bin; do
    text=tests/layers/$(basename "$sample" .bin).txt
    expect "$sample" "$(status_of "$text")" "$text" "" ./layers "$sample"
done
a=samples/loop-a.bin
expect "no bytes" 0 tests/layers/empty.txt "" ./layers /dev/null
for length in 1009 1000000; do
    head -c "$length" /dev/zero >"$work/long"
    expect "$length bytes" 1 tests/layers/too-long.txt "" ./layers "$work/long"
done

# ---- inputs, readings, words
expect "a pipe" 0 tests/layers/loop-a.txt "" sh -c "cat $a | ./layers"
expect "-" 0 tests/layers/loop-a.txt "" sh -c "./layers - <$a"
expect "/dev/stdin" 0 tests/layers/loop-a.txt "" sh -c "cat $a | ./layers /dev/stdin"
mkfifo "$work/pipe"
expect "a named pipe" 0 tests/layers/loop-a.txt "" sh -c "cat $a >'$work/pipe' & ./layers '$work/pipe'"
expect "bytes one after the other" 0 tests/layers/loop-a.txt "" sh -c "(head -c 5 $a; sleep 0.2; tail -c +6 $a) | ./layers"
sed -e 's/^accepted 3$/accepted 2/' -e '/^layer 2/d' tests/layers/loop-a.txt >"$work/2009.txt"
expect "the 2009 reading" 0 "$work/2009.txt" "" ./layers --reading 2009 "$a"
expect "the 2009 reading, in one word" 0 "$work/2009.txt" "" ./layers "$a" --reading=2009
expect "the 2015 reading" 0 tests/layers/loop-a.txt "" ./layers --reading 2015 "$a"
expect "two views in the 2009 reading" 0 tests/layers/sports.txt "" ./layers --reading 2009 samples/sports.bin
expect "a refusal in words" 1 tests/layers/refused.txt "layers: 9: entry 1 has an embedded index not below the layer's own, or listed twice" \
    ./layers --explain samples/refused.bin
expect "an acceptance needs no words" 0 tests/layers/loop-a.txt "" ./layers --explain "$a"
expect "an option after --" 2 - "--explain: there is no such file" ./layers -- --explain
expect "the version" 0 '?' "" ./layers --version
expect "the help" 0 '?' "" ./layers --help
for status in "0 where the loop is accepted" "1 where it is refused" "2 for a wrong use"; do
    ./layers --help >"$work/said"
    grep -qF "$status" "$work/said"
    note "the help tells $status" $?
done
for packets in 1 4 6 100; do
    for packet in $(seq "$packets"); do printf 'G%187s' "$packet"; done >"$work/packets"
    expect "$packets packets" 1 '?' "this looks like a transport stream, not a loop" ./layers "$work/packets"
done

# ---- what is wrong is told, and nothing is told as accepted
expect "no such file" 2 - "nowhere.bin: there is no such file" ./layers nowhere.bin
expect "a directory" 2 - "samples: this is a directory" ./layers samples
expect "a directory as standard input" 2 - "standard input cannot be read: Is a directory" sh -c "./layers <samples"
expect "standard input closed" 2 - "standard input cannot be read: Bad file descriptor" sh -c "./layers <&-"
expect "- closed" 2 - "standard input cannot be read: Bad file descriptor" sh -c "./layers - <&-"
expect "standard output full" 2 - "standard output cannot be written" sh -c "./layers $a >/dev/full"
expect "standard output closed" 2 - "standard output cannot be written" sh -c "./layers $a >&-"
expect "standard input that is for writing alone" 2 - "standard input cannot be read: Bad file descriptor" sh -c "./layers 0>'$work/new'"
expect "the help, standard output full" 2 - "standard output cannot be written" sh -c "./layers --help >/dev/full"
expect "the version, standard output closed" 2 - "standard output cannot be written" sh -c "./layers --version >&-"
expect "no such option" 2 - "there is no option --layers" ./layers --layers "$a"
expect "two files" 2 - "more than one file" ./layers "$a" "$a"
expect "another reading" 2 - "the reading is 2009 or 2015, and not '2012'" ./layers --reading 2012 "$a"
expect "no reading" 2 - "--reading asks for a year" ./layers "$a" --reading

# ---- the program itself, which has no status
expect "the program, standard input closed" 0 - "standard input cannot be read" sh -c "scripts/run layers <&-"
expect "the program, standard output full" 0 - "standard output was not written whole: No space left" sh -c "scripts/run layers <$a >/dev/full"
expect "the program, standard output closed" 0 - "standard output was not written whole" sh -c "scripts/run layers <$a >&-"
for words in 2012 2015x "2015 2015"; do
    # shellcheck disable=SC2086  # a list of words
    expect "the program, $words" 0 - "the only argument is the reading" scripts/run layers $words </dev/null
done
# A write that is cut short: to a file that has room for some of the text alone.
head -c 400 /dev/zero >"$work/short"
limited="trap '' XFSZ; ulimit -f 1; exec >>'$work/short'"
expect "the program, a text cut short" 0 - "standard output was not written whole: File too large" sh -c "$limited; scripts/run layers <$a"
head -c 400 /dev/zero >"$work/short"
expect "a text cut short" 2 - "standard output cannot be written" sh -c "$limited; ./layers $a"

# ---- from elsewhere, by a link, as another user, in a clone that cannot be written, without the kit
ln -s "$root/layers" "$work/by-link"
expect "by a link, from /" 0 tests/layers/loop-a.txt "" sh -c "cd / && '$work/by-link' '$root/$a'"
mkdir "$work/clone"
tar -cf - --exclude='crates/*/out' crates crates.txt include layers samples scripts words | tar -xf - -C "$work/clone"
mkdir "$work/clone/crates/layers/out"
cp -a crates/layers/out/layers "$work/clone/crates/layers/out"
cp "$a" "$work/closed.bin"
chmod 0 "$work/closed.bin"
chmod -R a-w,go+rX "$work/clone"
chmod 755 "$work"
as_nobody=
[ "$(id -u)" -ne 0 ] || as_nobody="setpriv --reuid=65534 --regid=65534 --clear-groups"
path=$PATH
[ "$(uname -m)" != x86_64 ] || path=/usr/bin:/bin
# shellcheck disable=SC2086  # a list of words
{
    expect "a clone that cannot be written" 0 tests/layers/loop-a.txt "" env PATH="$path" $as_nobody "$work/clone/layers" "$work/clone/$a"
    expect "a file that may not be read" 2 - "closed.bin: this file cannot be read" env PATH="$path" $as_nobody "$work/clone/layers" "$work/closed.bin"
}

conclude
