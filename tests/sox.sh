#!/bin/sh
# AU files that sox writes and reads, and speech by espeak-ng through sox, by the built program. Left out, with a line that says so, where sox is not installed.
set -eu
. "$(dirname "$0")/lib.sh"

if ! command -v sox >/dev/null; then
    echo 'sox is not installed: left out'
    exit 0
fi

# sox keeps each byte of mu-law but 7f, the other zero, which it writes as ff.
head -c 65536 /dev/urandom | tr '\177' '\377' >"$work/noise.ul"
cd "$work"
sox -t ul -r 8000 -c 1 noise.ul noise.au
sox -n -r 8000 -c 1 -e mu-law tone.au synth 1.5 sine 300-3000
sox tone.au -t ul wanted.ul
sox -n -r 8000 -c 1 -e mu-law silent.au trim 0 0
sox -n -r 8000 -c 2 -e mu-law stereo.au synth 0.1 sine 300
sox -n -r 44100 -c 1 -e mu-law fast.au synth 0.1 sine 300
sox -n -r 8000 -c 1 -e signed -b 16 linear.au synth 0.1 sine 300
sox -n -r 8000 -c 1 tone.wav synth 0.1 sine 300

# imported NAME AU WANTED: an AU file of sox has these samples.
imported() {
    check "$1 is imported" 0 '' '' import "$2" got.ul
    expect "$1: the samples" cmp -s got.ul "$3"
}

# refused NAME AU CAUSE
refused() {
    check "$1 is refused" 10 '' "voice: $2 is refused, cause $3
" import "$2" got.ul
}

# exported NAME UL: sox reads an exported file as these samples, of 8,000 mu-law samples a second in one channel.
exported() {
    check "$1 is exported" 0 '' '' export "$2" out.au
    expect "$1: what sox says of it" test "$(soxi -V1 -r out.au) $(soxi -V1 -c out.au) $(soxi -V1 -e out.au) $(soxi -V1 -s out.au)" = "8000 1 u-law $(wc -c <"$2" | tr -d ' ')"
    sox -V1 out.au -t ul read.ul
    expect "$1: what sox reads" cmp -s read.ul "$2"
}

: >empty.ul
imported 'noise' noise.au noise.ul
imported 'a tone' tone.au wanted.ul
imported 'no sample' silent.au empty.ul
refused 'another file' tone.wav 2
refused 'another encoding' linear.au 4
refused 'another rate' fast.au 5
refused 'two channels' stereo.au 6
exported 'noise' noise.ul
exported 'a tone' wanted.ul

if ! command -v espeak-ng >/dev/null; then
    echo 'espeak-ng is not installed: speech is left out'
    finish
    exit 0
fi

# Two sentences with a second of silence between them: where there is talk is found, and the first is cut out and exported.
espeak-ng -v en 'The budget was settled.' --stdout >one.wav
espeak-ng -v en 'The plan stands.' --stdout >two.wav
sox -n -r 22050 -c 1 -b 16 pause.wav trim 0 1
sox one.wav pause.wav two.wav -r 8000 -c 1 -e mu-law speech.au 2>sox.log
check 'speech is imported' 0 '' '' import speech.au speech.ul
length=$(wc -c <speech.ul | tr -d ' ')
rm -f voice.disk
printf '1 record speech.ul\n1 describe 1\n' >talk.vs
"$top/voice" run talk.vs >talk.txt
expect 'it is recorded' test "$(head -n 1 talk.txt)" = "1 1 record: rope 1 length $length"
spans=$(sed -n 's/^2 1 describe: talk 2 //p' talk.txt)
expect 'there is talk twice' test -n "$spans"
first=${spans%% *}
printf '1 sub 1 %s %s\n1 describe 2\n' "${first%+*}" "${first#*+}" >cut.vs
"$top/voice" run cut.vs >cut.txt
expect 'the first is cut out' test "$(head -n 1 cut.txt)" = "1 1 sub: rope 2 length ${first#*+}"
expect 'and is all talk' test "$(tail -n 1 cut.txt)" = "2 1 describe: talk 1 0+${first#*+}"
python3 "$top/tests/read_disk.py" voice.disk 2 cut.ul
tail -c "+$((${first%+*} + 1))" speech.ul | head -c "${first#*+}" >wanted.ul
expect 'its samples' cmp -s cut.ul wanted.ul
tr '\177' '\377' <cut.ul >plain.ul
exported 'the cut' plain.ul
finish
