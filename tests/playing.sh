#!/bin/sh
# Lines that play: what is printed, and the files that are written, by the built program over a disk file, in the script's order and with each caller on a thread.
set -eu
. "$(dirname "$0")/lib.sh"

# bytes COUNT CODE: so many bytes of that octal code.
bytes() {
    head -c "$1" /dev/zero | tr '\0' "\\$2"
}

printf 'ABCDEFGHIJKLMNOPQRST' >"$work/f20"
for n in 1 8 64 128; do
    bytes "$n" 200 >"$work/z$n"
done
bytes 128 21 >"$work/y128"
awk 'BEGIN { for (i = 0; i < 64; i++) printf "%c", 33 + i }' >"$work/c64"

small() {
    rm -f "$work/voice.disk"
    (cd "$work" && "$top/voice" format --block 8 --blocks 16 --area 512 --lanes 4 --grace 60)
}

# run_script NAME STATUS WANTED SCRIPT [WORD]: the script ends so and prints this over the disk as it stands.
run_script() {
    printf "$4" >"$work/s.vs"
    status=0
    (cd "$work" && "$top/voice" run s.vs ${5:-}) >"$work/.text" 2>"$work/.err" || status=$?
    printf "$3" >"$work/.want"
    expect "$1" cmp -s "$work/.text" "$work/.want"
    expect "$1: status" [ "$status" = "$2" ]
}

# row NAME STATUS WANTED SCRIPT [WORD]: the same over a small disk that is new.
row() {
    small
    rm -f "$work"/out*
    run_script "$@"
}

# holds NAME FILE WANTED: the file has just these bytes.
holds() {
    printf "$3" >"$work/.want"
    expect "$1" cmp -s "$work/$2" "$work/.want"
}

# absent NAME FILE: there is no such file.
absent() {
    expect "$1" [ ! -e "$work/$2" ]
}

for words in '' --threads; do
    row "ten letters are cut out$words" 0 '1 1 record: rope 1 length 20\n2 1 sub: rope 2 length 0\n3 1 replace: rope 3 length 10\n4 1 replace: rope 4 length 40\n5 1 play: job 1\n6 1 feed: window 0 10\n7 1 feed: ended 1 10\n' '1 a = record f20\n1 b = sub a 0 0\n1 c = replace a 5 10 b\n1 d = replace a 20 0 a\n1 play 0 c 0 10 out\n' "$words"
    holds "ten letters are heard$words" out 'ABCDEPQRST'
    row "two windows$words" 0 '1 1 record: rope 1 length 64\n2 1 play: job 1\n3 1 feed: window 0 32\n4 1 feed: window 32 32\n5 1 feed: ended 1 64\n' '1 a = record c64\n1 play 0 a 0 64 out\n' "$words"
    expect "two windows are heard$words" cmp -s "$work/out" "$work/c64"
    row "nine queues, a stop and a serve$words" 0 '1 1 record: rope 1 length 20\n2 1 play: job 1\n3 1 play: job 2\n4 1 play: job 3\n5 1 play: job 4\n6 1 play: job 5\n7 1 play: job 6\n8 1 play: job 7\n9 1 play: job 8\n10 1 play: no queue-full\n11 1 stop: number 8\n12 1 feed: stopped 1 0\n13 1 play: no unknown-lane 4\n' '1 a = record f20\n1 queue 0 a 0 20\n1 queue 0 a 0 20\n1 queue 0 a 0 20\n1 queue 0 a 0 20\n1 queue 0 a 0 20\n1 queue 0 a 0 20\n1 queue 0 a 0 20\n1 queue 0 a 0 20\n1 queue 0 a 0 20\n1 stop 0\n1 serve 0 out\n1 queue 9 a 0 1\n' "$words"
    holds "nothing is heard of a job that was stopped$words" out ''
    row "a line serves the first job of its lane$words" 0 '1 1 record: rope 1 length 20\n2 1 play: job 1\n3 1 play: job 2\n4 1 feed: window 0 5\n5 1 feed: ended 1 5\n6 1 feed: window 0 3\n7 1 feed: ended 2 3\n8 1 feed: no no-job\n' '1 a = record f20\n1 queue 0 a 0 5\n1 play 0 a 10 3 out\n1 serve 0 out2\n1 serve 0 out3\n' "$words"
    holds "the earlier job is heard$words" out 'ABCDE'
    holds "then the later one$words" out2 'KLM'
    absent "a serving that was refused gives no file$words" out3
    row "a play that is refused$words" 0 '1 1 play: no unknown-rope 7\n2 1 play: no unknown-lane 4\n3 1 feed: no unknown-lane 4\n' '1 play 0 7 0 1 out\n1 play 9 7 0 1 out2\n1 serve 9 out3\n' "$words"
    absent "a play that is refused gives no file$words" out
    absent "nor on a lane that isn't there$words" out2
    row "an empty passage$words" 0 '1 1 record: rope 1 length 20\n2 1 play: job 1\n3 1 feed: ended 1 0\n' '1 a = record f20\n1 play 0 a 20 0 out\n' "$words"
    holds "an empty passage gives an empty file$words" out ''
    row "one file set twice$words" 0 '1 1 record: rope 1 length 20\n2 1 play: job 1\n3 1 feed: window 0 4\n4 1 feed: ended 1 4\n5 1 play: job 2\n6 1 feed: window 0 4\n7 1 feed: ended 2 4\n' '1 a = record f20\n1 play 0 a 0 4 out\n1 play 1 a 4 4 out\n' "$words"
    holds "the later one stands$words" out 'EFGH'
done

# The same blocks, recorded anew after a sweep: the second listener hears the second recording.
row 'a sweep between two plays' 0 '1 1 record: rope 1 length 128\n2 1 play: job 1\n3 1 feed: window 0 32\n4 1 feed: window 32 32\n5 1 feed: window 64 32\n6 1 feed: window 96 32\n7 1 feed: ended 1 128\n8 1 advance: done\n9 1 sweep: swept 0 rows 1 ropes 1\n10 1 record: rope 2 length 128\n11 1 play: job 2\n12 1 feed: window 0 32\n13 1 feed: window 32 32\n14 1 feed: window 64 32\n15 1 feed: window 96 32\n16 1 feed: ended 2 128\n' '1 a = record z128\n1 play 0 a 0 128 out\n1 advance 60\n1 sweep 9\n1 b = record y128\n1 play 0 b 0 128 out2\n'
expect 'the first recording is heard' cmp -s "$work/out" "$work/z128"
expect 'then the second' cmp -s "$work/out2" "$work/y128"

# A queued passage keeps its blocks from run to run? No: jobs end with the run, so the blocks are free in the next one.
row 'a rope that is queued is swept, and its blocks wait' 0 '1 1 record: rope 1 length 64\n2 1 play: job 1\n3 1 advance: done\n4 1 sweep: swept 0 rows 1 ropes 1\n5 1 record: rope 2 length 64\n6 1 record: no no-room 1 0\n7 1 feed: window 0 32\n8 1 feed: window 32 32\n9 1 feed: ended 1 64\n10 1 record: rope 3 length 1\n' '1 a = record c64\n1 queue 0 a 0 64\n1 advance 60\n1 sweep 9\n1 record z64\n1 record z1\n1 serve 0 out\n1 record z1\n'
expect 'the swept rope is heard' cmp -s "$work/out" "$work/c64"

# A file that can't be written: the status is that of the shelf, nothing is printed, and the disk keeps what was done.
small
mkdir "$work/out.d"
printf '1 a = record f20\n1 play 0 a 0 4 out\n' >"$work/s.vs"
rm -f "$work/out" && mkdir "$work/out"
status=0
(cd "$work" && "$top/voice" run s.vs) >"$work/.text" 2>"$work/.err" || status=$?
expect 'a file that cannot be written' [ "$status" = 5 ]
expect 'nothing is printed then' [ ! -s "$work/.text" ]
rmdir "$work/out" "$work/out.d"
run_script 'what was done stands' 0 '1 1 length: number 20\n' '1 length 1\n'

# A lane is served for one caller.
row 'a lane of two callers' 3 '' '1 play 0 1 0 1 out\n2 play 0 1 0 1 out\n'
expect 'and says so' [ "$(cat "$work/.err")" = 'voice: line 2 of the script is refused: another caller serves that lane' ]

# Two callers on threads, each on a lane of its own, hear the message of a third by its key.
rm -f "$work/voice.disk"
(cd "$work" && "$top/voice" format --block 4096 --blocks 2000 --area 1048576 --lanes 4 --grace 60)
{ bytes 160000 200; bytes 8000 377; bytes 192000 200; } >"$work/msg"
bytes 8000 200 >"$work/note"
{ bytes 160000 200; bytes 192000 200; bytes 8000 200; } >"$work/whole"
day='1 a = record msg\n1 describe a\n1 e = sub a 0 0\n1 b = replace a 160000 8000 e\n1 n = record note\n1 c = concat b n\n1 retain held mail.1 c 6869\n2 v = lookup held mail.1\n2 play 0 v 0 360000 p2\n3 v = lookup held mail.1\n3 play 1 v 0 360000 p3\n1 advance 100\n1 sweep 100\n'
printf "$day" >"$work/day.vs"
expect 'a day of mail' sh -c "cd '$work' && '$top/voice' run day.vs >day.txt"
expect 'its second entry' [ "$(sed -n 2p "$work/day.txt")" = '2 1 describe: talk 2 0+160000 168000+192000' ]
expect 'its windows' [ "$(grep -c ' feed: window ' "$work/day.txt")" = 46 ]
expect 'its last entry' [ "$(tail -n 1 "$work/day.txt")" = '61 1 sweep: swept 0 rows 4 ropes 1 2 3 4' ]
expect 'both hear the message' sh -c "cmp -s '$work/p2' '$work/whole' && cmp -s '$work/p3' '$work/whole'"

# Sixteen callers on threads play one rope, each on its lane, and a seventeenth line sweeps it: each hears all of it, or is refused and has no file.
whole=yes
for k in $(seq 1 20); do
    rm -f "$work"/voice.disk "$work"/heard*
    (cd "$work" && "$top/voice" format --block 8 --blocks 64 --area 4096 --lanes 16 --grace 60)
    printf '1 record c64\n1 advance 60\n' >"$work/s.vs"
    (cd "$work" && "$top/voice" run s.vs) >"$work/.text"
    awk 'BEGIN { for (c = 1; c <= 16; c++) print c " play " c - 1 " 1 0 64 heard" c; print "1 sweep 9" }' >"$work/s.vs"
    (cd "$work" && "$top/voice" run s.vs --threads) >"$work/.text" || whole="run $k ended badly"
    jobs=$(grep -c 'play: job' "$work/.text")
    [ "$jobs" = "$(ls "$work" | grep -c '^heard')" ] || whole="run $k: $jobs jobs, and as many files are not there"
    [ "$((jobs + $(grep -c 'play: no unknown-rope 1' "$work/.text")))" = 16 ] || whole="run $k: a play is answered otherwise"
    grep -q 'sweep: swept 0 rows 1 ropes 1' "$work/.text" || whole="run $k: nothing was swept"
    for file in "$work"/heard*; do
        cmp -s "$file" "$work/c64" || whole="run $k: other samples"
    done
done
expect "sixteen callers play a rope that is swept ($whole)" [ "$whole" = yes ]
finish
