#!/bin/sh
# Recordings in parts, begun on a lane, added to piece by piece and ended, by the built program over a small disk file. It needs python3.
set -eu
. "$(dirname "$0")/lib.sh"
tests=$top/tests
export PYTHONDONTWRITEBYTECODE=1

# bytes COUNT CODE: so many bytes of that octal code.
bytes() {
    head -c "$1" /dev/zero | tr '\0' "\\$2"
}

printf 'ABCDEFGHIJKLMNOPQRST' >"$work/f20"
printf 'abcdefghijklmnopqrst' >"$work/g20"
printf 'ABCDEFGHIJKLMNOPQRSTabcdefghijklmnopqrst' >"$work/f20g20"
printf '1234567' >"$work/d7"
printf '12345678901' >"$work/d11"
: >"$work/z0"
for n in 1 8 64 65 128; do
    bytes "$n" 200 >"$work/z$n"
done
bytes 128 21 >"$work/y128"

# small: a new disk of 16 blocks of 8 samples.
small() {
    rm -f "$work/voice.disk" "$work"/out*
    (cd "$work" && "$top/voice" format --block 8 --blocks 16 --area 512 --lanes 4 --grace 60)
}

# run_script NAME WANTED SCRIPT: what the script prints over the disk as it stands.
run_script() {
    printf "$3" >"$work/s.vs"
    (cd "$work" && "$top/voice" run s.vs) >"$work/.text" 2>"$work/.err" || true
    printf "$2" >"$work/.want"
    expect "$1" cmp -s "$work/.text" "$work/.want"
}

# row NAME WANTED SCRIPT: the same over a small disk that is new.
row() {
    small
    run_script "$@"
}

# holds NAME FILE WANTED: the file has just these bytes.
holds() {
    printf "$3" >"$work/.want"
    expect "$1" cmp -s "$work/$2" "$work/.want"
}

# stand NAME FILE: the bytes of the blocks, which lie behind the first 1,088 bytes of the disk, begin with those of the file.
stand() {
    tail -c +1089 "$work/voice.disk" | head -c "$(wc -c <"$work/$2")" >"$work/.bytes"
    expect "$1" cmp -s "$work/.bytes" "$work/$2"
}

# audits NAME WANTED: the last line of an audit.
audits() {
    (cd "$work" && "$top/voice" audit) >"$work/.audit" || true
    expect "$1" [ "$(tail -n 1 "$work/.audit")" = "$2" ]
}

# Two files become one rope, which is there once the recording has ended, and is heard and cut as any other.
row 'a recording in two parts' '1 1 begin: done\n2 1 add: number 20\n3 1 add: number 40\n4 1 play: no unknown-rope 1\n5 1 end: rope 1 length 40\n6 1 length: number 40\n7 1 play: job 1\n8 1 feed: window 0 32\n9 1 feed: window 32 8\n10 1 feed: ended 1 40\n11 1 sub: rope 2 length 10\n12 1 play: job 2\n13 1 feed: window 0 10\n14 1 feed: ended 2 10\n' '1 begin 0\n1 add 0 f20\n1 add 0 g20\n1 queue 0 1 0 20\n1 a = end 0\n1 length a\n1 play 0 a 0 40 out\n1 c = sub a 15 10\n1 play 1 c 0 10 out2\n'
expect 'both files are heard' cmp -s "$work/out" "$work/f20g20"
holds 'and the cut over the place where they meet' out2 'PQRSTabcde'
audits 'its five blocks are in use' 'blocks used 5 shared 3 free 11'
run_script 'it is there in a later run' '1 1 length: number 40\n2 1 play: job 1\n3 1 feed: window 0 32\n4 1 feed: window 32 8\n5 1 feed: ended 1 40\n' '1 length 1\n1 play 0 1 0 40 out3\n'
expect 'with its samples' cmp -s "$work/out3" "$work/f20g20"
row 'its number is given at its end, and any caller may add and end' '1 1 begin: done\n2 2 add: number 20\n3 1 record: rope 1 length 20\n4 3 end: rope 2 length 20\n5 3 length: number 20\n6 1 length: no unknown-rope 0\n' '1 begin 0\n2 add 0 f20\n1 record f20\n3 a = end 0\n3 length a\n1 length a\n'
row 'it is idle from its end on' '1 1 begin: done\n2 1 add: number 20\n3 1 advance: done\n4 1 sweep: swept 0 rows 0 ropes\n5 1 end: rope 1 length 20\n6 1 advance: done\n7 1 sweep: swept 0 rows 0 ropes\n8 1 advance: done\n9 1 sweep: swept 0 rows 1 ropes 1\n' '1 begin 0\n1 add 0 f20\n1 advance 100\n1 sweep 9\n1 end 0\n1 advance 159\n1 sweep 9\n1 advance 160\n1 sweep 9\n'
row 'an empty recording' '1 1 begin: done\n2 1 end: rope 1 length 0\n3 1 length: number 0\n4 1 describe: talk 0\n5 1 begin: done\n6 1 add: number 0\n7 1 end: rope 2 length 0\n8 1 record: rope 3 length 128\n' '1 begin 0\n1 e = end 0\n1 length e\n1 describe e\n1 begin 0\n1 add 0 z0\n1 end 0\n1 record z128\n'

# Room: the blocks of an open recording are taken.
row '64 samples open on a disk of 128' '1 1 begin: done\n2 1 add: number 64\n3 1 record: no no-room 9 8\n4 1 end: rope 1 length 64\n5 1 record: rope 2 length 64\n6 1 record: no no-room 1 0\n' '1 begin 0\n1 add 0 z64\n1 record z65\n1 end 0\n1 record z64\n1 record z1\n'
row 'an add needs the blocks that its samples take beyond those that are there' '1 1 record: rope 1 length 64\n2 1 begin: done\n3 1 add: number 8\n4 1 add: no no-room 8 7\n5 1 add: number 9\n6 1 add: no no-room 8 6\n7 1 add: number 16\n8 1 add: number 24\n9 1 end: rope 2 length 24\n10 1 record: no no-room 8 5\n' '1 record z64\n1 begin 0\n1 add 0 z8\n1 add 0 z64\n1 add 0 z1\n1 add 0 z64\n1 add 0 d7\n1 add 0 z8\n1 end 0\n1 record z64\n'
row 'two lanes fill the disk' '1 1 begin: done\n2 1 begin: done\n3 1 add: number 64\n4 1 add: number 64\n5 1 add: no no-room 1 0\n6 1 add: number 64\n7 1 record: no no-room 1 0\n8 1 end: rope 1 length 64\n9 1 record: no no-room 1 0\n10 1 end: rope 2 length 64\n11 1 record: no no-room 1 0\n' '1 begin 0\n1 begin 1\n1 add 0 z64\n1 add 1 z64\n1 add 0 z1\n1 add 1 z0\n1 record z1\n1 end 1\n1 record z1\n1 end 0\n1 record z1\n'
audits 'both take their blocks' 'blocks used 16 shared 0 free 0'

# Refusals, in their order.
row 'begin twice' '1 1 begin: done\n2 1 begin: no lane-recording\n3 2 begin: no lane-recording\n4 1 begin: done\n5 1 begin: no unknown-lane 4\n6 1 end: rope 1 length 0\n7 1 begin: done\n' '1 begin 0\n1 begin 0\n2 begin 0\n1 begin 1\n1 begin 4\n1 end 0\n1 begin 0\n'
row 'a queue on a lane that records' '1 1 record: rope 1 length 20\n2 1 begin: done\n3 1 play: no lane-recording\n4 1 play: no lane-recording\n5 1 play: no unknown-rope 9\n6 1 play: no lane-recording\n7 1 feed: no no-job\n8 1 stop: number 0\n9 1 play: job 1\n10 1 end: rope 2 length 0\n11 1 play: job 2\n' '1 a = record f20\n1 begin 0\n1 queue 0 a 0 20\n1 queue 0 a 0 21\n1 queue 0 9 0 1\n1 play 0 a 0 20 out\n1 serve 0 out\n1 stop 0\n1 queue 1 a 0 20\n1 end 0\n1 queue 0 a 0 20\n'
expect 'nothing is heard there' [ ! -e "$work/out" ]
row 'begin on a lane with jobs' '1 1 record: rope 1 length 20\n2 1 play: job 1\n3 1 play: job 2\n4 1 begin: no lane-busy 2\n5 1 stop: number 2\n6 1 begin: no lane-busy 2\n7 1 feed: stopped 1 0\n8 1 begin: no lane-busy 1\n9 1 feed: stopped 2 0\n10 1 begin: done\n' '1 a = record f20\n1 queue 0 a 0 20\n1 queue 0 a 5 5\n1 begin 0\n1 stop 0\n1 begin 0\n1 serve 0 out\n1 begin 0\n1 serve 0 out\n1 begin 0\n'
row 'add and end on a lane without a recording' '1 1 add: no no-recording\n2 1 end: no no-recording\n3 1 length: no unknown-rope 0\n4 1 add: no unknown-lane 4\n5 1 end: no unknown-lane 4\n6 1 begin: done\n7 1 add: no no-recording\n8 1 end: rope 1 length 0\n9 1 end: no no-recording\n10 1 add: no no-recording\n11 1 length: number 0\n' '1 add 0 f20\n1 a = end 0\n1 length a\n1 add 4 f20\n1 end 4\n1 begin 0\n1 add 1 f20\n1 a = end 0\n1 a = end 0\n1 add 0 f20\n1 length a\n'
bad='voice: line 1 of the script is refused: '
printf '1 begin 16\n' >"$work/s.vs"
check 'lane 16' 3 '' "${bad}wrong words behind the verb
" run s.vs
printf '1 add 0\n' >"$work/s.vs"
check 'an add without a file' 3 '' "${bad}wrong words behind the verb
" run s.vs
printf '1 a = add 0 f20\n' >"$work/s.vs"
check 'a bind of an add' 3 '' "${bad}what is bound is no variable, or the verb binds nothing
" run s.vs
printf '1 begin 0\n1 add 0 gone\n' >"$work/s.vs"
check 'an add of a file that is missing' 4 '' 'voice: no file gone
' run s.vs

# A full journal refuses the end, and the recording stays open.
small
awk 'BEGIN { for (i = 0; i < 18; i++) print "1 record z0"; print "1 begin 0\n1 add 0 f20\n1 end 0\n1 add 0 g20\n1 end 0\n1 begin 0\n1 advance 60\n1 sweep 99\n1 a = end 0\n1 play 0 a 0 40 out" }' >"$work/full.vs"
(cd "$work" && "$top/voice" run full.vs) | tail -n +19 >"$work/.text"
printf '19 1 begin: done\n20 1 add: number 20\n21 1 end: no journal-full 555 495\n22 1 add: number 40\n23 1 end: no journal-full 571 495\n24 1 begin: no lane-recording\n25 1 advance: done\n26 1 sweep: swept 0 rows 18 ropes 1 2 3 4 5 6 7 8 9 10 11 12 13 14 15 16 17 18\n27 1 end: rope 19 length 40\n28 1 play: job 1\n29 1 feed: window 0 32\n30 1 feed: window 32 8\n31 1 feed: ended 1 40\n' >"$work/.want"
expect 'an end that the journal has no room for' cmp -s "$work/.text" "$work/.want"
expect 'ends later' cmp -s "$work/out" "$work/f20g20"

# The journal switches while a recording is open: a hundred advances take 1,400 bytes, and an area has 495.
small
awk 'BEGIN { print "1 begin 2\n1 add 2 f20"; for (i = 1; i <= 100; i++) print "1 advance " i; print "1 add 2 g20\n1 end 2\n1 play 0 1 0 40 out" }' >"$work/switch.vs"
(cd "$work" && "$top/voice" run switch.vs) | tail -n +103 >"$work/.text"
printf '103 1 add: number 40\n104 1 end: rope 1 length 40\n105 1 play: job 1\n106 1 feed: window 0 32\n107 1 feed: window 32 8\n108 1 feed: ended 1 40\n' >"$work/.want"
expect 'a recording that is open while the journal switches' cmp -s "$work/.text" "$work/.want"
expect 'is heard whole' cmp -s "$work/out" "$work/f20g20"

# A recording that is open as the program ends is lost, and its blocks are free in the next run.
row 'an open recording over the whole disk' '1 1 begin: done\n2 1 add: number 128\n3 1 record: no no-room 1 0\n' '1 begin 0\n1 add 0 y128\n1 record z1\n'
audits 'holds no block afterwards' 'blocks used 0 shared 0 free 16'
run_script 'and is gone in the next run' '1 1 end: no no-recording\n2 1 add: no no-recording\n3 1 record: rope 1 length 128\n' '1 end 0\n1 add 0 f20\n1 record z128\n'

# What an add writes: the blocks that become whole, in the lowest free places, and nothing where none does.
row 'an add that makes no block whole' '1 1 begin: done\n2 1 add: number 7\n' '1 begin 0\n1 add 0 d7\n'
head -c 128 /dev/zero >"$work/nothing"
stand 'writes nothing' nothing
row 'adds that do' '1 1 begin: done\n2 1 add: number 7\n3 1 add: number 8\n4 1 add: number 28\n' '1 begin 0\n1 add 0 d7\n1 add 0 z1\n1 add 0 f20\n'
printf '1234567\200ABCDEFGHIJKLMNOP' >"$work/whole"
stand 'write those' whole

# Old voice does not stay behind the last sample: all blocks held other voice before, and 27 samples take three of them and three samples of a fourth.
row 'a recording over old voice' '1 1 record: rope 1 length 128\n2 1 advance: done\n3 1 sweep: swept 0 rows 1 ropes 1\n4 1 begin: done\n5 1 add: number 20\n6 1 add: number 27\n7 1 end: rope 2 length 27\n8 1 begin: done\n9 1 add: number 11\n' '1 record y128\n1 advance 60\n1 sweep 9\n1 begin 0\n1 add 0 f20\n1 add 0 d7\n1 end 0\n1 begin 1\n1 add 1 d11\n'
(printf 'ABCDEFGHIJKLMNOPQRST1234567\0\0\0\0\00012345678' && bytes 88 21) >"$work/over"
stand 'zeros stand behind its last sample, and old voice where nothing was written' over
head -c 27 "$work/over" >"$work/f20d7"
python3 "$tests/read_disk.py" "$work/voice.disk" 2 "$work/read"
expect 'its samples are read off the disk' cmp -s "$work/read" "$work/f20d7"
expect 'and it alone has blocks' [ "$(python3 "$tests/read_disk.py" "$work/voice.disk" | tail -n 2)" = 'rope 2 length 27 pieces 1 idle 60 last -
used 4 free 12' ]

# Faults, where the system refuses each write behind so many blocks of 512 bytes of the file. A disk of the default size has its blocks behind 2 MiB.
# limited NAME BLOCKS WANTED SCRIPT: what the script prints then, over the disk as it stands.
limited() {
    printf "$4" >"$work/s.vs"
    (cd "$work" && trap '' XFSZ && ulimit -f "$2" && exec "$top/voice" run s.vs) >"$work/.text" 2>"$work/.err" || true
    printf "$3" >"$work/.want"
    expect "$1" cmp -s "$work/.text" "$work/.want"
}
head -c 1048576 /dev/zero >"$work/long"
head -c 1228800 /dev/zero >"$work/longer"
rm -f "$work/voice.disk"
(cd "$work" && "$top/voice" format --blocks 300)
limited 'an add that fails leaves the recording as it was, and takes no room' 6144 '1 1 begin: done\n2 1 add: number 20\n3 1 add: no disk-fault\n4 1 record: no no-room 300 299\n5 1 add: number 40\n6 1 end: rope 1 length 40\n7 1 play: job 1\n8 1 feed: window 0 40\n9 1 feed: ended 1 40\n' '1 begin 0\n1 add 0 f20\n1 add 0 long\n1 record longer\n1 add 0 g20\n1 end 0\n1 play 0 1 0 40 out\n'
expect 'and what was added to it is heard' cmp -s "$work/out" "$work/f20g20"
limited 'an end whose last block fails leaves the recording open' 1 '1 1 begin: done\n2 1 add: number 20\n3 1 end: no disk-fault\n4 1 begin: no lane-recording\n5 1 add: number 40\n6 1 end: no disk-fault\n7 1 begin: done\n8 1 end: rope 2 length 0\n' '1 begin 0\n1 add 0 f20\n1 end 0\n1 begin 0\n1 add 0 g20\n1 end 0\n1 begin 1\n1 end 1\n'

# Callers on threads, each with a lane of its own: what they print differs by the ropes' numbers alone.
small
printf '1 begin 0\n1 add 0 f20\n1 add 0 d7\n1 a = end 0\n1 retain held k1 a -\n2 begin 1\n2 add 1 g20\n2 add 1 d7\n2 a = end 1\n2 retain held k2 a -\n3 begin 2\n3 add 2 d7\n3 add 2 f20\n3 a = end 2\n3 retain held k3 a -\n' >"$work/s.vs"
(cd "$work" && "$top/voice" run s.vs --threads) | sed 's/^[0-9]* //; s/rope [1-3] /rope /' | sort >"$work/.text"
printf '1 add: number 20\n1 add: number 27\n1 begin: done\n1 end: rope length 27\n1 retain: done\n2 add: number 20\n2 add: number 27\n2 begin: done\n2 end: rope length 27\n2 retain: done\n3 add: number 27\n3 add: number 7\n3 begin: done\n3 end: rope length 27\n3 retain: done\n' >"$work/.want"
expect 'three callers on threads' cmp -s "$work/.text" "$work/.want"
printf '1 a = lookup held k1\n1 play 0 a 0 27 out1\n2 a = lookup held k2\n2 play 1 a 0 27 out2\n3 a = lookup held k3\n3 play 2 a 0 27 out3\n' >"$work/s.vs"
(cd "$work" && "$top/voice" run s.vs >/dev/null)
holds 'the first one is heard' out1 'ABCDEFGHIJKLMNOPQRST1234567'
holds 'the second' out2 'abcdefghijklmnopqrst1234567'
holds 'the third' out3 '1234567ABCDEFGHIJKLMNOPQRST'

finish
