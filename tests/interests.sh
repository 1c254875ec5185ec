#!/bin/sh
# Interests, moments and sweeps, by the built program over a small disk file.
set -eu
. "$(dirname "$0")/lib.sh"

printf 'ABCDEFGHIJKLMNOPQRST' >"$work/f20"
: >"$work/z0"
for n in 1 16 112 128; do
    head -c "$n" /dev/zero | tr '\0' '\200' >"$work/z$n"
done

# small WORD..: the disk is formatted small; the words are further options.
small() {
    rm -f "$work/voice.disk"
    (cd "$work" && "$top/voice" format --block 8 --blocks 16 --area 512 --lanes 4 "$@")
}

# run_script NAME WANTED SCRIPT: what the script prints over the disk as it stands.
run_script() {
    printf "$3" >"$work/s.vs"
    (cd "$work" && "$top/voice" run s.vs) >"$work/.out" 2>"$work/.err" || true
    printf "$2" >"$work/.want"
    expect "$1" cmp -s "$work/.out" "$work/.want"
}

# row NAME WANTED SCRIPT: the same over a small disk that is new.
row() {
    small --grace 60
    run_script "$1" "$2" "$3"
}

row 'a row is kept, found, taken and forgotten; a moment of 2^40 + 1' '1 1 record: rope 1 length 20\n2 1 retain: done\n3 2 lookup: found 1 00\n4 2 length: number 20\n5 2 retain: no key-taken 1\n6 1 forget: done\n7 1 forget: no no-interest\n8 1 retain: no bad-data\n' '1 a = record f20\n1 retain held k a 00\n2 b = lookup held k\n2 length b\n2 retain held k b -\n1 forget held k\n1 forget held k\n1 retain until v a 0000010000000001\n'
row 'a census' '1 1 record: rope 1 length 20\n2 1 retain: done\n3 1 retain: done\n4 1 census: number 1\n5 1 lookup: no no-interest\n6 1 lookup: found 1 -\n7 1 lookup: no no-interest\n8 1 census: number 1\n9 1 census: number 0\n' '1 a = record f20\n1 retain listed m a -\n1 retain listed n a -\n1 census n\n1 lookup listed m\n1 lookup listed n\n1 lookup held n\n1 census\n1 census\n'
row 'advances that write nothing' '1 1 advance: done\n2 1 advance: done\n3 1 advance: done\n' '1 advance 5\n1 advance 5\n1 advance 4\n'
row 'a sweep makes room' '1 1 record: rope 1 length 128\n2 1 record: no no-room 1 0\n3 1 advance: done\n4 1 sweep: swept 0 rows 1 ropes 1\n5 1 record: rope 2 length 1\n' '1 a = record z128\n1 record z1\n1 advance 60\n1 sweep 1\n1 record z1\n'
row 'a second early and in time' '1 1 record: rope 1 length 20\n2 1 advance: done\n3 1 sweep: swept 0 rows 0 ropes\n4 1 advance: done\n5 1 sweep: swept 0 rows 1 ropes 1\n' '1 a = record f20\n1 advance 59\n1 sweep 9\n1 advance 60\n1 sweep 9\n'
row 'a row that keeps' '1 1 record: rope 1 length 20\n2 1 advance: done\n3 1 sweep: swept 0 rows 0 ropes\n4 1 retain: done\n5 1 advance: done\n6 1 sweep: swept 0 rows 0 ropes\n' '1 a = record f20\n1 advance 59\n1 sweep 9\n1 retain held k a -\n1 advance 60\n1 sweep 9\n'
row 'a row until 30' '1 1 record: rope 1 length 20\n2 1 retain: done\n3 1 advance: done\n4 1 sweep: swept 0 rows 0 ropes\n5 1 advance: done\n6 1 sweep: swept 1 rows 0 ropes\n7 1 advance: done\n8 1 sweep: swept 0 rows 0 ropes\n9 1 advance: done\n10 1 sweep: swept 0 rows 1 ropes 1\n' '1 a = record f20\n1 retain until u a 000000000000001e\n1 advance 29\n1 sweep 9\n1 advance 30\n1 sweep 9\n1 advance 89\n1 sweep 9\n1 advance 90\n1 sweep 9\n'
row 'a limit of two' '1 1 record: rope 1 length 20\n2 1 record: rope 2 length 20\n3 1 record: rope 3 length 20\n4 1 advance: done\n5 1 sweep: swept 0 rows 2 ropes 1 2\n6 1 sweep: swept 0 rows 1 ropes 3\n7 1 sweep: swept 0 rows 0 ropes\n' '1 record f20\n1 record f20\n1 record f20\n1 advance 60\n1 sweep 2\n1 sweep 2\n1 sweep 2\n'
row 'nine samples shared' '1 1 record: rope 1 length 16\n2 1 sub: rope 2 length 9\n3 1 retain: done\n4 1 advance: done\n5 1 sweep: swept 0 rows 1 ropes 1\n6 1 record: rope 3 length 112\n7 1 record: no no-room 1 0\n' '1 a = record z16\n1 b = sub a 0 9\n1 retain held k b -\n1 advance 60\n1 sweep 9\n1 record z112\n1 record z1\n'
row 'eight samples shared' '1 1 record: rope 1 length 16\n2 1 sub: rope 2 length 8\n3 1 retain: done\n4 1 advance: done\n5 1 sweep: swept 0 rows 1 ropes 1\n6 1 record: rope 3 length 112\n7 1 record: rope 4 length 1\n' '1 a = record z16\n1 b = sub a 0 8\n1 retain held k b -\n1 advance 60\n1 sweep 9\n1 record z112\n1 record z1\n'

# A rope waits the grace of the class of its last row, also over a new opening.
small --grace 60 --held 10 --until 0 --listed 100
printf '1 a = record f20\n1 retain held k a -\n1 forget held k\n' >"$work/s.vs"
(cd "$work" && "$top/voice" run s.vs >/dev/null)
run_script 'the grace of class held' '1 1 advance: done\n2 1 sweep: swept 0 rows 0 ropes\n3 1 advance: done\n4 1 sweep: swept 0 rows 1 ropes 1\n' '1 advance 9\n1 sweep 9\n1 advance 10\n1 sweep 9\n'
small --grace 60 --held 10 --until 0 --listed 100
printf '1 a = record f20\n1 retain until u a 0000000000000005\n' >"$work/s.vs"
(cd "$work" && "$top/voice" run s.vs >/dev/null)
run_script 'the grace of class until' '1 1 advance: done\n2 1 sweep: swept 0 rows 0 ropes\n3 1 advance: done\n4 1 sweep: swept 1 rows 1 ropes 1\n' '1 advance 4\n1 sweep 9\n1 advance 5\n1 sweep 9\n'
small --grace 60 --held 10 --until 0 --listed 100
printf '1 a = record f20\n1 retain listed m a -\n1 census\n' >"$work/s.vs"
(cd "$work" && "$top/voice" run s.vs >/dev/null)
run_script 'the grace of class listed' '1 1 advance: done\n2 1 sweep: swept 0 rows 0 ropes\n3 1 advance: done\n4 1 sweep: swept 0 rows 1 ropes 1\n' '1 advance 99\n1 sweep 9\n1 advance 100\n1 sweep 9\n'
small --grace 60 --held 10 --until 0 --listed 100
printf '1 a = record f20\n' >"$work/s.vs"
(cd "$work" && "$top/voice" run s.vs >/dev/null)
run_script 'the common grace' '1 1 advance: done\n2 1 sweep: swept 0 rows 0 ropes\n3 1 advance: done\n4 1 sweep: swept 0 rows 1 ropes 1\n' '1 advance 59\n1 sweep 9\n1 advance 60\n1 sweep 9\n'

# A thousand advances over a journal of 512 bytes, which switches over and over.
small --grace 60
awk 'BEGIN { for (i = 1; i <= 1000; i++) print "1 advance " i }' >"$work/thousand.vs"
expect 'a thousand advances' sh -c "cd '$work' && [ \"\$('$top/voice' run thousand.vs | grep -c ' 1 advance: done$')\" = 1000 ]"

# Six keys of 64 bytes: the sixth is refused until a forget has switched.
small --grace 60
tail=$(printf '%063d' 0 | tr 0 k)
{
    echo '1 record z0'
    for k in 1 2 3 4 5 6; do echo "1 retain held $k$tail 1 -"; done
    echo "1 forget held 1$tail"
    echo "1 retain held 6$tail 1 -"
} >"$work/keys.vs"
expect 'six keys of 64 bytes' sh -c "cd '$work' && [ \"\$('$top/voice' run keys.vs | tail -n 3 | tr '\\n' /)\" = '7 1 retain: no journal-full 533 495/8 1 forget: done/9 1 retain: done/' ]"

finish
