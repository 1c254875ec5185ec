#!/bin/sh
# Jobs of play that wait on lanes, and their stops, by the built program over a small disk file.
set -eu
. "$(dirname "$0")/lib.sh"

printf 'ABCDEFGHIJKLMNOPQRST' >"$work/f20"
for n in 1 8 16 120 128; do
    head -c "$n" /dev/zero | tr '\0' '\200' >"$work/z$n"
done

# small: the disk is formatted small.
small() {
    rm -f "$work/voice.disk"
    (cd "$work" && "$top/voice" format --block 8 --blocks 16 --area 512 --lanes 4 --grace 60)
}

# run_script NAME WANTED SCRIPT WORD..: what the script prints over the disk as it stands.
run_script() {
    name=$1 wanted=$2
    printf "$3" >"$work/s.vs"
    shift 3
    (cd "$work" && "$top/voice" run s.vs "$@") >"$work/.out" 2>"$work/.err" || true
    printf "$wanted" >"$work/.want"
    expect "$name" cmp -s "$work/.out" "$work/.want"
}

# row NAME WANTED SCRIPT WORD..: the same over a small disk that is new.
row() {
    small
    run_script "$@"
}

nine='1 queue 0 a 0 20\n1 queue 0 a 0 20\n1 queue 0 a 0 20\n1 queue 0 a 0 20\n1 queue 0 a 0 20\n1 queue 0 a 0 20\n1 queue 0 a 0 20\n1 queue 0 a 0 20\n1 queue 0 a 0 20\n'
jobs='2 1 play: job 1\n3 1 play: job 2\n4 1 play: job 3\n5 1 play: job 4\n6 1 play: job 5\n7 1 play: job 6\n8 1 play: job 7\n9 1 play: job 8\n10 1 play: no queue-full\n'
row 'nine jobs, a stop, another, an unknown lane' "1 1 record: rope 1 length 20\n${jobs}11 1 stop: number 8\n12 1 stop: number 0\n13 1 play: job 9\n14 1 play: no unknown-lane 4\n15 1 stop: no unknown-lane 4\n" "1 a = record f20\n${nine}1 stop 0\n1 stop 0\n1 queue 3 a 0 20\n1 queue 4 a 0 20\n1 stop 4\n"
row 'a stopped job keeps its place' "1 1 record: rope 1 length 20\n${jobs}11 1 stop: number 8\n12 1 play: no queue-full\n" "1 a = record f20\n${nine}1 stop 0\n1 queue 0 a 0 1\n"
row 'refusals in their order' '1 1 record: rope 1 length 20\n2 1 play: no unknown-lane 4\n3 1 play: no unknown-rope 9\n4 1 play: no bad-interval 20\n5 1 play: no bad-interval 20\n6 1 play: job 1\n7 1 play: job 2\n' '1 a = record f20\n1 queue 4 9 0 1\n1 queue 0 9 21 1\n1 queue 0 a 0 21\n1 queue 0 a 21 0\n1 queue 0 a 20 0\n1 queue 0 a 0 20\n'
row 'a job of no sample, of a rope without samples' '1 1 record: rope 1 length 20\n2 1 sub: rope 2 length 0\n3 1 play: job 1\n4 1 play: job 2\n5 1 stop: number 2\n' '1 a = record f20\n1 e = sub a 0 0\n1 queue 0 e 0 0\n1 queue 0 a 5 0\n1 stop 0\n'

# A passage holds its blocks while its rope is swept, and no longer.
row 'a passage holds one block until the stop' '1 1 record: rope 1 length 128\n2 1 play: job 1\n3 1 advance: done\n4 1 sweep: swept 0 rows 1 ropes 1\n5 1 record: no no-room 16 15\n6 1 record: rope 2 length 120\n7 1 record: no no-room 1 0\n8 1 stop: number 1\n9 1 record: rope 3 length 8\n10 1 record: no no-room 1 0\n' '1 a = record z128\n1 queue 0 a 3 5\n1 advance 60\n1 sweep 1\n1 record z128\n1 record z120\n1 record z1\n1 stop 0\n1 record z8\n1 record z1\n'
row 'a passage over the end of a block holds two' '1 1 record: rope 1 length 128\n2 1 play: job 1\n3 1 advance: done\n4 1 sweep: swept 0 rows 1 ropes 1\n5 1 record: no no-room 15 14\n' '1 a = record z128\n1 queue 0 a 7 2\n1 advance 60\n1 sweep 1\n1 record z120\n'
row 'two lanes hold one block' '1 1 record: rope 1 length 128\n2 1 play: job 1\n3 1 play: job 2\n4 1 advance: done\n5 1 sweep: swept 0 rows 1 ropes 1\n6 1 stop: number 1\n7 1 record: no no-room 16 15\n8 1 stop: number 1\n9 1 record: rope 2 length 128\n' '1 a = record z128\n1 queue 0 a 0 8\n1 queue 1 a 2 3\n1 advance 60\n1 sweep 1\n1 stop 0\n1 record z128\n1 stop 1\n1 record z128\n'
row 'a live rope keeps what a stop lets go' '1 1 record: rope 1 length 128\n2 1 play: job 1\n3 1 stop: number 1\n4 1 record: no no-room 1 0\n5 1 length: number 128\n' '1 a = record z128\n1 queue 0 a 0 128\n1 stop 0\n1 record z1\n1 length a\n'
row 'a rope that an edit shares with a passage' '1 1 record: rope 1 length 16\n2 1 sub: rope 2 length 8\n3 1 retain: done\n4 1 play: job 1\n5 1 advance: done\n6 1 sweep: swept 0 rows 1 ropes 1\n7 1 record: no no-room 15 14\n8 1 stop: number 1\n9 1 record: rope 3 length 120\n' '1 a = record z16\n1 b = sub a 0 8\n1 retain held k b -\n1 queue 2 a 0 16\n1 advance 60\n1 sweep 9\n1 record z120\n1 stop 2\n1 record z120\n'

# Jobs end with the program.
row 'jobs of one run' '1 1 record: rope 1 length 128\n2 1 play: job 1\n3 1 advance: done\n4 1 sweep: swept 0 rows 1 ropes 1\n5 1 record: no no-room 16 15\n' '1 a = record z128\n1 queue 0 a 0 8\n1 advance 60\n1 sweep 1\n1 record z128\n'
run_script 'they are gone in the next' '1 1 record: rope 2 length 128\n2 1 play: job 1\n3 1 stop: number 1\n' '1 a = record z128\n1 queue 0 a 0 128\n1 stop 0\n'

# Callers on threads: each has a lane of its own, so what they print differs by the jobs' numbers alone.
small
printf '1 a = record f20\n1 retain held k a -\n' >"$work/s.vs"
(cd "$work" && "$top/voice" run s.vs >/dev/null)
printf '1 a = lookup held k\n1 queue 0 a 0 20\n1 queue 0 a 0 20\n1 stop 0\n2 b = lookup held k\n2 queue 1 b 0 20\n2 stop 1\n3 c = lookup held k\n3 queue 2 c 5 20\n3 stop 2\n' >"$work/s.vs"
(cd "$work" && "$top/voice" run s.vs --threads) | sed 's/^[0-9]* //; s/job [1-3]$/job/' | sort >"$work/.out"
printf '1 lookup: found 1 -\n1 play: job\n1 play: job\n1 stop: number 2\n2 lookup: found 1 -\n2 play: job\n2 stop: number 1\n3 lookup: found 1 -\n3 play: no bad-interval 20\n3 stop: number 0\n' >"$work/.want"
expect 'three callers on threads' cmp -s "$work/.out" "$work/.want"

finish
