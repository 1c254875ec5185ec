#!/bin/sh
# What the disk file keeps: over runs, over formats, and where the program is killed at any time.
set -eu
. "$(dirname "$0")/lib.sh"

cp "$top/examples/hello.ul" "$work/hello.ul"
: >"$work/empty.ul"
printf '1 a = record hello.ul\n1 length a\n' >"$work/first.vs"
printf '1 length 1\n1 record hello.ul\n' >"$work/later.vs"
printf '1 a = record hello.ul\n1 sub a 12 8\n1 sub a 13 8\n1 e = sub a 20 0\n1 c = replace a 5 10 e\n1 concat a c a\n1 length x\n' >"$work/edits.vs"

# again NAME STATUS STDOUT STDERR WORD..: as check, but over the disk file that is there.
again() {
    name=$1 want_status=$2 want_out=$3 want_err=$4
    shift 4
    status=0
    (cd "$work" && "$top/voice" "$@") >"$work/.out" 2>"$work/.err" || status=$?
    printf '%s' "$want_out" >"$work/.want_out"
    printf '%s' "$want_err" >"$work/.want_err"
    expect "$name" sh -c "[ '$status' = '$want_status' ] && cmp -s '$work/.out' '$work/.want_out' && cmp -s '$work/.err' '$work/.want_err'"
}

check 'a disk file is made and formatted' 0 '1 1 record: rope 1 length 20
2 1 length: number 20
' '' run first.vs
expect 'its size' [ "$(wc -c <"$work/voice.disk")" = 67108864 ]
again 'the recording is there in the next run' 0 '1 1 length: number 20
2 1 record: rope 2 length 20
' '' run later.vs
again 'a disk file that is there is formatted by the word' 0 '' '' format
again 'and is empty then' 0 '1 1 length: no unknown-rope 1
2 1 record: rope 1 length 20
' '' run later.vs
check 'edits' 0 '1 1 record: rope 1 length 20
2 1 sub: rope 2 length 8
3 1 sub: no bad-interval 20
4 1 sub: rope 3 length 0
5 1 replace: rope 4 length 10
6 1 concat: rope 5 length 50
7 1 length: no unknown-rope 0
' '' run edits.vs

head -c 262145 /dev/zero >"$work/long.ul"
head -c 8 /dev/zero >"$work/eight.ul"
sixteen() { awk -v v="$1" 'BEGIN { for (i = 0; i < 16; i++) printf " %s", v }'; }
limits() { printf '1 a = record %s\n1 b = concat%s\n1 c = concat%s\n1 d = concat%s\n1 concat d d\n' "$1" "$(sixteen a)" "$(sixteen b)" "$(sixteen c)"; }
limits long.ul >"$work/long_rope.vs"
limits eight.ul >"$work/many_pieces.vs"
check 'a rope that would be too long' 0 '1 1 record: rope 1 length 262145
2 1 concat: rope 2 length 4194320
3 1 concat: rope 3 length 67109120
4 1 concat: no too-long 1073745920
5 1 concat: no unknown-rope 0
' '' run long_rope.vs
check 'a rope that would have too many pieces' 0 '1 1 record: rope 1 length 8
2 1 concat: rope 2 length 128
3 1 concat: rope 3 length 2048
4 1 concat: rope 4 length 32768
5 1 concat: no too-many-pieces 8192
' '' run many_pieces.vs

check 'a block of 12 samples' 2 '' 'voice: the shape does not fit the disk
' format --block 12
check 'too many blocks' 2 '' 'voice: the shape does not fit the disk
' format --blocks 1000000
check 'an option twice' 2 '' 'voice: usage: voice format|run|make
' format --block 8 --block 8
check 'an option without its number' 2 '' 'voice: usage: voice format|run|make
' format --block
check 'a class twice' 2 '' 'voice: usage: voice format|run|make
' format --held 8 --grace 5 --held 8
check 'a grace for each class' 0 '' '' format --held 60 --grace 5 --listed 0
graces=$(od -An -v -tx1 -j24 -N18 "$work/voice.disk" | tr -d ' \n')
expect 'the graces of the disk: the common one, 8 lanes, held, until, listed' [ "$graces" = 0000000500080000003c0000000500000000 ]
check 'small blocks' 0 '' '' format --block 8 --blocks 16 --area 512 --grace 60 --lanes 4
awk 'BEGIN { for (i = 0; i < 40; i++) print "1 record empty.ul" }' >"$work/forty.vs"
expect 'a small journal gets full' sh -c "cd '$work' && [ \"\$('$top/voice' run forty.vs | tail -n 1)\" = '40 1 record: no journal-full 497 495' ]"

head -c 4096 /dev/zero >"$work/voice.disk"
again 'a disk of zeros' 7 '' 'voice: the disk is damaged at byte 0
' run first.vs
head -c 63 /dev/zero >"$work/voice.disk"
again 'a short disk' 7 '' 'voice: the disk is damaged at byte 0
' run first.vs
rm -f "$work/voice.disk" && mkdir "$work/voice.disk"
again 'a folder in place of the disk' 8 '' 'voice: the disk failed
' run first.vs
rm -rf "$work/voice.disk"

# Killed at thirty moments: each time the disk opens, all ropes below the next number are there, and the number never falls.
awk 'BEGIN { print "1 a = record hello.ul"; for (i = 0; i < 299; i++) print "1 sub a " i % 10 " 10" }' >"$work/three_hundred.vs"
printf '1 record empty.ul\n' >"$work/next.vs"
last=0
whole=yes
for k in $(seq 1 30); do
    (cd "$work" && exec "$top/voice" run three_hundred.vs) >"$work/.out" 2>"$work/.err" &
    pid=$!
    sleep "0.0$(awk -v k="$k" 'BEGIN { srand(k); printf "%02d", rand() * 99 }')"
    kill -9 "$pid" 2>/dev/null || true
    wait "$pid" 2>/dev/null || true
    text=$(cd "$work" && "$top/voice" run next.vs) || whole="run $k ended badly"
    next=${text#*rope }
    next=${next%% *}
    [ "$next" -gt "$last" ] || whole="run $k: rope $next after $last"
    last=$next
done
expect "thirty kills ($whole)" [ "$whole" = yes ]
awk -v n="$last" 'BEGIN { for (i = 1; i <= n; i++) print "1 length " i }' >"$work/all.vs"
expect 'all ropes are there' sh -c "cd '$work' && [ \"\$('$top/voice' run all.vs | grep -c 'number')\" = '$last' ]"
finish
