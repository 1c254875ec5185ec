#!/bin/sh
# Two machines: what the runs of the first one write as packets, the mirror of the second one takes, also lost, repeated and out of order; it is promoted, and goes on. It needs python3.
set -eu
. "$(dirname "$0")/lib.sh"
first=$work/first
second=$work/second
third=$work/third
mkdir "$first" "$second" "$third"

# on FOLDER WORD..: the program in that folder, over the disk that stands there.
on() {
    folder=$1
    shift
    status=0
    (cd "$folder" && exec "$top/voice" "$@") >"$work/.out" 2>"$work/.err" || status=$?
}

# ends NAME STATUS STDOUT STDERR: its last run ended so.
ends() {
    printf '%s' "$3" >"$work/.want_out"
    printf '%s' "$4" >"$work/.want_err"
    expect "$1" sh -c "[ '$status' = '$2' ] && cmp '$work/.out' '$work/.want_out' && cmp '$work/.err' '$work/.want_err'"
}

# disk FOLDER BYTES WORD..: a disk of so many bytes there, formatted with these options.
disk() {
    rm -f "$1/voice.disk"
    head -c "$2" /dev/zero >"$1/voice.disk"
    (cd "$1" && shift 2 && exec "$top/voice" format "$@")
}

# choose FILE K ..: the K-th packets of FILE, counted from 1, in that order.
choose() {
    python3 - "$@" <<'END'
import sys

data = open(sys.argv[1], "rb").read()
packets = []
while data:
    size = 12 + int.from_bytes(data[8:12], "big")
    packets.append(data[:size])
    data = data[size:]
sys.stdout.buffer.write(b"".join(packets[int(k) - 1] for k in sys.argv[2:]))
END
}

# told FOLDER: the ropes and rows that an audit tells there, the moment and the next number.
told() { (cd "$1" && "$top/voice" audit) | grep -E '^(now|rope|row) '; }

# heard FOLDER: the samples of its ropes 2 and 4.
heard() {
    printf '1 play 0 2 0 10 two.ul\n1 play 0 4 0 15 four.ul\n' >"$1/hear.vs"
    (cd "$1" && "$top/voice" run hear.vs >/dev/null && cat two.ul four.ul)
}

# The first machine: two runs. The mirror has other blocks and another area.
cp "$top/examples/hello.ul" "$first"
printf '1 a = record hello.ul\n1 b = sub a 5 10\n1 retain held k b 6869\n1 c = replace a 0 15 b\n' >"$first/one.vs"
printf '1 retain until m 3 0000000000000064\n1 d = concat 2 3\n1 sub d 0 15\n1 forget held k\n1 advance 50\n' >"$first/two.vs"
disk "$first" 4096 --block 8 --blocks 32 --area 1024
disk "$second" 8192 --block 64 --blocks 20 --area 2048
on "$first" packets one.vs one.pk 1
ends 'a run with packets' 0 '1 1 record: rope 1 length 20
2 1 sub: rope 2 length 10
3 1 retain: done
4 1 replace: rope 3 length 15
next 5
' ''
on "$first" packets two.vs two.pk 5
ends 'and the next one' 0 '1 1 retain: done
2 1 concat: rope 4 length 25
3 1 sub: rope 5 length 15
4 1 forget: done
5 1 advance: done
next 10
' ''
cp "$first"/*.pk "$second"
cp "$first"/*.pk "$third"
all=$second/all.pk
cat "$first/one.pk" "$first/two.pk" >"$all"

# What is refused before the disk is touched.
cp "$second/voice.disk" "$work/.kept"
on "$second" mirror gone.pk
ends 'no such file' 4 '' 'voice: no file gone.pk
'
printf 'no packets' >"$second/bad.pk"
on "$second" mirror bad.pk
ends 'no packets' 14 '' 'voice: the packets are damaged at byte 0
'
choose "$all" 1 >"$second/cut.pk"
size=$(wc -c <"$second/cut.pk")
head -c 5 "$all" >>"$second/cut.pk"
on "$second" mirror cut.pk
ends 'a packet, and a part of one' 14 '' "voice: the packets are damaged at byte $((size))
"
expect 'and the disk is as it was' cmp "$work/.kept" "$second/voice.disk"
: >"$second/none.pk"
on "$second" mirror none.pk
ends 'no packet' 0 'position 0
' ''

# Out of order, lost, repeated.
choose "$all" 3 1 1 4 2 >"$second/mixed.pk"
on "$second" mirror mixed.pk
ends 'packets in disorder' 0 'packet 3 early 0
packet 1 taken
packet 1 again
packet 4 early 1
packet 2 taken
position 2
' ''
on "$second" mirror two.pk
ends 'of a later file' 0 'packet 5 early 2
packet 6 early 2
packet 7 early 2
packet 8 early 2
packet 9 early 2
position 2
' ''
on "$second" mirror one.pk
ends 'the file that was missing' 0 'packet 1 again
packet 2 again
packet 3 taken
packet 4 taken
position 4
' ''
on "$second" run hear.vs
ends 'no file for a run' 4 '' 'voice: no file hear.vs
'
printf '1 length 1\n' >"$second/look.vs"
on "$second" run look.vs
ends 'no run over the disk of a mirror' 7 '' 'voice: the disk is damaged at byte 80
'
on "$second" audit
ends 'and no audit' 7 '' 'voice: the disk is damaged at byte 80
'
choose "$all" 9 8 7 6 5 9 8 7 6 >"$second/mixed.pk"
on "$second" mirror mixed.pk
ends 'from behind' 0 'packet 9 early 4
packet 8 early 4
packet 7 early 4
packet 6 early 4
packet 5 taken
packet 9 early 5
packet 8 early 5
packet 7 early 5
packet 6 taken
position 6
' ''

on "$second" mirror all.pk
expect 'all are taken then' sh -c "[ '$status' = 0 ] && [ \"\$(tail -n 1 '$work/.out')\" = 'position 9' ] && ! grep -qv -e taken -e again -e position '$work/.out'"

# The mirror is promoted.
on "$second" promote
ends 'a promotion' 0 '' ''
told "$first" >"$work/.first"
told "$second" >"$work/.second"
expect 'has the ropes, the rows, the moment and the next number' cmp "$work/.first" "$work/.second"
heard "$first" >"$work/.first"
heard "$second" >"$work/.second"
expect 'and the samples' cmp "$work/.first" "$work/.second"
expect 'which are those of the recording' [ "$(wc -c <"$work/.first")" = 25 ]
cp "$second/voice.disk" "$work/.kept"
# The first gate of the second area, which a promotion switched to.
place=$((64 + 2048 + 16))
on "$second" mirror all.pk
ends 'a voice disk takes no packets' 7 '' "voice: the disk is damaged at byte $place
"
on "$second" promote
ends 'and is not promoted' 7 '' "voice: the disk is damaged at byte $place
"
expect 'and is as it was' cmp "$work/.kept" "$second/voice.disk"

# It goes on, and a third machine follows.
cp "$top/examples/hello.ul" "$second"
printf '2 e = record hello.ul\n2 retain held e e -\n' >"$second/three.vs"
on "$second" packets three.vs three.pk 10
ends 'the promoted disk goes on' 0 '1 2 record: rope 6 length 20
2 2 retain: done
next 12
' ''
cp "$second/three.pk" "$third"
disk "$third" 4096 --block 8 --blocks 32 --area 1024
for file in one two three; do
    on "$third" mirror "$file.pk"
done
expect 'a third machine follows' [ "$(tail -n 1 "$work/.out")" = 'position 11' ]
on "$third" promote
ends 'and is promoted' 0 '' ''
told "$second" >"$work/.second"
told "$third" >"$work/.third"
expect 'with what the second one has' cmp "$work/.second" "$work/.third"

# Killed at twenty moments while it takes four hundred packets, which switch over and over: each leaves a mirror with what it had, or with more.
fourth=$work/fourth
fifth=$work/fifth
mkdir "$fourth" "$fifth"
disk "$fourth" 65536 --block 8 --blocks 8 --area 16384
disk "$fifth" 4096 --block 8 --blocks 8 --area 1024
seq 1 400 | sed 's/.*/1 advance &/' >"$fourth/many.vs"
on "$fourth" packets many.vs many.pk 1
expect 'four hundred packets' [ "$(tail -n 1 "$work/.out")" = 'next 401' ]
cp "$fourth/many.pk" "$fifth"
: >"$fifth/none.pk"
whole=yes
last=0
for k in $(seq 1 20); do
    (cd "$fifth" && exec "$top/voice" mirror many.pk) >/dev/null 2>&1 &
    pid=$!
    sleep "0.0$((10 + k * 4))"
    kill -9 "$pid" 2>/dev/null || true
    wait "$pid" 2>/dev/null || true
    on "$fifth" mirror none.pk
    now=$(sed -n 's/^position //p' "$work/.out")
    [ "$status" = 0 ] && [ "${now:-0}" -ge "$last" ] || whole="kill $k: status $status, position $now after $last"
    last=${now:-$last}
done
expect "twenty kills ($whole)" [ "$whole" = yes ]
on "$fifth" mirror many.pk
expect 'all are taken then' [ "$status $(tail -n 1 "$work/.out")" = '0 position 400' ]
on "$fifth" promote
told "$fourth" >"$work/.fourth"
told "$fifth" >"$work/.fifth"
expect 'and the moment is the last one' cmp "$work/.fourth" "$work/.fifth"

# A disk too small, a packet that can't follow, a folder in place of the disk, and words in no form.
disk "$third" 1104 --block 8 --blocks 2 --area 512
on "$third" mirror one.pk
ends 'without room' 0 'packet 1 no-room 3 2
packet 2 early 0
packet 3 early 0
packet 4 early 0
position 0
' ''
python3 -c 'import sys; b = open(sys.argv[1], "rb").read(); open(sys.argv[2], "wb").write((1).to_bytes(8, "big") + b[8:])' "$first/two.pk" "$third/other.pk"
on "$third" mirror other.pk
expect 'an interest of a rope that is not there' [ "$(head -n 1 "$work/.out")" = 'packet 1 strange' ]
on "$third" promote
ends 'a disk just formatted is promoted' 0 '' ''
rm -f "$third/voice.disk" && mkdir "$third/voice.disk"
on "$third" promote
ends 'a folder in place of the disk' 8 '' 'voice: the disk failed
'
rmdir "$third/voice.disk"
on "$third" mirror
ends 'a mirror of no file' 2 '' 'voice: usage: voice format|run|make
'
on "$third" promote now
ends 'a promotion with a word' 2 '' 'voice: usage: voice format|run|make
'
expect 'which make no disk' [ ! -e "$third/voice.disk" ]
finish
