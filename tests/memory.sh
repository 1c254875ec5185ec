#!/bin/sh
# Want of memory, by the built program whose memory is limited: it ends with status 9, prints the first lines of its history or nothing, and its disk keeps what they tell.
set -eu
. "$(dirname "$0")/lib.sh"

cp "$top/examples/hello.ul" "$work/hello.ul"

# voice WORD..: the program in $work, over the disk that is there.
voice() { (cd "$work" && "$top/voice" "$@"); }

# A rope of 4,096 pieces, and 150 copies of it: each takes memory that stays.
{
    printf '1 a = record hello.ul\n1 x = sub a 0 5\n1 y = sub a 10 5\n1 b = concat x y\n'
    awk 'BEGIN { for (i = 0; i < 11; i++) print "1 b = concat b b"; for (i = 0; i < 150; i++) print "1 concat b" }'
} >"$work/ropes.vs"
voice format --blocks 64 --area 16777216
voice run ropes.vs >"$work/whole"
expect 'all lines where there is memory' [ "$(grep -c 'rope' "$work/whole")" = 165 ]

# With so little memory, and more and more: what is printed is a front of that, and the disk has those ropes, perhaps more where not all could be printed.
ended=0
fronts=0
finished=0
whole=yes
for limit in $(seq 6000 2000 60000); do
    voice format --blocks 64 --area 16777216
    status=0
    (ulimit -v "$limit" && cd "$work" && exec "$top/crates/voice/out/voice" run ropes.vs) >"$work/.out" 2>"$work/.err" || status=$?
    lines=$(wc -l <"$work/.out")
    head -n "$lines" "$work/whole" | cmp -s - "$work/.out" || whole="$limit KiB: other lines"
    case "$status" in
        0)
            finished=$((finished + 1))
            [ "$lines" = 165 ] || whole="$limit KiB: done with $lines lines"
            ;;
        9)
            ended=$((ended + 1))
            [ "$(cat "$work/.err")" = 'voice: no memory' ] || whole="$limit KiB: $(cat "$work/.err")"
            [ "$lines" = 0 ] || fronts=$((fronts + 1))
            voice audit >"$work/.audit" || whole="$limit KiB leaves damage"
            [ "$(grep -c '^rope' "$work/.audit")" -ge "$lines" ] || whole="$limit KiB: a rope that was told is not there"
            ;;
        *) whole="$limit KiB: status $status" ;;
    esac
done
expect "a front of the history, and a disk that has it ($whole)" [ "$whole" = yes ]
expect "runs end for want of memory ($ended), and others are done ($finished)" [ "$ended" -gt 0 -a "$finished" -gt 0 ]
expect "some of them print what was done ($fronts)" [ "$fronts" -gt 0 ]
finish
