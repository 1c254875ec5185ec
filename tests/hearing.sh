#!/bin/sh
# Where there is talk, and how loud it is, by the built program.
set -eu
. "$(dirname "$0")/lib.sh"

# part CODE COUNT: so many bytes of that octal code.
part() {
    head -c "$2" /dev/zero | tr '\0' "\\$1"
}

printf 'ABCDEFGHIJKLMNOPQRST' >"$work/f20"
: >"$work/z0"
(part 200 4000 && part 377 4000 && part 200 4000) >"$work/talk"
(part 200 4000 && part 377 3840 && part 200 4000) >"$work/pause"
part 371 4001 >"$work/quiet"
(part 377 4000 && part 370 1) >"$work/last"
(part 377 160 && part 200 1) >"$work/loud"
part 200 262144 >"$work/z262144"

# row NAME WANTED SCRIPT: what the script prints over a new disk.
row() {
    printf "$3" >"$work/s.vs"
    check "$1" 0 "$(printf "$2")
" '' run s.vs
}

row 'talk, silence, talk' '1 1 record: rope 1 length 12000\n2 1 describe: talk 2 0+4000 8000+4000' '1 a = record talk\n1 describe a\n'
row 'a pause that is no silence' '1 1 record: rope 1 length 11840\n2 1 describe: talk 1 0+11840' '1 a = record pause\n1 describe a\n'
row 'all quiet' '1 1 record: rope 1 length 4001\n2 1 describe: talk 0' '1 a = record quiet\n1 describe a\n'
row 'one loud sample behind a silence' '1 1 record: rope 1 length 4001\n2 1 describe: talk 1 4000+1' '1 a = record last\n1 describe a\n'
row 'levels of twenty letters' '1 1 record: rope 1 length 20\n2 1 levels: peaks 1 62' '1 a = record f20\n1 levels a\n'
row 'levels of a quiet window and a loud sample' '1 1 record: rope 1 length 161\n2 1 levels: peaks 2 0 127' '1 a = record loud\n1 levels a\n'
row 'an empty rope' '1 1 record: rope 1 length 0\n2 1 describe: talk 0\n3 1 levels: peaks 0' '1 a = record z0\n1 describe a\n1 levels a\n'
row 'no such rope' '1 1 describe: no unknown-rope 7\n2 1 levels: no unknown-rope 7' '1 describe 7\n1 levels 7\n'
# Talk is found however the rope is cut: parts of 1, 159, 160, 161 and 7 samples, put together again.
row 'talk of a rope of many pieces' '1 1 record: rope 1 length 12000\n2 1 sub: rope 2 length 1\n3 1 sub: rope 3 length 159\n4 1 sub: rope 4 length 160\n5 1 sub: rope 5 length 161\n6 1 sub: rope 6 length 11519\n7 1 sub: rope 7 length 7\n8 1 concat: rope 8 length 12000\n9 1 replace: rope 9 length 12007\n10 1 describe: talk 2 0+4000 8000+4000\n11 1 describe: talk 2 0+4000 8000+4007' '1 a = record talk\n1 b = sub a 0 1\n1 c = sub a 1 159\n1 d = sub a 160 160\n1 e = sub a 320 161\n1 f = sub a 481 11519\n1 g = sub a 0 7\n1 h = concat b c d e f\n1 i = replace h 12000 0 g\n1 describe h\n1 describe i\n'
# 2^26 samples of 262,144: sixteen times, and that sixteen times.
row 'a rope of 67,108,864 samples' '1 1 record: rope 1 length 262144\n2 1 concat: rope 2 length 4194304\n3 1 concat: rope 3 length 67108864\n4 1 describe: talk 1 0+67108864' '1 a = record z262144\n1 b = concat a a a a a a a a a a a a a a a a\n1 c = concat b b b b b b b b b b b b b b b b\n1 describe c\n'
# A rope is described again by a later run.
printf '1 describe 1\n1 levels 2\n' >"$work/s.vs"
rm -f "$work/voice.disk"
printf '1 record talk\n1 record f20\n' >"$work/r.vs"
(cd "$work" && "$top/voice" run r.vs >/dev/null)
expect 'in a later run' [ "$(cd "$work" && "$top/voice" run s.vs)" = '1 1 describe: talk 2 0+4000 8000+4000
2 1 levels: peaks 1 62' ]

# The dictation of the examples runs as it stands.
cp "$top"/examples/dictation.* "$work"
check 'a dictation' 0 '1 1 record: rope 1 length 12000
2 1 describe: talk 2 0+4000 8000+4000
3 1 sub: rope 2 length 4000
4 1 sub: rope 3 length 4000
5 1 concat: rope 4 length 8000
6 1 describe: talk 1 0+8000
7 1 sub: rope 5 length 320
8 1 levels: peaks 2 78 92
9 1 retain: done
10 1 advance: done
11 1 sweep: swept 0 rows 4 ropes 1 2 3 5
' '' run dictation.vs
finish
