#!/bin/sh
# What a power cut leaves of a run over a real file, by the built program: its writes and syncs are read off a trace, and the images made that a cut between any two of them may leave. It needs python3. Left out, with a line that says so, where strace is missing or may not trace.
set -eu
. "$(dirname "$0")/lib.sh"
export PYTHONDONTWRITEBYTECODE=1

if ! strace -f -o "$work/trace" -e trace=openat true 2>/dev/null; then
    echo 'power_cut: strace is missing, left out'
    exit 0
fi

# samples NAME FIRST LENGTH: a file of samples, the digits of the numbers from FIRST on.
samples() { seq "$2" "$(($2 + 400))" | head -c "$3" >"$work/$1"; }
samples none 1000 0
samples one 1000 1
samples block 2000 64
samples more 3000 65
samples short 4000 200
samples middle 5000 640
samples long 6000 1500

# The areas are small and the notes long, so that the journal switches; sweeps free blocks that later recordings take.
note=$(printf '%0200d' 0 | tr 0 c)
sed "s/NOTE/$note/" >"$work/script.vs" <<'SCRIPT'
1 a = record short
1 retain held a a NOTE
1 b = record long
1 c = sub b 100 700
2 retain until b 2 0000000000000064
1 d = replace a 50 20 c
1 retain listed d d 00ff
1 n = record none
1 length n
1 e = record more
1 advance 50
1 f = concat a d e
1 retain held f f NOTE
1 forget held a
1 g = record long
1 record long
1 retain listed g g 01
1 advance 120
1 sweep 3
1 sweep 100
1 h = record middle
1 retain held h h NOTE
1 i = replace f 100 300 h
1 forget held f
1 retain held i i -
1 census d
1 advance 200
1 sweep 100
1 j = record long
1 k = record block
1 retain until j j 0000000000000140
1 l = concat k j k
1 retain held l l NOTE
1 m = record one
1 forget held h
1 retain held m m 00
1 advance 300
1 census
1 sweep 100
1 o = sub l 64 10
1 retain held o o NOTE
1 forget held l
1 advance 400
1 sweep 100
1 p = record long
1 q = replace i 7 70 p
1 retain listed q q NOTE
1 forget held i
1 r = record middle
1 retain held r r -
1 advance 500
1 sweep 100
1 s = record more
1 forget held r
1 t = concat s s
1 retain held t t NOTE
1 advance 600
1 sweep 100
1 u = record middle
SCRIPT

# A byte that isn't written is an open gate.
head -c 6720 /dev/zero | tr '\0' '\001' >"$work/voice.disk"
(cd "$work" && "$top/voice" format --block 64 --blocks 64 --area 1280 --lanes 4 --grace 60 --held 10 --until 0 --listed 40)

program=$top/crates/voice/out/voice     # which that call has built where it was missing
tool() { python3 "$top/tests/power_cut.py" "$@"; }
expect 'the fronts of the script' tool trace "$work" "$program" >"$work/told"
cat "$work/told"
expect 'are as many, with switches and blocks taken again' [ "$(cat "$work/told")" = '59 lines, 54 changes, 5 switches, 72 blocks taken again' ]
expect 'each image holds a front with all that was acknowledged' tool images "$work" "$program" 2000 160
expect 'each sync is missed' tool syncs "$work"

# A second cut, in a run over an image that the first one left while the journal switched.
cut_again() {
    mkdir "$1.again"
    cp "$work/short" "$1.again"
    cp "$1" "$1.again/voice.disk"
    printf '1 census\n1 advance 1000\n1 sweep 100\n1 a = record short\n1 retain held last a %s\n1 forget held last\n' "$note" >"$1.again/script.vs"
    if ! tool trace "$1.again" "$program" >"$1.told" 2>&1 || ! tool images "$1.again" "$program" 100 4 >>"$1.told" 2>&1; then
        cat "$1.told"
        return 1
    fi
}
for n in 1 2 3 4 5 6 7 8 9 10 11 12; do
    expect "a second cut, over image $n" cut_again "$work/cut.$n"
done
finish
