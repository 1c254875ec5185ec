#!/bin/sh
# Callers on threads over a real disk file: the order of their lines, and what the file keeps where the program is killed at any time.
set -eu
. "$(dirname "$0")/lib.sh"

cp "$top/examples/hello.ul" "$work/hello.ul"
cp "$top/examples/first.vs" "$work/first.vs"
usage='voice: usage: voice format|run|make
'
check 'the first script on threads' 0 '1 1 record: rope 1 length 20
' '' run first.vs --threads
check 'the words the other way round' 0 '1 1 record: rope 1 length 20
' '' run --threads first.vs
check 'threads without a script' 2 '' "$usage" run --threads
check 'threads twice' 2 '' "$usage" run --threads first.vs --threads
check 'a missing script on threads' 4 '' 'voice: no file gone
' run gone --threads

# voice WORD..: the program in $work, over the disk that is there.
voice() { (cd "$work" && "$top/voice" "$@"); }

# Two callers of two lines each: their entries stand in one of the six orders that keep each caller's lines, with the replies of that order.
printf '1 a = record hello.ul\n1 sub a 5 10\n2 b = record hello.ul\n2 sub b 6 11\n' >"$work/two.vs"
whole=yes
for k in $(seq 1 100); do
    voice format --block 8 --blocks 64 --area 4096
    text=$(voice run two.vs --threads) || whole="run $k ended badly"
    order=$(printf '%s\n' "$text" | awk '{
        rope = NR
        own[$2]++
        verb = own[$2] == 1 ? "record" : "sub"
        len = own[$2] == 1 ? 20 : $2 == 1 ? 10 : 11
        if ($0 != NR " " $2 " " verb ": rope " rope " length " len) print "wrong"
        printf "%s", $2
    }')
    case "$order" in
        1122 | 1212 | 1221 | 2112 | 2121 | 2211) ;;
        *) whole="run $k: $order" ;;
    esac
done
expect "two callers in an order that keeps their lines ($whole)" [ "$whole" = yes ]

# Sixteen callers of fifty lines each: all entries are there, each caller's own.
awk 'BEGIN { for (c = 1; c <= 16; c++) print c " a = record hello.ul"; for (i = 0; i < 49; i++) for (c = 1; c <= 16; c++) print c " sub a " i % 10 " 10" }' >"$work/sixteen.vs"
voice format --block 8 --blocks 64 --area 65536
voice run sixteen.vs --threads >"$work/.out"
expect 'sixteen callers have fifty entries each' [ "$(awk '$4 == "rope" { n[$2]++ } END { for (c = 1; c <= 16; c++) if (n[c] == 50) all++; print all }' "$work/.out")" = 16 ]
awk 'BEGIN { for (i = 1; i <= 800; i++) print "1 length " i }' >"$work/lengths.vs"
expect 'and all their ropes are there' [ "$(voice run lengths.vs | grep -c 'number')" = 800 ]

# Killed at twenty moments: each time the disk opens, all ropes below the next number are there, and the number never falls.
printf '1 record hello.ul\n' >"$work/next.vs"
voice format --blocks 1000 --area 4194304
last=0
whole=yes
for k in $(seq 1 20); do
    (cd "$work" && exec "$top/voice" run sixteen.vs --threads) >"$work/.out" 2>"$work/.err" &
    pid=$!
    sleep "0.$(awk -v k="$k" 'BEGIN { srand(k); printf "%03d", rand() * 300 }')"
    kill -9 "$pid" 2>/dev/null || true
    wait "$pid" 2>/dev/null || true
    text=$(voice run next.vs) || whole="run $k ended badly"
    next=${text#*rope }
    next=${next%% *}
    [ "$next" -gt "$last" ] || whole="run $k: rope $next after $last"
    last=$next
done
expect "twenty kills ($whole)" [ "$whole" = yes ]
awk -v n="$last" 'BEGIN { for (i = 1; i <= n; i++) print "1 length " i }' >"$work/all.vs"
expect 'all ropes are there' sh -c "cd '$work' && [ \"\$('$top/voice' run all.vs | grep -c 'number')\" = '$last' ]"

# Killed at thirty moments while eight callers record, keep, play, forget and sweep: each time the disk opens, an audit tells of no damage, the number never falls, and what is kept is heard as it was recorded.
awk 'BEGIN { print "1 record hello.ul"; for (c = 1; c <= 8; c++) for (i = 0; i < 3; i++) {
    print "1 v" c i " = lookup held k" c "." i
    print "1 play 0 v" c i " 0 20 kept" c i
} }' >"$work/kept.vs"
# busy K: the script of run K. Moments rise from run to run, so that the sweeps of each make room again, however far it comes.
busy() {
    awk -v k="$1" 'BEGIN { for (i = 0; i < 40; i++) for (c = 1; c <= 8; c++) {
        print c " a = record hello.ul"
        print c " retain held k" c "." i % 3 " a -"
        print c " play " c - 1 " a 0 20 out" c
        print c " advance " (k * 1000 + i * 10)
        print c " sweep 4"
        print c " forget held k" c "." (i + 1) % 3
    } }' >"$work/busy.vs"
}
voice format --blocks 1000 --area 65536 --grace 20
busy 0
begun=$(date +%s%N)
voice run busy.vs --threads >/dev/null
# how many milliseconds a run takes on this machine, at most a second: the kills lie within it
lasts=$((($(date +%s%N) - begun) / 1000000 + 1))
[ "$lasts" -lt 1000 ] || lasts=1000
last=0
heard=0
whole=yes
for k in $(seq 1 30); do
    busy "$k"
    (cd "$work" && exec "$top/voice" run busy.vs --threads) >"$work/.out" 2>"$work/.err" &
    pid=$!
    sleep "$(awk -v k="$k" -v lasts="$lasts" 'BEGIN { srand(k); printf "%.3f", rand() * lasts / 1000 }')"
    kill -9 "$pid" 2>/dev/null || true
    wait "$pid" 2>/dev/null || true
    voice audit >/dev/null || whole="run $k leaves damage"
    rm -f "$work"/kept??
    text=$(voice run kept.vs) || whole="run $k ended badly"
    next=${text#*rope }
    next=${next%% *}
    [ "$next" -gt "$last" ] || whole="run $k: rope $next after $last"
    last=$next
    [ "$(printf '%s\n' "$text" | grep -c 'found')" = "$(ls "$work" | grep -c '^kept..$')" ] || whole="run $k: a kept rope is not heard"
    for file in "$work"/kept??; do
        [ -e "$file" ] || continue
        heard=$((heard + 1))
        cmp -s "$file" "$work/hello.ul" || whole="run $k: other samples"
    done
done
expect "thirty kills beside plays and sweeps ($whole)" [ "$whole" = yes ]
expect "after which kept ropes were heard ($heard)" [ "$heard" -gt 30 ]
finish
