#!/bin/sh
# The making of a disk, and its one owner: words that make none, first runs that are killed, and programs that come to one disk at the same time. What needs strace is left out, with a line that says so, where it is missing or may not trace.
set -eu
. "$(dirname "$0")/lib.sh"

program="$top/crates/voice/out/voice"
disk="$work/voice.disk"
unfinished="$work/voice.disk.unfinished"
usage='voice: usage: voice format|run|make
'
fault='voice: the disk failed
'
first='1 1 record: rope 1 length 20
'
cp "$top/examples/hello.ul" "$work/hello.ul"
cp "$top/examples/first.vs" "$work/first.vs"
printf '1 length 1\n' >"$work/later.vs"

# ended NAME STATUS STDOUT STDERR: the last run ended so.
ended() {
    printf '%s' "$3" >"$work/.want_out"
    printf '%s' "$4" >"$work/.want_err"
    expect "$1 (status $status)" sh -c "[ '$status' = '$2' ] && cmp '$work/.out' '$work/.want_out' && cmp '$work/.err' '$work/.want_err'"
}

# voice WORD..: the program, over what stands in the folder.
voice() {
    status=0
    (cd "$work" && exec "$program" "$@") >"$work/.out" 2>"$work/.err" || status=$?
}

has_none() { [ ! -e "$disk" ] && [ ! -e "$unfinished" ]; }
clear_away() { rm -f "$disk" "$unfinished"; }
has_one_name() { [ "$(stat -c %h "$disk")" = 1 ] && [ ! -e "$unfinished" ]; }

check 'no word' 2 '' "$usage"
expect 'and no disk' has_none
for words in runs 'run -x' 'run a b' 'format --block' 'format --block 8 --block 8' 'audit now' notes 'import ten.au' '--help run'; do
    voice $words
    ended "words in no form: $words" 2 '' "$usage"
    expect "and no disk: $words" has_none
done
voice run gone
ended 'words in a form' 4 '' 'voice: no file gone
'
expect 'make a disk with one name' has_one_name
expect 'of 64 MiB' [ "$(stat -c %s "$disk")" = 67108864 ]
head -c 65 "$disk" >"$work/.formatted"
voice run first.vs
ended 'which the next run finds' 0 "$first" ''

# What killed runs leave.
clear_away
echo 'no disk' >"$unfinished"
voice run first.vs
ended 'an unfinished file is taken over' 0 "$first" ''
expect 'and becomes the disk' has_one_name
ln "$disk" "$unfinished"
voice run later.vs
ended 'a disk with both names keeps what it holds' 0 '1 1 length: number 20
' ''
expect 'and one name' has_one_name
echo 'another file' >"$unfinished"
voice run later.vs
expect 'another file of that name stays' [ "$(cat "$unfinished")" = 'another file' ]

# left MOMENT: a run killed there left no disk or a formatted one, and a later run goes on from that.
left() {
    want=$first
    if [ -e "$disk" ]; then
        made=$((made + 1))
        head -c 65 "$disk" | cmp -s - "$work/.formatted" || whole="$1: not formatted"
        voice audit
        [ "$status" = 0 ] || whole="$1: an audit's status $status"
        ropes=$(grep -c '^rope' "$work/.out" || true)
        want="1 1 record: rope $((ropes + 1)) length 20
"
    fi
    voice run first.vs
    [ "$status" = 0 ] && [ "$(cat "$work/.out")" = "${want%?}" ] || whole="$1: status $status: $(cat "$work/.out" "$work/.err")"
    has_one_name || whole="$1: a name too many"
}

whole=yes
made=0
clear_away
began=$(date +%s%N)
voice run first.vs
took=$(($(date +%s%N) - began))
for k in $(seq 1 100); do
    clear_away
    (cd "$work" && exec "$program" run first.vs) >"$work/.out" 2>&1 &
    pid=$!
    sleep "$(awk -v k="$k" -v took="$took" 'BEGIN { printf "%.6f", k * took / 1e11 }')"
    kill -9 "$pid" 2>/dev/null || true
    wait "$pid" 2>/dev/null || true
    left "kill $k"
done
expect "a hundred kills, after which $made disks are there ($whole)" [ "$whole" = yes ]

# A run that waits for its script has the disk.
mkfifo "$work/waits.vs"
(cd "$work" && exec "$program" run waits.vs) >"$work/.waited" 2>&1 &
pid=$!
exec 3>"$work/waits.vs"
cp "$disk" "$work/.before"
for words in 'run first.vs' audit 'format --blocks 8'; do
    voice $words
    ended "a second program: $words" 8 '' "$fault"
done
expect 'leaves the disk' cmp -s "$disk" "$work/.before"
printf '1 length 1\n' >&3
exec 3>&-
status=0
wait "$pid" || status=$?
expect 'the first one goes on' [ "$status $(cat "$work/.waited")" = '0 1 1 length: number 20' ]
voice run later.vs
ended 'and then the disk is free' 0 '1 1 length: number 20
' ''

# Eight programs at once, where there is no disk: each records, or finds the disk taken.
start() {
    status=0
    (cd "$work" && exec "$program" run first.vs) >"$work/.out$1" 2>"$work/.err$1" || status=$?
    case "$status $(cat "$work/.err$1")" in
        '0 ' | "8 ${fault%?}") echo "$status" >"$work/.status$1" ;;
        *) echo "$status $(cat "$work/.err$1")" >"$work/.status$1" ;;
    esac
}
whole=yes
for round in $(seq 1 20); do
    clear_away
    for k in 1 2 3 4 5 6 7 8; do start "$k" & done
    wait
    recorded=$(cat "$work"/.status? | grep -c '^0$' || true)
    refused=$(cat "$work"/.status? | grep -c '^8$' || true)
    [ "$recorded" -ge 1 ] && [ "$((recorded + refused))" = 8 ] || whole="round $round: $(cat "$work"/.status?)"
    voice run first.vs
    [ "$(cat "$work/.out")" = "1 1 record: rope $((recorded + 1)) length 20" ] || whole="round $round: $recorded recorded, then $(cat "$work/.out")"
    has_one_name || whole="round $round: a name too many"
done
expect "eight at once, twenty times ($whole)" [ "$whole" = yes ]

# traced RULE WORD..: the program under strace, with that rule.
traced() {
    rule=$1
    shift
    status=0
    (cd "$work" && exec strace -o "$work/.trace" -e "$rule" "$program" "$@") >"$work/.out" 2>"$work/.err" || status=$?
}

traced trace=all run later.vs
if [ "$status" != 0 ]; then
    echo 'birth: strace is missing, part of it left out'
    finish
    exit
fi

# A file that can't be locked, there or made.
traced inject=flock:error=ENOLCK run first.vs
ended 'a disk that can not be locked' 8 '' "$fault"
clear_away
traced inject=flock:error=ENOLCK run first.vs
ended 'a new file that can not be locked' 8 '' "$fault"
expect 'is no disk' [ ! -e "$disk" ]

# Refused by the system, each in turn.
for call in ftruncate fsync link pwrite64; do
    clear_away
    traced "inject=$call:error=EIO" run first.vs
    ended "a first run whose $call fails" 8 '' "$fault"
    expect "makes no disk: $call" has_none
done

# A disk that comes while another is made stays, and so does its maker's place.
clear_away
traced inject=link:delay_enter=1000000 run first.vs &
pid=$!
sleep 0.5
status=0
(cd "$work" && exec "$program" run first.vs) >"$work/.second" 2>&1 || status=$?
expect 'a second program while a disk is made' [ "$status $(cat "$work/.second")" = "8 ${fault%?}" ]
echo 'no disk' >"$disk"
wait "$pid"
status=8
ended 'a disk that came meanwhile' 8 '' "$fault"
expect 'stays' [ "$(cat "$disk")" = 'no disk' ]
expect 'alone' has_one_name

# Killed before each system call of a first run, from its first look at the disk on.
clear_away
traced trace=all run first.vs
awk -F '(' '/^[a-z0-9_]+\(/ { count[$1]++; if (/"voice\.disk"/) begun = 1; if (begun) print $1, count[$1] }' "$work/.trace" >"$work/.calls"
whole=yes
made=0
kills=0
while read -r call number; do
    clear_away
    traced "inject=$call:signal=KILL:when=$number" run first.vs
    [ "$status" != 0 ] || whole="$call $number: no kill"
    kills=$((kills + 1))
    left "$call $number"
done <"$work/.calls" 2>"$work/.killed"
expect "a kill before each of $kills system calls, after $made of which the disk is there ($whole)" [ "$whole" = yes ]
expect 'before and behind the birth' [ "$made" -gt 0 -a "$made" -lt "$kills" ]
finish
