#!/bin/sh
# Where the system has no room, or doesn't let the disk file be written: what is answered, and what is there afterwards.
set -eu
. "$(dirname "$0")/lib.sh"

cp "$top/examples/hello.ul" "$work/hello.ul"
head -c 1048576 /dev/zero >"$work/long.ul"
printf '1 a = record hello.ul\n1 record long.ul\n1 record hello.ul\n1 b = sub a 0 5\n1 length b\n' >"$work/fill.vs"
printf '1 length 1\n1 length 2\n1 length 3\n1 record long.ul\n' >"$work/after.vs"

# ends NAME STATUS STDOUT STDERR: the program's last run ended so.
ends() {
    printf '%s' "$3" >"$work/.want_out"
    printf '%s' "$4" >"$work/.want_err"
    expect "$1" sh -c "[ '$status' = '$2' ] && cmp '$work/.out' '$work/.want_out' && cmp '$work/.err' '$work/.want_err'"
}

# limited BLOCKS WORD..: the program, where the system refuses each write behind so many blocks of 512 bytes of a file.
limited() {
    blocks=$1
    shift
    status=0
    (cd "$work" && trap '' XFSZ && ulimit -f "$blocks" && exec "$top/voice" "$@") >"$work/.out" 2>"$work/.err" || status=$?
}

unlimited() {
    limited unlimited "$@"
}

limited 6144 run fill.vs
ends 'a disk file that the system does not make' 8 '' 'voice: the disk failed
'
expect 'none is left behind' [ ! -e "$work/voice.disk" ]

# The journal's areas take the first 2 MiB of the file.
unlimited format
limited 6144 run fill.vs
ends 'a recording without room is a fault, and what comes behind it is done' 0 '1 1 record: rope 1 length 20
2 1 record: no disk-fault
3 1 record: rope 2 length 20
4 1 sub: rope 3 length 5
5 1 length: number 5
' ''
limited 1 run fill.vs
ends 'a journal that takes nothing makes no rope' 0 '1 1 record: no disk-fault
2 1 record: no disk-fault
3 1 record: no disk-fault
4 1 sub: no unknown-rope 0
5 1 length: no unknown-rope 0
' ''
unlimited run after.vs
ends 'all that was acknowledged is there, and the room of what failed' 0 '1 1 length: number 20
2 1 length: number 20
3 1 length: number 5
4 1 record: rope 4 length 1048576
' ''

# A file system that is full, and one that can't be written, where this machine lets one be mounted.
if unshare -m true 2>/dev/null; then
    cat >"$work/.small" <<'END'
set -eu
mkdir -p "$work/small"
mount -t tmpfs -o size=2600k none "$work/small"
cp "$work/hello.ul" "$work/long.ul" "$work/fill.vs" "$work/after.vs" "$work/small"
cd "$work/small"
"$top/voice" run fill.vs
"$top/voice" run after.vs
mount -o remount,ro "$work/small"
"$top/voice" run after.vs || echo "status $?"
rm -f voice.disk 2>/dev/null || echo 'the file stays'
END
    status=0
    (export work top && unshare -m sh "$work/.small") >"$work/.out" 2>"$work/.err" || status=$?
    ends 'a full file system, and one that only reads' 0 '1 1 record: rope 1 length 20
2 1 record: rope 2 length 1048576
3 1 record: rope 3 length 20
4 1 sub: rope 4 length 5
5 1 length: number 5
1 1 length: number 20
2 1 length: number 1048576
3 1 length: number 20
4 1 record: no disk-fault
status 8
the file stays
' 'voice: the disk failed
'
fi
finish
