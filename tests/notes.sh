#!/bin/sh
# Notes that name recordings: `notes INDEX`, by the built program.
set -eu
. "$(dirname "$0")/lib.sh"

printf 'ABCDEFGHIJKLMNOPQRST' >"$work/f20"
printf '1 a = record f20\n1 retain listed m a -\n1 b = record f20\n1 retain listed n b -\n' >"$work/keep.vs"
printf '1 lookup listed m\n1 lookup listed n\n' >"$work/look.vs"
kept='1 1 record: rope 1 length 20
2 1 retain: done
3 1 record: rope 2 length 20
4 1 retain: done
'
both='1 1 lookup: found 1 -
2 1 lookup: found 2 -
'

# fresh: keys m and n are listed over a disk that is new.
fresh() {
    check 'two rows are listed' 0 "$kept" '' run keep.vs
}

# again NAME STATUS STDOUT STDERR WORD..: the program over the disk as it stands.
again() {
    name=$1 want_status=$2 want_out=$3 want_err=$4
    shift 4
    status=0
    (cd "$work" && "$top/voice" "$@") >"$work/.out" 2>"$work/.err" || status=$?
    printf '%s' "$want_out" >"$work/.want_out"
    printf '%s' "$want_err" >"$work/.want_err"
    expect "$name" [ "$status" = "$want_status" ]
    expect "$name: standard output" cmp -s "$work/.out" "$work/.want_out"
    expect "$name: standard error" cmp -s "$work/.err" "$work/.want_err"
}

# refused NAME STATUS STDERR: the notes of the index are refused, and the disk stays as it was.
refused() {
    cp "$work/voice.disk" "$work/before"
    again "$1" "$2" '' "$3" notes index
    expect "$1: the disk" cmp -s "$work/voice.disk" "$work/before"
}

fresh
printf 'see [[voice:n]] and [[voice:n]]' >"$work/note.md"
printf '# one note\n\nnote.md\n' >"$work/index"
again 'a census of one note' 0 '1 1 census: number 1
' '' notes index
again 'its row is kept, the other is gone' 0 '1 1 lookup: no no-interest
2 1 lookup: found 2 -
' '' run look.vs
again 'a second census' 0 '1 1 census: number 0
' '' notes index
again 'the row is still there' 0 '1 1 lookup: no no-interest
2 1 lookup: found 2 -
' '' run look.vs

fresh
printf 'x [[voice:]]' >"$work/note.md"
refused 'an anchor without a key' 12 'voice: note.md has a bad anchor at byte 2
'
printf 'x [[voice:%s]]' "$(head -c 65 /dev/zero | tr '\0' k)" >"$work/note.md"
refused 'a key of 65 letters' 12 'voice: note.md has a bad anchor at byte 2
'
printf '[[voice:m]] [[voice:n' >"$work/note.md"
refused 'an anchor without an end' 12 'voice: note.md has a bad anchor at byte 12
'
seq -f '[[voice:k%.0f]]' 1025 >"$work/note.md"
refused '1,025 keys' 13 'voice: 1025 keys are too many
'
printf 'x [[voice:]]' >"$work/other.md"
printf 'note.md\nother.md\n' >"$work/index"
refused 'a bad anchor comes before too many keys' 12 'voice: other.md has a bad anchor at byte 2
'
printf 'other.md\ngone.md\ngone.too\n' >"$work/index"
refused 'an absent note comes before a bad anchor' 4 'voice: no file gone.md
'
printf 'note.md\ntwo words\n-x\n' >"$work/index"
refused 'a line of two words' 11 'voice: line 2 of the index is refused
'
head -c 65535 /dev/zero | tr '\0' '\n' >"$work/index"
printf '\n' >>"$work/index"
refused 'line 65,536' 11 'voice: line 65536 of the index is refused
'
again 'nothing has gone' 0 "$both" '' run look.vs
check 'an absent index' 4 '' 'voice: no file gone
' notes gone
usage='voice: usage: voice format|run|make
'
check 'no index' 2 '' "$usage" notes
check 'a word that names no file' 2 '' "$usage" notes -x
check 'two indexes' 2 '' "$usage" notes index index

fresh
seq -f '[[voice:k%.0f]]' 1023 >"$work/note.md"
printf 'and [[voice:k1]], [[voice:m]]' >>"$work/note.md"
printf 'note.md\nnote.md\n' >"$work/index"
again '1,024 keys, each more than once' 0 '1 1 census: number 1
' '' notes index
: >"$work/index"
again 'an index without a note' 0 '1 1 census: number 1
' '' notes index

# The minutes of the examples run as they stand.
rm -f "$work/voice.disk"
cp "$top"/examples/hello.ul "$top"/examples/minutes.* "$top"/examples/*.md "$work"
again 'the recordings of the minutes' 0 '1 1 record: rope 1 length 20
2 1 retain: done
3 1 sub: rope 2 length 10
4 1 retain: done
5 1 sub: rope 3 length 10
6 1 retain: done
7 1 sub: rope 4 length 5
8 1 retain: done
' '' run minutes.vs
again 'the census of the minutes' 0 '1 1 census: number 1
' '' notes minutes.idx
finish
