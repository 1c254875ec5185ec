#!/bin/sh
# What stands on a disk: `audit`, by the built program.
set -eu
. "$(dirname "$0")/lib.sh"

voice() { (cd "$work" && "$top/voice" "$@"); }
small='version 2 form 2 block 8 blocks 16 area 512 graces 60 60 60 60 lanes 4
'

# blank: a disk of 16 blocks, just formatted.
blank() {
    head -c 1216 /dev/zero >"$work/voice.disk"
    voice format --block 8 --blocks 16 --area 512 --grace 60 --lanes 4
}

# script LINE..: these lines are run over a disk that is new.
script() {
    blank
    printf '%s\n' "$@" >"$work/s.vs"
    voice run s.vs >"$work/.ran"
}

# audit NAME STATUS STDOUT STDERR: the audit of the disk as it stands ends so, and leaves the disk.
audit() {
    cp "$work/voice.disk" "$work/before"
    status=0
    voice audit >"$work/.out" 2>"$work/.err" || status=$?
    printf '%s' "$3" >"$work/.want_out"
    printf '%s' "$4" >"$work/.want_err"
    expect "$1" [ "$status" = "$2" ]
    expect "$1: standard output" diff "$work/.want_out" "$work/.out"
    expect "$1: standard error" diff "$work/.want_err" "$work/.err"
    expect "$1: the disk" cmp -s "$work/voice.disk" "$work/before"
}

# put PLACE OCTAL: that byte of the disk.
put() { printf "\\$2" | dd of="$work/voice.disk" bs=1 seek="$1" conv=notrunc 2>/dev/null; }

head -c 16 /dev/zero >"$work/z16"
blank
audit 'a disk just formatted' 0 "${small}journal epoch 1 left 495
now 0 next 1
blocks used 0 shared 0 free 16
" ''

shared="${small}journal epoch 1 left 415
now 0 next 3
rope 1 length 16 pieces 1 rows 0
rope 2 length 9 pieces 1 rows 1
row held k 2 -
blocks used 2 shared 2 free 14
"
script '1 a = record z16' '1 b = sub a 0 9' '1 retain held k b -'
audit 'two ropes that share two blocks' 0 "$shared" ''
put 160 007
audit 'a last gate of 7' 0 "$shared" ''
put 85 377
audit 'a bad payload' 7 '' 'voice: the disk is damaged at byte 80
'
script '1 a = record z16' '1 b = sub a 0 8'
audit 'two ropes that share one block' 0 "${small}journal epoch 1 left 433
now 0 next 3
rope 1 length 16 pieces 1 rows 0
rope 2 length 8 pieces 1 rows 0
blocks used 2 shared 1 free 14
" ''

script '1 a = record z16' '1 c = concat a a' '1 d = sub c 4 20' '1 retain held k c -'
audit 'three ropes: a block counts once' 0 "${small}journal epoch 1 left 351
now 0 next 4
rope 1 length 16 pieces 1 rows 0
rope 2 length 32 pieces 2 rows 1
rope 3 length 20 pieces 2 rows 0
row held k 2 -
blocks used 2 shared 2 free 14
" ''
printf '1 advance 100\n1 sweep 9\n' >"$work/s.vs"
voice run s.vs >"$work/.ran"
audit 'swept ropes use no block, and one rope shares none' 0 "${small}journal epoch 1 left 313
now 100 next 4
rope 2 length 32 pieces 2 rows 1
row held k 2 -
blocks used 2 shared 0 free 14
" ''
script '1 a = record z16' '1 advance 100' '1 sweep 9'
audit 'blocks of a swept rope are free' 0 "${small}journal epoch 1 left 435
now 100 next 2
blocks used 0 shared 0 free 16
" ''

script '1 a = record z16' '1 retain listed b a 00ff' '1 retain until a a 0000000000000005' '1 retain held b a -' '1 forget until a'
audit 'rows in order of making, with classes and notes' 0 "${small}journal epoch 1 left 392
now 0 next 2
rope 1 length 16 pieces 1 rows 2
row listed b 1 00ff
row held b 1 -
blocks used 2 shared 0 free 14
" ''

# A disk of version 1, before and after its first switch of areas.
{
    printf 'VOICDISK\000\000\000\001\000\000\000\010\000\000\000\020\000\000\002\000\000\000\000\074\000\004'
    head -c 34 /dev/zero
    printf '\001'
    head -c 14 /dev/zero
    printf '\001'
    head -c 1136 /dev/zero
} >"$work/voice.disk"
audit 'a disk of version 1' 0 'version 1 form 1 block 8 blocks 16 area 512 graces 60 60 60 60 lanes 4
journal epoch 1 left 495
now 0 next 1
blocks used 0 shared 0 free 16
' ''
awk 'BEGIN { for (i = 1; i <= 36; i++) print "1 advance " i }' >"$work/s.vs"
voice run s.vs >"$work/.ran"
audit 'whose form has changed' 0 'version 1 form 2 block 8 blocks 16 area 512 graces 60 60 60 60 lanes 4
journal epoch 2 left 473
now 36 next 1
blocks used 0 shared 0 free 16
' ''

blank
head -c 63 "$work/voice.disk" >"$work/short"
cp "$work/short" "$work/voice.disk"
audit 'a disk of 63 bytes' 7 '' 'voice: the disk is damaged at byte 0
'
check 'no disk: one is made' 0 'version 2 form 2 block 4096 blocks 15000 area 1048576 graces 86400 86400 86400 86400 lanes 8
journal epoch 1 left 1048559
now 0 next 1
blocks used 0 shared 0 free 15000
' '' audit
usage='voice: usage: voice format|run|make
'
check 'a word behind it' 2 '' "$usage" audit voice.disk
check 'another case' 2 '' "$usage" Audit
if [ -e /dev/full ]; then
    blank
    status=0
    voice audit >/dev/full 2>"$work/.err" || status=$?
    expect 'a full output' [ "$status" = 6 ]
fi
finish
