#!/bin/sh
# What docs/DISK.md says of the bytes of a disk, by the built program and by a reader that is written from that page alone. It needs python3.
set -eu
. "$(dirname "$0")/lib.sh"
tests=$top/tests
export PYTHONDONTWRITEBYTECODE=1

# voice WORD..: the program in $work, over the disk that is there.
voice() { (cd "$work" && "$top/voice" "$@"); }
reader() { python3 "$tests/read_disk.py" "$@"; }

# blank BYTES WORD..: a disk file of so many zero bytes, formatted with these words.
blank() {
    rm -f "$work/voice.disk"
    head -c "$1" /dev/zero >"$work/voice.disk"
    shift
    voice format "$@"
}

# The page's block, byte for byte.
mkdir "$work/blocks" "$work/page"
awk -v out="$work/blocks" -f "$tests/blocks.awk" "$top/docs/DISK.md"
printf '#!/bin/sh\nexec "%s/voice" "$@"\n' "$top" >"$work/.voice"
chmod +x "$work/.voice"
mkdir "$work/bin"
mv "$work/.voice" "$work/bin/voice"
(cd "$work/page" && PATH="$work/bin:$PATH" sh "$work/blocks/001.sh") >"$work/.out" 2>&1 || true
expect 'the bytes of the page' cmp "$work/.out" "$work/blocks/001.text"
expect 'are all that the page has blocks of' [ ! -e "$work/blocks/002.sh" ]
expect 'and are read back' [ "$(reader "$work/page/voice.disk")" = 'version 2 form 2 lanes 4 graces 60 60 60 60
block 8 blocks 16 area 512
epoch 1 left 436 moment 0 next 2
rope 1 length 20 pieces 1 idle 0 last -
row held mail.1 rope 1 note 6869
used 3 free 13' ]

# Edits, interests and the moment: the listing and what a run tells, and the samples.
printf 'ABCDEFGHIJKLMNOPQRST' >"$work/letters"
printf '0123456789' >"$work/digits"
blank 2752 --block 8 --blocks 80 --area 1024 --grace 60 --held 10
cat >"$work/edits.vs" <<'END'
1 a = record letters
1 d = record digits
1 h = sub a 3 10
1 j = concat h d a
1 r = replace j 5 12 d
1 e = sub a 20 0
1 retain held mail.1 r 00ff
2 retain until note.1 4 0000000000000005
2 retain listed index.1 1 -
1 advance 5
1 sweep 9
1 forget held mail.1
END
voice run edits.vs >"$work/.out"
expect 'the edits' [ "$(tail -n 3 "$work/.out")" = '10 1 advance: done
11 1 sweep: swept 1 rows 0 ropes
12 1 forget: done' ]
reader "$work/voice.disk" >"$work/listed"
expect 'the listing' [ "$(grep -v '^epoch' "$work/listed")" = 'version 2 form 2 lanes 8 graces 60 10 60 60
block 8 blocks 80 area 1024
rope 1 length 20 pieces 1 idle 0 last -
rope 2 length 10 pieces 1 idle 0 last -
rope 3 length 10 pieces 1 idle 0 last -
rope 4 length 40 pieces 3 idle 5 last until
rope 5 length 38 pieces 4 idle 5 last held
rope 6 length 0 pieces 0 idle 0 last -
row listed index.1 rope 1 note -
used 5 free 75' ]
awk '/^rope/ { print "1 length " $2 } /^row/ { print "1 lookup " $2 " " $3 }' "$work/listed" >"$work/told.vs"
awk '/^rope/ { print "number " $4 } /^row/ { print "found " $5 " " $7 }' "$work/listed" >"$work/wanted"
voice run told.vs | sed 's/^[^:]*: //' >"$work/.out"
expect 'is what a run tells' cmp "$work/.out" "$work/wanted"
expect 'and it tells of each rope and row' [ "$(wc -l <"$work/.out")" = 7 ]

# samples ROPE BYTES: the rope has just these samples.
samples() {
    reader "$work/voice.disk" "$1" "$work/.samples"
    printf '%s' "$2" >"$work/.wanted"
    expect "the samples of rope $1" cmp "$work/.samples" "$work/.wanted"
}
samples 1 ABCDEFGHIJKLMNOPQRST
samples 3 DEFGHIJKLM
samples 4 DEFGHIJKLM0123456789ABCDEFGHIJKLMNOPQRST
samples 5 DEFGH0123456789789ABCDEFGHIJKLMNOPQRST
samples 6 ''
expect 'a rope that is not there' sh -c "! python3 '$tests/read_disk.py' '$work/voice.disk' 7 '$work/.samples' 2>/dev/null"

# damage PLACE BYTES WANTED: with these bytes (in octal) at a place, the program and the reader name the same damage.
cp "$work/voice.disk" "$work/sound"
damage() {
    cp "$work/sound" "$work/voice.disk"
    printf "$2" | dd of="$work/voice.disk" bs=1 seek="$1" conv=notrunc 2>/dev/null
    told=$(voice run told.vs 2>&1) || true
    read=$(reader "$work/voice.disk" 2>&1) || true
    expect "damage at $3" [ "$told/$read" = "voice: the disk is damaged at byte $3/damaged at byte $3" ]
}
gate=$(awk '/^epoch/ { print ($2 % 2 ? 64 : 1088) + 1024 - 1 - $4 }' "$work/listed")
current=$(awk '/^epoch/ { print ($2 % 2 ? 64 : 1088) }' "$work/listed")
damage 0 'X' 0
damage 11 '\003' 8
damage 15 '\014' 12
damage 50 '\001' 42
damage "$current" '\007' 64
damage "$((current + 17))" '\377' "$((current + 16))"
damage "$gate" '\001\000\000\000\001\143' "$gate"
damage "$gate" '\001\000\000\000\011\007\000\000\000\000\000\000\000\005' "$gate"
damage "$((current + 21))" '\143' "$((current + 16))"
cp "$work/sound" "$work/voice.disk"
expect 'the disk is whole again' [ "$(reader "$work/voice.disk")" = "$(cat "$work/listed")" ]

finish
