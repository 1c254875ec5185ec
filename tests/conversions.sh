#!/bin/sh
# Conversions between AU files and files of samples: import and export.
set -eu
. "$(dirname "$0")/lib.sh"

usage='voice: usage: voice format|run|make
'
printf '.snd\000\000\000\030\000\000\000\012\000\000\000\001\000\000\037\100\000\000\000\001ABCDEFGHIJ' >"$work/ten.au"
# Four bytes more of header, and a size that is not known.
printf '.snd\000\000\000\034\377\377\377\377\000\000\000\001\000\000\037\100\000\000\000\001noteABCDEFGHIJ' >"$work/noted.au"
printf '.snd\000\000\000\030\000\000\000\012\000\000\000\003\000\000\037\100\000\000\000\001ABCDEFGHIJ' >"$work/linear.au"
printf '.snd\000\000\000\030\000\000\000\012\000\000\000\001\000\000\037\100\000\000\000' >"$work/short.au"
printf 'ABCDEFGHIJ' >"$work/wanted.ul"

check 'an AU file is imported' 0 '' '' import ten.au ten.ul
expect 'as its samples' cmp -s "$work/ten.ul" "$work/wanted.ul"
expect 'and no disk is made' test ! -e "$work/voice.disk"
check 'samples are exported' 0 '' '' export ten.ul again.au
expect 'as that file' cmp -s "$work/again.au" "$work/ten.au"
check 'one of unknown size with a note is imported' 0 '' '' import noted.au noted.ul
expect 'as the same samples' cmp -s "$work/noted.ul" "$work/wanted.ul"
check 'another encoding is refused' 10 '' 'voice: linear.au is refused, cause 4
' import linear.au linear.ul
check 'so is a short file' 10 '' 'voice: short.au is refused, cause 1
' import short.au short.ul
expect 'and nothing is written' test ! -e "$work/linear.ul" -a ! -e "$work/short.ul"
check 'an absent file' 4 '' 'voice: no file gone.au
' import gone.au gone.ul
check 'words that are too few' 2 '' "$usage" import ten.au
check 'a word that names no file' 2 '' "$usage" export ten.ul -x
finish
