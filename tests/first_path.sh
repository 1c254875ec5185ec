#!/bin/sh
# The first path: one recording, from the words of the command line to the printed text.
set -eu
. "$(dirname "$0")/lib.sh"

usage='voice: usage: voice format|run|make
'
cp "$top/examples/hello.ul" "$work/hello.ul"
cp "$top/examples/first.vs" "$work/first.vs"
cp "$top/examples/mail.vs" "$work/mail.vs"
: >"$work/empty.vs"
printf '1 sing a' >"$work/sing.vs"
printf '1 record hello.ul\n17 record hello.ul\n' >"$work/second.vs"
printf '1 record hello.ul\n2 record gone.ul\n' >"$work/lost.vs"
printf '16 record hello.ul\n2 record hello.ul\n' >"$work/two.vs"
printf '1 record -x\n' >"$work/dash.vs"
printf '# \303\n1 record \303\n' >"$work/byte.vs"
printf '1 a = length 1\n' >"$work/bind.vs"

check 'the first script' 0 '1 1 record: rope 1 length 20
' '' run first.vs
check 'a day of mail' 0 '1 1 record: rope 1 length 20
2 1 retain: done
3 2 lookup: found 1 6869
4 2 sub: rope 2 length 10
5 2 concat: rope 3 length 30
6 2 retain: done
7 2 forget: done
8 1 advance: done
9 1 sweep: swept 1 rows 2 ropes 1 2
10 1 advance: done
11 1 sweep: swept 0 rows 1 ropes 3
' '' run mail.vs
check 'two callers' 0 '1 16 record: rope 1 length 20
2 2 record: rope 2 length 20
' '' run two.vs
printf '# a comment \377\n\n  1 a =\trecord hello.ul\r\n' >"$work/loose.vs"
check 'a comment, blanks and a variable' 0 '1 1 record: rope 1 length 20
' '' run loose.vs
check 'an empty script' 0 '' '' run empty.vs

check 'no word' 2 '' "$usage"
check 'no script' 2 '' "$usage" run
check 'two scripts' 2 '' "$usage" run a b
check 'an option' 2 '' "$usage" run -x
check 'an unknown word' 2 '' "$usage" runs first.vs
check 'an empty name' 2 '' "$usage" run ''
check 'a word that is not UTF-8' 2 '' "$usage" run "$(printf 'first\377.vs')"
check 'a long word' 2 '' "$usage" run "$(printf '%05000d' 0)"
check 'help with another word' 2 '' "$usage" --help run

check 'a missing script' 4 '' 'voice: no file gone
' run gone
check 'a missing sample file' 4 '' 'voice: no file gone.ul
' run lost.vs
check 'an unknown verb' 3 '' 'voice: line 1 of the script is refused: no known verb where one belongs
' run sing.vs
check 'a byte above ASCII' 3 '' 'voice: line 2 of the script is refused: a byte other than printed ASCII, space and tab
' run byte.vs
check 'a bind of a length' 3 '' 'voice: line 1 of the script is refused: what is bound is no variable, or the verb binds nothing
' run bind.vs
check 'caller 17' 3 '' 'voice: line 2 of the script is refused: no caller from 1 to 16 at its beginning
' run second.vs
check 'a bad file name' 3 '' 'voice: line 1 of the script is refused: wrong words behind the verb
' run dash.vs

# A script of 65,535 lines runs, though the journal is full before its end; one more line is refused.
awk 'BEGIN { for (i = 0; i < 65535; i++) print "1 record empty.vs" }' >"$work/long.vs"
(cat "$work/long.vs" && echo '1 record empty.vs') >"$work/longer.vs"
rm -f "$work/voice.disk"
expect '65,535 lines' sh -c "cd '$work' && [ \"\$('$top/voice' run long.vs | tail -n 1)\" = '65535 1 record: no journal-full 1048572 1048559' ]"
check '65,536 lines' 3 '' 'voice: line 65536 of the script is refused: more than 65535 lines
' run longer.vs

# Lines of comments alone take none of the numbers of entries.
(awk 'BEGIN { for (i = 1; i < 65535; i++) print "#" }' && echo '1 record empty.vs') >"$work/comments.vs"
check '65,534 comments and a line' 0 '1 1 record: rope 1 length 0
' '' run comments.vs

# A full standard output, and one that is closed by its reader.
status=0
(cd "$work" && "$top/voice" run first.vs) >/dev/full 2>"$work/.err" || status=$?
expect 'a full output' [ "$status" = 6 ]
expect 'a full output is told' [ "$(cat "$work/.err")" = 'voice: the output failed' ]
status=0
(cd "$work" && "$top/voice" --help) >/dev/full 2>"$work/.err" || status=$?
expect 'a full output at --help' [ "$status" = 6 ]

# A sample file that can't be read.
mkdir "$work/folder.ul"
printf '1 record folder.ul\n' >"$work/folder.vs"
check 'a folder in place of a file' 5 '' 'voice: the folder failed
' run folder.vs

# Nothing but the printed text and the disk is written.
before=$(ls -A "$work" | grep -v '^\.' | sort)
(cd "$work" && "$top/voice" run first.vs >/dev/null)
expect 'no file is made' [ "$before" = "$(ls -A "$work" | grep -v '^\.' | sort)" ]

expect 'help' sh -c "'$top/voice' --help | grep -q '^  voice run NAME'"
expect 'help is a page' [ "$("$top/voice" --help | wc -l)" -le 43 ]

# The lines that help shows are a script.
"$top/voice" --help | sed -n 's/^  CALLER .*  \([12] .*\)$/\1/p' >"$work/help.vs"
expect 'help shows seventeen lines' [ "$(wc -l <"$work/help.vs")" = 17 ]
rm -f "$work/voice.disk"
expect 'a run of which does all' sh -c "cd '$work' && ! '$top/voice' run help.vs | grep -q ': no'"
expect 'version' [ "$("$top/voice" --version)" = 'voice 0.1.0' ]
cp -r "$top/examples" "$work/examples"
expect 'the example' [ "$(cd "$work/examples" && "$top/voice" run first.vs)" = '1 1 record: rope 1 length 20' ]
finish
