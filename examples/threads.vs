# Two callers at once: with --threads behind the script's name each has a thread of its own.
1 a = record speech.ul
1 retain held speech.1 a -
1 queue 0 a 0 8000
1 stop 0

2 b = record dictation.ul
2 c = sub b 0 4000
2 describe c
2 retain held dictation.1 c -
2 lookup held dictation.1
