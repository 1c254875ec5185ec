# A dictation of a second and a half: talk, half a second of silence, talk.
1 a = record dictation.ul
1 describe a

# The silence is cut out: the two parts of talk are put together.
1 x = sub a 0 4000
1 y = sub a 8000 4000
1 b = concat x y
1 describe b

# How loud it is where the two parts meet: the last window of the first, and the first of the second.
1 m = sub b 3840 320
1 levels m

# The cut dictation is kept, and the rest goes a day later.
1 retain held dictation.1 b -
1 advance 86400
1 sweep 100
