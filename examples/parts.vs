# A message is there already.
1 m = record hello.ul

# Two calls come in, each on a lane of its own, and are recorded piece by piece.
1 begin 0
1 add 0 hello.ul
2 begin 1
2 add 1 dictation.ul
1 add 0 hello.ul

# A lane that records plays nothing.
1 queue 0 m 0 20

# Each recording becomes a rope at its end. The first one is kept, and heard on the lane where it was recorded.
2 d = end 1
2 describe d
1 a = end 0
1 retain held call.1 a -
1 play 0 a 0 40 parts.ul
