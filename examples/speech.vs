# Two sentences of synthetic speech with a second of silence between them: where there is talk, and how loud it is.
1 a = record speech.ul
1 describe a
1 levels a
