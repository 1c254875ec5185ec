# Caller 1 leaves a message, and keeps it under a key until it is heard.
1 a = record hello.ul
1 retain held mail.1 a 6869

# Caller 2 finds it by the key, and makes a rope of its first half and the whole.
2 v = lookup held mail.1
2 h = sub v 0 10
2 n = concat h v

# The new rope is kept until moment 86400, and the message goes.
2 retain until note.1 n 0000000000015180
2 forget held mail.1

# A day later the two ropes that nobody keeps are removed; the third one has lost its last interest just now, and waits its grace.
1 advance 86400
1 sweep 100
1 advance 172800
1 sweep 100
