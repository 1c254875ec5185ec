# Caller 1 leaves a message, and keeps it under a key.
1 a = record hello.ul
1 retain held mail.1 a 6869

# Caller 2 finds it by the key and hears it on lane 0: what is heard goes into the file heard.ul.
2 v = lookup held mail.1
2 play 0 v 0 20 heard.ul
2 forget held mail.1

# A day later the message is swept.
1 advance 86400
1 sweep 100
