# What was said in a week. Each recording is kept as long as a note names its key.
1 a = record hello.ul
1 retain listed plan a -
1 b = sub a 0 10
1 retain listed budget.1 b -
1 c = sub a 10 10
1 retain listed budget.2 c -

# No note names this one: the census of the notes lets it go.
1 d = sub a 5 5
1 retain listed aside d -
