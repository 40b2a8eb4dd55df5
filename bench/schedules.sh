# The schedules that bench/replay.sh and bench/instructions.sh replay, each written to the standard output. Read by these, not run.

head='nodes a,b,c
initial a,b,c
boot a
boot b
boot c
startjoin a a 1
startjoin b a 1
startjoin c a 1'

# LINES lines in all, each after the header a delivery of a message that nobody sent.
unsent() {
    printf 'nodes a,b,c\ninitial a,b,c\n'
    yes 'deliver a 1' | head -n "$(($1 - 2))"
}

# LINES lines in all, most of them repeated deliveries of one join.
deliveries() {
    printf '%s\n' "$head"
    yes 'deliver a 1' | head -n "$(($1 - 8))"
}

# Rounds of an election, a value and its commit over five nodes, about LINES lines in all.
rounds() {
    awk -v lines="$1" 'BEGIN {
        print "nodes a,b,c,d,e"; print "initial a,b,c,d,e"
        split("a b c d e", n, " ")
        for (i = 1; i <= 5; i++) print "boot " n[i]
        m = 0; version = 0
        for (t = 1; 27 * t < lines; t++) {
            for (i = 1; i <= 5; i++) print "startjoin " n[i] " a " t
            for (i = 1; i <= 5; i++) print "deliver a " m + i
            m += 5; version++
            print "value a " version " x a,b,c,d,e"
            publish = ++m
            for (i = 1; i <= 5; i++) print "deliver " n[i] " " publish
            for (i = 1; i <= 5; i++) print "deliver a " m + i
            m += 5
            for (i = 1; i <= 5; i++) print "deliver " n[i] " " m + 1
            m += 3
        }
    }'
}

# Elections over so many VOTERS, of all of whom the first is elected in each term; about LINES lines in all.
elections() {
    awk -v lines="$1" -v voters="$2" 'BEGIN {
        for (i = 1; i <= voters; i++) { n[i] = sprintf("n%02d", i); list = list (i > 1 ? "," : "") n[i] }
        print "nodes " list; print "initial " list
        for (i = 1; i <= voters; i++) print "boot " n[i]
        for (t = 1; 2 * voters * t < lines; t++) {
            for (i = 1; i <= voters; i++) print "startjoin " n[i] " " n[1] " " t
            for (i = 1; i <= voters; i++) print "deliver " n[1] " " voters * (t - 1) + i
        }
    }'
}

# One node that starts LINES joins, each of which appends to its journal.
terms() {
    printf 'nodes a\ninitial a\nboot a\n'
    seq 1 "$1" | sed 's/^/startjoin a a /'
}

# Whole nodes: a is elected by five nodes, and then puts of a client, each with all that it takes until every node has applied it, and a tick of each
# node; about LINES lines in all. A put makes 15 frames: 5 publish requests, 5 responses and 5 commits.
puts() {
    awk -v lines="$1" 'BEGIN {
        print "nodes a,b,c,d,e"; print "initial a,b,c,d,e"
        split("a b c d e", n, " ")
        count = split("b c d e a a a a b c d e a a a a a b c d e a a a a a a b c a a a a b c a b c d e a a a a a a b c d e", to, " ")
        print "tick a 0 7"
        for (m = 1; m <= 8; m++) print "deliver " to[m] " " m
        print "tick a 10 7"; print "tick a 40 7"
        for (m = 9; m <= count; m++) print "deliver " to[m] " " m
        m = count
        for (round = 1; 21 * round < lines; round++) {
            print "client a {\"id\":" round ",\"put\":{\"key\":\"k\",\"value\":\"v" round "\"}}"
            for (i = 1; i <= 5; i++) print "deliver " n[i] " " m + i
            for (i = 6; i <= 10; i++) print "deliver a " m + i
            for (i = 1; i <= 5; i++) print "deliver " n[i] " " m + 10 + i
            for (i = 1; i <= 5; i++) print "tick " n[i] " 100 7"
            m += 15
        }
    }'
}
