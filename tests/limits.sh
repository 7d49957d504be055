#!/bin/bash
# Journals too long to keep: the largest archive and the largest roster, at both sides of their last place.
set -u
cd "$(dirname "${BASH_SOURCE[0]}")/.." || exit 1
program=target/bin/nookplover
scratch=$(mktemp -d) || exit 1
trap 'rm -rf "$scratch"' EXIT
failed=0

told() {
    if "$program" run "$scratch/journal" >"$scratch/out" 2>"$scratch/err" && cmp -s "$scratch/out" "$scratch/expected" && [ ! -s "$scratch/err" ]; then
        printf 'ok %s\n' "$1"
    else
        printf 'FAILED %s\n' "$1"
        failed=1
    fi
}

# 65,536 rows, each of 1 for supplier 32 in the same hour, and one more.
awk -v journal="$scratch/journal" -v expected="$scratch/expected" 'BEGIN {
    row = "454823280702200000000000000001"
    print "archive bytes 2000000" > journal
    for (i = 1; i <= 65537; i++) print "takein " row > journal
    print "list 9000 7\nlist 9000 8" > journal
    for (i = 1; i <= 65536; i++) print "takein " row " -> 1 rows" > expected
    print "takein " row " -> refused 27 4 0" > expected
    print "list 9000 7 -> 20\n32 65536\nzone 65536\nlist 9000 8 -> 7\nzone 0" > expected
    print "end: 65536 rows, 0 free, 0 entries" > expected
}'
told "limits 65536 rows"

# One account that changes its supplier on every day from 1 to 60,000, another on 5,536 days, and one more entry.
awk -v journal="$scratch/journal" -v expected="$scratch/expected" 'BEGIN {
    print "roster 1000000" > journal
    for (i = 1; i <= 65537; i++) {
        account = i <= 60000 ? 1 : 2
        day = i <= 60000 ? i : i - 60000
        call = (day == 1 ? "enrol " : "switch ") account " " day " " 1 + day % 2
        print call > journal
        print call " -> " (i <= 65536 ? "ok" : "refused 11 1 0") > expected
    }
    print "drop 3 1\nenrol 3 1 33" > journal
    print "drop 3 1 -> refused 11 1 0\nenrol 3 1 33 -> refused 10 1 0" > expected
    print "end: 0 rows, 65536 free, 65536 entries" > expected
}'
told "limits 65536 entries"

# Every day opened, every third turned, and every ninth closed.
awk -v journal="$scratch/journal" -v expected="$scratch/expected" 'BEGIN {
    for (i = 1; i <= 60000; i++) { print "open " i " 24" > journal; print "open " i " 24 -> ok" > expected }
    for (i = 3; i <= 60000; i += 3) { print "turn " i > journal; print "turn " i " -> ok" > expected }
    for (i = 9; i <= 60000; i += 9) { print "close " i > journal; print "close " i " -> 16777215" > expected }
    for (i = 1; i <= 60000; i++) if (i % 9) print "open at end " i " " (i % 3 ? 1 : 2) > expected
    print "end: 0 rows, 65536 free, 0 entries" > expected
}'
told "limits 60000 days"
exit $failed
