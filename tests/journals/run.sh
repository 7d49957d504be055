#!/bin/bash
# Runs the program on every journal here: NAME.journal must print NAME.expected and end with status 0;
# unreadable/NAME.journal must print nothing, tell 'journal: ', the line in NAME.error, ': ' and a reason, and end with status 1.
set -u
cd "$(dirname "${BASH_SOURCE[0]}")" || exit 1
program=../../target/bin/nookplover
scratch=$(mktemp -d) || exit 1
trap 'rm -rf "$scratch"' EXIT
failed=0

told() {
    if [ "$1" -eq 0 ]; then
        printf 'ok %s\n' "$2"
    else
        printf 'FAILED %s\n' "$2"
        failed=1
    fi
}

run() {
    "$program" run "$1" >"$scratch/out" 2>"$scratch/err" </dev/null
}

printed() {
    run "$1.journal" && cmp -s "$scratch/out" "$1.expected" && [ ! -s "$scratch/err" ]
}

refused() {
    run "$1.journal"
    [ $? -eq 1 ] && [ ! -s "$scratch/out" ] && [ "$(wc -l <"$scratch/err")" -eq 1 ] &&
        [[ $(cat "$scratch/err") == "journal: $(cat "$1.error"): "?* ]]
}

for journal in *.journal; do
    name=${journal%.journal}
    printed "$name"
    told $? "journal $name"
done
for journal in unreadable/*.journal; do
    name=${journal%.journal}
    refused "$name"
    told $? "journal $name"
done
exit $failed
