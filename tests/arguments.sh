#!/bin/bash
# The program's words: where it takes its journal from, and what it says to anything else.
set -u
cd "$(dirname "${BASH_SOURCE[0]}")/.." || exit 1
program=target/bin/nookplover
journal=tests/journals/listing.journal
expected=tests/journals/listing.expected
scratch=$(mktemp -d) || exit 1
trap 'rm -rf "$scratch"' EXIT
failed=0

told() {
    if [ "$1" -eq 0 ]; then
        printf 'ok %s\n' "$2"
    else
        printf 'FAILED %s\n' "$2"
        failed=1
    fi
}

# runs the listing journal, whichever way it comes in
prints() {
    [ "$1" -eq 0 ] && cmp -s "$scratch/out" "$expected" && [ ! -s "$scratch/err" ]
}

# a line on standard error that begins so, nothing on standard output, status 1
tells() {
    [ "$1" -eq 1 ] && [ ! -s "$scratch/out" ] && [ "$(wc -l <"$scratch/err")" -eq 1 ] && [[ $(cat "$scratch/err") == "$2"* ]]
}

"$program" run "$journal" >"$scratch/out" 2>"$scratch/err" </dev/null
prints $?
told $? "arguments run FILE"
"$program" run - >"$scratch/out" 2>"$scratch/err" <"$journal"
prints $?
told $? "arguments run -"
"$program" >"$scratch/out" 2>"$scratch/err" <"$journal"
prints $?
told $? "arguments none"
cat "$journal" | "$program" run - >"$scratch/out" 2>"$scratch/err"
prints $?
told $? "arguments run - from a pipe"

for words in "run" "walk" "-" "walk $journal" "run $journal $journal" "run - -" "--help"; do
    # shellcheck disable=SC2086
    "$program" $words >"$scratch/out" 2>"$scratch/err" <"$journal"
    tells $? "usage: nookplover"
    told $? "arguments $words: usage"
done

"$program" run "$scratch/absent.journal" >"$scratch/out" 2>"$scratch/err" </dev/null
tells $? "nookplover: "
told $? "arguments run on a file that is not there"
"$program" run "$scratch" >"$scratch/out" 2>"$scratch/err" </dev/null
tells $? "nookplover: "
told $? "arguments run on a folder"
exit $failed
