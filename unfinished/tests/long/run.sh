#!/bin/bash
# Long random journals, the same at every run. What the program prints must be what the model prints (model.py), and, told from
# the output alone, its rows must add up to the zone loads and to the loads of each supplier's accounts (adds_up.py).
set -u
cd "$(dirname "${BASH_SOURCE[0]}")" || exit 1
program=../../target/bin/nookplover
scratch=$(mktemp -d) || exit 1
trap 'rm -rf "$scratch"' EXIT
export PYTHONDONTWRITEBYTECODE=1
failed=0

told() {
    if [ "$1" -eq 0 ]; then
        printf 'ok %s\n' "$2"
    else
        printf 'FAILED %s\n' "$2"
        failed=1
    fi
}

printed() {
    python3 model.py "$scratch/journal" >"$scratch/expected" &&
        "$program" run "$scratch/journal" >"$scratch/out" 2>"$scratch/err" </dev/null &&
        cmp "$scratch/out" "$scratch/expected" && [ ! -s "$scratch/err" ]
}

for journal in "ordinary 1" "ordinary 2" "again 1" "again 2" "table 1" "table 2" "narrow 1" "narrow 2" "large 1" "large 2" "whole"; do
    rm -f "$scratch/out"
    # shellcheck disable=SC2086
    python3 make.py $journal >"$scratch/journal" && printed
    told $? "long $journal: as the model"
    python3 adds_up.py "$scratch/out"
    told $? "long $journal: rows add up"
    cat "$scratch/out" >>"$scratch/all"
done

# The journals are no test of a refusal that they do not meet.
for cause in "10 1" "10 2" "10 4" "11 1" "12 1" "13 1" "13 2" "14 1" "15 1" "16 1" "17 1" "20 2" "21 2" "22 2" "23 3" "24 3" "25 3" \
    "26 4" "27 4" "30 4" "31 4" "32 4" "33 4"; do
    grep -q -- "-> refused $cause " "$scratch/all"
    told $? "long refusal ${cause% *} of layer ${cause#* } is met"
done
exit $failed
