#!/bin/bash
# The billing host: the static library as C programs meet it. It proves and builds the library, compiles the host and
# its checks with gcc, and runs both. A line 'ok NAME' or 'FAILED NAME' for each case, and 'N passed, M failed' last.
set -u
cd "$(dirname "${BASH_SOURCE[0]}")/.." || exit 1
mkdir -p build || exit 1
library=target/staticlib/libbilling.a
passed=0
failed=0
scratch=$(mktemp -d) || exit 1
trap 'rm -rf "$scratch"' EXIT

finish() {
    printf '%d passed, %d failed\n' "$passed" "$failed"
    [ "$failed" -eq 0 ] && [ "$passed" -gt 0 ]
    exit
}

told() {
    if [ "$1" -eq 0 ]; then
        printf 'ok host: %s\n' "$2"
        passed=$((passed + 1))
    else
        printf 'FAILED host: %s\n' "$2"
        failed=$((failed + 1))
    fi
}

# What must go right for the rest to be tried: says what it wrote if it does not.
must() {
    local what=$1
    shift
    if "$@" >"$scratch/log" 2>&1; then
        told 0 "$what"
    else
        cat "$scratch/log"
        told 1 "$what"
        finish
    fi
}

compile() {
    gcc -std=c11 -Wall -Wextra -Werror -O2 -Iinclude -o "build/$1" "host/$1.c" "$library"
}

must "the library is proved and built" tools/build library

# a host without a C library has to bring what the library asks for
[ "$(nm -u "$library" | awk '$1 == "U" { print $2 }' | sort | tr '\n' ' ')" = "memcpy memset " ]
told $? "the library asks for memcpy and memset alone"

must "main.c compiles" compile main
must "check.c compiles" compile check

# the checks, each counted as it was told
build/check >"$scratch/check" 2>&1
status=$?
cat "$scratch/check"
passed=$((passed + $(grep -c '^ok ' "$scratch/check")))
failed=$((failed + $(grep -c '^FAILED ' "$scratch/check")))
[ "$status" -eq 0 ] && grep -q '^ok host check: a second call' "$scratch/check"
told $? "check ran to its end"

# the host lists: its standard output is the text, and nothing else is said
lists() {
    local what=$1 text=$2
    shift 2
    build/main "$@" <"$scratch/rows" >"$scratch/out" 2>"$scratch/err"
    [ $? -eq 0 ] && printf "$text" | cmp -s - "$scratch/out" && [ ! -s "$scratch/err" ]
    told $? "$what"
}

# the host says on standard error, in a line that begins so, why there is no listing
tells() {
    local what=$1 status=$2 words=$3
    shift 3
    build/main "$@" <"$scratch/rows" >"$scratch/out" 2>"$scratch/err"
    [ $? -eq "$status" ] && [ ! -s "$scratch/out" ] && [ "$(wc -l <"$scratch/err")" -eq 1 ] && [[ $(cat "$scratch/err") == "$words"* ]]
    told $? "$what"
}

# suppliers 1 and 2 of day 9000, hour 1: 7541 and 75459 in stage 1, 87 and 13 in stage 2
printf '\x45\x48\x23\x28\x01\x01\x01\x00\x00\x00\x00\x00\x00\x1D\x75' >"$scratch/rows"
printf '\x45\x48\x23\x28\x01\x01\x02\x00\x00\x00\x00\x00\x01\x26\xC3' >>"$scratch/rows"
printf '\x45\x48\x23\x28\x01\x02\x01\x00\x00\x00\x00\x00\x00\x00\x57' >>"$scratch/rows"
printf '\x45\x48\x23\x28\x01\x02\x02\x00\x00\x00\x00\x00\x00\x00\x0D' >>"$scratch/rows"
worked='1 7628\n2 75472\nzone 83100\n'
lists "the worked listing from standard input" "$worked" 9000 1
lists "the worked listing from a file" "$worked" 9000 1 "$scratch/rows"
lists "an hour without rows" 'zone 0\n' 9000 2
tells "day out of range" 1 "host: refused with 10: " 60001 1
tells "hour out of range" 1 "host: refused with 10: " 9000 26
tells "no word" 2 "usage: host"
tells "one word" 2 "usage: host" 9000
tells "a word too many" 2 "usage: host" 9000 1 - -
tells "a day that is no number" 2 "usage: host" 9k 1
tells "an hour below 0" 2 "usage: host" 9000 -1
tells "a day that 32 bits do not hold" 2 "usage: host" 4294967296 1
tells "a file that is not there" 2 "host: " 9000 1 "$scratch/absent"
tells "a folder" 2 "host: " 9000 1 "$scratch"

cp "$scratch/rows" "$scratch/good"
printf 'E' >>"$scratch/rows"
tells "bytes that are not whole rows" 1 "host: refused with 30: " 9000 1
{ cat "$scratch/good"; printf '\x45\x49\x23\x28\x01\x02\x02\x00\x00\x00\x00\x00\x00\x00\x0D'; } >"$scratch/rows"
tells "an unknown mark" 1 "host: refused with 31: " 9000 1
{ cat "$scratch/good"; printf '\x45\x48\x23\x28\x01\x03\x02\x00\x00\x00\x00\x00\x00\x00\x0D'; } >"$scratch/rows"
tells "a stage that is none" 1 "host: refused with 32: " 9000 1
# four rows, doubled fourteen times, and four more
cp "$scratch/good" "$scratch/rows"
for _ in 1 2 3 4 5 6 7 8 9 10 11 12 13 14; do
    cat "$scratch/rows" "$scratch/rows" >"$scratch/twice"
    mv "$scratch/twice" "$scratch/rows"
done
lists "65,536 rows" '1 124977152\n2 1236533248\nzone 1361510400\n' 9000 1
cat "$scratch/good" >>"$scratch/rows"
tells "65,540 rows" 1 "host: refused with 27: " 9000 1
: >"$scratch/rows"
lists "no rows" 'zone 0\n' 9000 1
finish
