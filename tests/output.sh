#!/bin/bash
# What is written where the output does not take all: nothing after a write that failed, and no line but the last in part.
set -u
cd "$(dirname "${BASH_SOURCE[0]}")/.." || exit 1
program=target/bin/nookplover
scratch=$(mktemp -d) || exit 1
trap 'rm -rf "$scratch"' EXIT
failed=0

told() {
    if [ "$1" -eq 0 ]; then
        printf 'ok %s\n' "$2"
    else
        printf 'FAILED %s\n' "$2"
        failed=1
    fi
}

# says on standard error, in one line, that the output cannot be written, and ends with status 1
tells() {
    [ "$1" -eq 1 ] && [ "$(wc -l <"$scratch/err")" -eq 1 ] && [[ $(cat "$scratch/err") == "nookplover: the output cannot be written: "* ]]
}

for ((i = 0; i < 5000; i++)); do printf 'open 0 0\n'; done >"$scratch/journal"
for ((i = 0; i < 5000; i++)); do printf 'open 0 0 -> refused 10 1 0\n'; done >"$scratch/expected"
printf 'end: 0 rows, 65536 free, 0 entries\n' >>"$scratch/expected"

"$program" run "$scratch/journal" >"$scratch/out" 2>"$scratch/err" </dev/null
[ $? -eq 0 ] && cmp -s "$scratch/out" "$scratch/expected" && [ ! -s "$scratch/err" ]
told $? "output of more than one write"

"$program" run "$scratch/journal" >/dev/full 2>"$scratch/err" </dev/null
tells $?
told $? "output on a full device"

gcc -std=c11 -Wall -Wextra -Werror -shared -fPIC -o "$scratch/fails_once.so" tests/fails_once.c
for journal in "$scratch/journal" examples/listing.journal; do
    LD_PRELOAD="$scratch/fails_once.so" "$program" run "$journal" >"$scratch/out" 2>"$scratch/err" </dev/null
    tells $? && [ ! -s "$scratch/out" ]
    told $? "output after a write that failed: $(basename "$journal")"
done

# a pipe that does not block and is read when the program has ended: it takes its first 65,536 bytes
python3 - "$program" "$scratch/journal" "$scratch/out" "$scratch/err" <<'PYTHON'
import fcntl, os, subprocess, sys
program, journal, out, err = sys.argv[1:]
ends, begins = os.pipe()
fcntl.fcntl(begins, fcntl.F_SETFL, fcntl.fcntl(begins, fcntl.F_GETFL) | os.O_NONBLOCK)
with open(err, "wb") as told:
    ran = subprocess.run([program, "run", journal], stdin=subprocess.DEVNULL, stdout=begins, stderr=told, timeout=60)
os.close(begins)
with os.fdopen(ends, "rb") as pipe, open(out, "wb") as kept:
    kept.write(pipe.read())
sys.exit(ran.returncode)
PYTHON
tells $? && head -c 65536 "$scratch/expected" | cmp -s - "$scratch/out"
told $? "output into a pipe that does not block"
exit $failed
