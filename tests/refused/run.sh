#!/bin/sh
# Programs that misuse a slip must be refused before they run. Each NAME.txt beside this script is such a program: its first
# line names the error that the compiler must answer with; a line that ends in `// wrong` is the misuse, one that ends in
# `// right` stands in its place in the same program corrected, which must pass. So a test can fail either way.
# The programs are made in a temporary repository, beside a copy of the crates; what is proved of these is not proved again.
set -u
here=$(cd "$(dirname "$0")" && pwd)
root=$(cd "$here/../.." && pwd)
work=$(mktemp -d)
trap 'rm -rf "$work"' EXIT
cp "$root/crates.txt" "$work" || exit 2
mkdir "$work/crates"
(cd "$root/crates" && tar -c --exclude=./*/out .) | tar -x -C "$work/crates" || exit 2
echo 'case: book refusals' >> "$work/crates.txt"
mkdir -p "$work/crates/case/src"
cd "$work/crates/case" || exit 2

# The program of a text, with the lines of one kind and without the mark.
program() {
    sed -e "/\/\/ $2\$/d" -e "s/ *\/\/ $1\$//" "$here/$3.txt" > src/lib.rt
}

passed=0
failed=0
say() {
    if [ "$3" = yes ]; then
        echo "ok refused $1: $2"
        passed=$((passed + 1))
    else
        echo "FAILED refused $1: $2"
        failed=$((failed + 1))
    fi
}

for text in "$here"/*.txt; do
    name=$(basename "$text" .txt)
    error=$(sed -n '1s/^\/\/ refused: //p' "$text")
    program wrong right "$name"
    if rt check > ../../answer 2>&1; then
        say "$name" "NOT REFUSED" no
    elif ! grep -q "error\[$error\]" ../../answer; then
        say "$name" "refused, but not as $error: $(grep -m 1 error ../../answer)" no
    else
        program right wrong "$name"
        if rt check > ../../answer 2>&1; then
            say "$name" "refused as $error; passes once it is corrected" yes
        else
            say "$name" "THE CORRECTED PROGRAM IS REFUSED: $(grep -m 1 error ../../answer)" no
        fi
    fi
done
[ "$failed" -eq 0 ] && [ "$passed" -gt 0 ]
