#!/bin/bash
# Prints ns a row for taking rows in and listing an hour over them, and ns a line for settling an hour and for a peak run: the
# proved library beside the same work in plain Rust. Not a test: it fails only where the two answer differently.
# With a word it runs only that part: listing, or settling; settling takes a number of lines too, and then runs that size alone.
set -eu
cd "$(dirname "${BASH_SOURCE[0]}")/.."
kit=$(dirname "$(dirname "$(rt doc)")")
mkdir -p build
plain=(rustc -O --edition 2024 -C link-arg="$kit/lib/librattle_c.a")

listing() {
    rt staticlib billing
    "${plain[@]}" -L native=target/staticlib -o build/bench bench/plain/bench.rs
    build/bench
}

# The C calls of settling are for the benchmark alone, so their crate is no part of the repository: it is added to a copy of it, which
# takes over what target/ has proved.
settling() {
    copy=$(mktemp -d)
    trap 'rm -rf "$copy"' EXIT
    cp -r crates "$copy"
    if [ -d target/stamp ]; then
        mkdir "$copy/target"
        cp -r target/inc target/rlib target/stamp target/log "$copy/target"
    fi
    mkdir -p "$copy/crates/settle_bench/src"
    cp bench/library/settle_bench.rt.txt "$copy/crates/settle_bench/src/lib.rt"
    { cat crates.txt; echo 'settle_bench: archive book refusals rows rules'; } > "$copy/crates.txt"
    (cd "$copy" && rt staticlib settle_bench)
    "${plain[@]}" --cfg library --check-cfg 'cfg(library)' -L native="$copy/target/staticlib" -o build/settle bench/plain/settle.rs
    build/settle "$@"
}

case ${1-all} in
    listing) listing ;;
    settling) shift; settling "$@" ;;
    all) listing; settling ;;
    *) echo "usage: bench/run.sh [listing | settling [LINES]]" >&2; exit 2 ;;
esac
