#!/bin/bash
# Prints ns a row for taking rows in and listing an hour over them: the proved library, called as a C host
# calls it, beside the same work in plain Rust. Not a test: it fails only where the two answer differently.
set -eu
cd "$(dirname "${BASH_SOURCE[0]}")/.."
tools/build library
mkdir -p build
rustc -O --edition 2024 -L native=target/staticlib -o build/bench bench/plain/bench.rs
build/bench
