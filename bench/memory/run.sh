#!/bin/bash
# Builds the exported functions in a repository of its own, links the bench to the archive and runs it.
set -e
here=$(cd "$(dirname "$0")" && pwd)
repo=$(mktemp -d)
mkdir -p "$repo/crates/exports/src"
for c in model laws answers memory sort; do cp -r "$here/../../crates/$c" "$repo/crates/$c"; rm -rf "$repo/crates/$c/must-fail"; done
cp "$here/exports.txt" "$repo/crates/exports/src/lib.rt"
printf 'model:\nlaws: model\nanswers: model\nmemory: model laws answers\nsort: model laws\nexports: model laws answers memory sort\n' > "$repo/crates.txt"
cd "$repo" && rt staticlib exports | tail -2
g++ -O3 "$here/bench.cpp" target/staticlib/libexports.a -o bench
./bench
rm -rf "$repo"
