#!/bin/bash
# Builds the bench crate over groups in a folder of its own, links it with bench.c, and prints times and ratios.
set -e
here=$(cd "$(dirname "$0")" && pwd)
work=${1:-/tmp/groups-bench}
mkdir -p "$work/crates/bench/src"
ln -sfn "$here/../../crates/model" "$work/crates/model"
ln -sfn "$here/../../crates/groups" "$work/crates/groups"
printf 'model:\ngroups: model\nbench: groups model\n' > "$work/crates.txt"
cp "$here/crate/lib.rt.txt" "$work/crates/bench/src/lib.rt"
for f in "$here"/crate/*.antt.txt; do
    name=$(basename "$f" .antt.txt)
    mkdir -p "$work/crates/bench/proofs/$name"
    cp "$f" "$work/crates/bench/proofs/$name/Proof.antt"
done
cd "$work"
rt staticlib bench > staticlib.log 2>&1 || { tail -5 staticlib.log; exit 1; }
clang -O3 -o run "$here/bench.c" target/staticlib/libbench.a
./run
