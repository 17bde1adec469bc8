#!/bin/bash
# Builds the example programs over the archive, and holds what they print to the stored output.
set -eo pipefail
here=$(cd "$(dirname "$0")" && pwd)
root=$here/..
out=$(mktemp -d)
trap 'rm -rf "$out"' EXIT
lib=$("$root/bench/archive.sh")
for program in transfer round; do
    cc -std=c11 -O2 -Wall -Wextra -Wpedantic -Werror -I "$root/include" "$here/$program.c" "$lib/libdmap.a" -o "$out/$program"
done
rustc --edition 2021 -O -D warnings -L "native=$lib" "$here/transfer.rs" -o "$out/rust"
"$out/transfer" "$root/crates/list/stdin" | diff - "$here/transfer.c.stdout"
"$out/rust" "$root/crates/list/stdin" | diff - "$here/transfer.rust.stdout"
"$out/round" 0 2 333 "$here"/basin/block-*.dmap | diff - "$here/round.stdout"
echo 'the examples print what is stored'
