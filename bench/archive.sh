#!/bin/bash
# Prints the folder of the archive libdmap.a: the one that ARCHIVE names, or target/staticlib, where it is built first, as crate dmap_c.
set -eo pipefail
root=$(cd "$(dirname "$0")/.." && pwd)
if [ -z "$ARCHIVE" ]; then
    (cd "$root/crates/dmap_c" && rt lib 2>&1 | tail -1) >&2
    ARCHIVE=$root/target/staticlib
    mkdir -p "$ARCHIVE"
    cp "$root/crates/dmap_c/out/libdmap_c.a" "$ARCHIVE/libdmap.a"
fi
echo "$ARCHIVE"
