#!/bin/bash
# run.sh [block, viewer, mesh or growth]: prints, as Markdown, the times of every public call of the archive beside the plain version and a copy of what it works on.
set -eo pipefail
here=$(cd "$(dirname "$0")" && pwd)
ARCHIVE=$("$here/archive.sh")
export ARCHIVE
cargo run --quiet --release --offline --manifest-path "$here/Cargo.toml" -- "$@"
