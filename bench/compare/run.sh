#!/bin/bash
# run.sh SEED N: compares the archive with the second implementation on N drawn cases, answer and every lent byte.
set -eo pipefail
here=$(cd "$(dirname "$0")" && pwd)
ARCHIVE=$("$here/../archive.sh")
export ARCHIVE
cargo run --quiet --release --offline --manifest-path "$here/Cargo.toml" -- "$@"
