#!/usr/bin/env bash
# The example programs in C and Rust, built over the archive, print what is stored.
set -euo pipefail
cd "$(dirname "$0")/.."
if ! said=$(examples/run.sh 2>&1); then
    printf '%s\n' "$said"
    exit 1
fi
echo 'examples: C and Rust print what is stored'
