#!/usr/bin/env bash
# The second implementation's own tests.
set -euo pipefail
cd "$(dirname "$0")/../peer"
if ! said=$(cargo test --quiet --release --offline 2>&1); then
    printf '%s\n' "$said"
    exit 1
fi
echo "peer: $(grep -o '[0-9]* passed' <<<"$said" | awk '{ n += $1 } END { print n }') tests passed"
