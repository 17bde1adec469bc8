#!/usr/bin/env bash
# The archive against the second implementation on drawn cases: answer and every lent byte; every answer of every call comes.
set -euo pipefail
cd "$(dirname "$0")/.."
if ! said=$(bench/compare/run.sh 1 40000 2>&1); then
    printf '%s\n' "$said"
    exit 1
fi
echo "compare: the archive and the second implementation, ${said##*$'\n'}"
