#!/usr/bin/env bash
# The archive for C needs memcpy and memset from outside at most.
set -euo pipefail
cd "$(dirname "$0")/.."
lib=$(bench/archive.sh)
more=$(nm -u "$lib/libdmap.a" | awk '$1 == "U" { print $2 }' | sort -u | { grep -vxE 'memcpy|memset' || true; } | xargs)
[ -z "$more" ] || { echo "archive: from outside it needs $more too"; exit 1; }
echo 'archive: from outside it needs memcpy and memset at most'
