#!/bin/bash
# Proves every crate from nothing, and writes how long each check took into the table of docs/ARCHITECTURE.md. For a machine with no other work.
set -eo pipefail
cd "$(dirname "$0")/.."
log=$(mktemp)
trap 'rm -f "$log"' EXIT
start=$SECONDS
rt prove | tee "$log" | grep '^rt: '
awk -v total=$((SECONDS - start)) '
    NR == FNR { if ($0 ~ /^rt: [a-z_]+ proved \([0-9]+ s\)$/) { gsub(/[()]/, ""); time[$2] = $4 }; next }
    /^\| `[a-z_]+` \|/ { name = $2; gsub(/`/, "", name); if (name in time) { sub(/\| [^|]*\|$/, "| " time[name] " |") } }
    /^All of them took / { print "All of them took " int(total / 60 + 0.5) " minutes when it was last done."; next }
    { print }
' "$log" docs/ARCHITECTURE.md >"$log.md"
mv "$log.md" docs/ARCHITECTURE.md
