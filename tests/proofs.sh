#!/usr/bin/env bash
# A proof file names the facts that it cites (docs/PROVING.md): it counts at most three places back, and its lines can be read.
set -euo pipefail
cd "$(dirname "$0")/.."
export LC_ALL=C.UTF-8

chains=$(grep -rlzE --include=Answers.antt --include=Proof.antt '(\.before[[:space:]]*){4}' crates || true)
[ -z "$chains" ] || { printf 'proofs: more than three .before in a row:\n%s\n' "$chains"; exit 1; }

long=$(find crates -path '*/proofs/*' -name '*.antt' -not -path '*/out/*' -exec grep -nHE '.{301}' {} + | grep -vE '^[^:]*:[0-9]+:use ' | cut -d: -f1,2 || true)
[ -z "$long" ] || { printf 'proofs: a line of more than 300 characters:\n%s\n' "$long"; exit 1; }

echo "proofs: facts go by name in $(find crates -name Answers.antt -not -path '*/out/*' | wc -l) files"
