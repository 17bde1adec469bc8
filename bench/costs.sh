#!/bin/bash
# costs.sh CRATE: checks one crate from nothing, and prints the seconds that went by at each of its functions and proof files, most first.
set -eo pipefail
cd "$(dirname "$0")/.."
[ $# -eq 1 ] || { echo 'usage: bench/costs.sh CRATE' >&2; exit 2; }
rm -rf "target/inc/$1"
rt dev "$1" | tail -1
# A module's file is written when the module is checked, so the time since the file before it is the module's.
find "target/inc/$1" -name "Rattle·$1*.oantt" -not -path '*/records/*' -printf '%T@ %f\n' | sort -n | awk '
    {
        sub(/\.oantt$/, "", $2)
        sub(/^Rattle·[a-z_]+(·(proofs|specs)\.(proofs|specs))?\.?/, "", $2)
        sub(/\.(Lts|Tie|Proof|Statement|Reads|Mir|Code|Layout|Kinds|Met|Key|Symbol|Named)$/, "", $2)
        if (NR > 1) spent[$2] += $1 - last
        last = $1
    }
    END { for (name in spent) if (spent[name] >= 0.5) printf "%6.1f  %s\n", spent[name], name }
' | sort -rn
