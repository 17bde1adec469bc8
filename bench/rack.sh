#!/usr/bin/env bash
# rack.sh [N]: prints, as Markdown, the time of a round over 4, 8 and 16 nodes of this machine, on blocks of 4,032 darts, N rounds each, beside ping-pongs
# of messages of the same sizes between the same ranks in the same run.
set -eo pipefail
here=$(cd "$(dirname "$0")" && pwd)
root=$(cd "$here/.." && pwd)
rounds=${1:-2000}
ARCHIVE=$("$here/archive.sh")
export ARCHIVE
rack=$("$root/rack/build.sh")
[ -n "$rack" ] || exit 0
work=$(mktemp -d)
trap 'rm -rf "$work"' EXIT
cc -std=c11 -O2 -Wall -Wextra -Wpedantic -Werror -I "$root/include" "$here/rack/grid.c" "$ARCHIVE/libdmap.a" -o "$work/grid"
mpi=(mpirun)
if mpirun --version | grep -q 'Open MPI'; then
    mpi+=(--oversubscribe --mca mpi_yield_when_idle 1)
    [ "$(id -u)" != 0 ] || mpi+=(--allow-run-as-root)
fi
printf '%s processors, %s. Times are medians in microseconds; ping-pongs are there and back.\n\n' "$(nproc)" "$(mpirun --version | head -n 1)"
echo '| nodes | rounds | rounds a second | a round | nine of ten below | its calls | their part | ping-pong: request | transfer | update | bytes of a transfer | updates | bytes of one |'
echo '|---:|---:|---:|---:|---:|---:|---:|---:|---:|---:|---:|---:|---:|'
for k in 4 8 16; do
    mkdir "$work/$k"
    "$work/grid" $k "$rounds" "$work/$k" >"$work/$k.list"
    (cd "$work/$k" && "${mpi[@]}" -n $((k + 1)) "$rack" measure <"$work/$k.list")
done
