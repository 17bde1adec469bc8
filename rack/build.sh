#!/usr/bin/env bash
# Builds the driver of the rack over the archive, as target/rack/rack, and prints its path. Where there is no MPI: one line on standard error that says
# what to install, and nothing else.
set -euo pipefail
here=$(cd "$(dirname "$0")" && pwd)
root=$(cd "$here/.." && pwd)
command -v mpicc >/dev/null && command -v mpirun >/dev/null || { echo 'rack: not built, there is no MPI here: install libopenmpi-dev and openmpi-bin, or mpich' >&2; exit 0; }
lib=$("$root/bench/archive.sh")
mkdir -p "$root/target/rack"
mpicc -std=c11 -D_POSIX_C_SOURCE=200809L -O2 -Wall -Wextra -Wpedantic -Werror -I "$root/include" "$here"/*.c "$lib/libdmap.a" -o "$root/target/rack/rack"
echo "$root/target/rack/rack"
