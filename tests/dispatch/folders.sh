# Folders with the basin's files, and runs that are stopped. Sourced by tests of the dispatcher's program, with work, basin, dispatch and stored set.
# A folder with the basin's files.
fresh() { rm -rf "$work/$1"; mkdir "$work/$1"; cp "$basin"/block-*.dmap "$work/$1"; cd "$work/$1"; }

# Whether two folders hold the same files.
same() { diff -r "$1" "$2" >/dev/null; }

# Runs a command that is stopped at one of its calls on files: killed, on a full disk, or made to wait.
cc -shared -fPIC -O1 -o "$work/stop.so" "$stored/stop.c" -ldl
stopping() { (LD_PRELOAD="$work/stop.so" STOP_HOW=$1 STOP_AT=$2 "$dispatch" "${@:3}"; exit $?) 2>/dev/null || return $?; }
