#!/usr/bin/env bash
# A viewer's small memory: the stack that its calls touch, at most 65,536 bytes; the code and the constants of a program that makes its calls alone,
# at most so many bytes (MOST_CODE, MOST_CONSTANTS), none of the rack's calls among them.
set -euo pipefail
cd "$(dirname "$0")/.."
most_code=${MOST_CODE:-131072}
most_constants=${MOST_CONSTANTS:-16384}
lib=$(bench/archive.sh)
work=$(mktemp -d)
trap 'rm -rf "$work"' EXIT
fail() { echo "viewer: $*"; exit 1; }
flags=(-std=c11 -O2 -Wall -Wextra -Wpedantic -Werror -I include)
cc "${flags[@]}" tests/viewer/stack.c "$lib/libdmap.a" -o "$work/stack"
said=$("$work/stack") || { printf '%s\n' "$said"; fail 'a call needs too much stack, or answers otherwise'; }
stack=$(awk '{ if ($2 > most) most = $2 } END { print most }' <<<"$said")
printf '%s\n' "$said"

# The same program without the calls, so that what the C library brings is left out.
cc "${flags[@]}" -ffunction-sections -fdata-sections -Wl,--gc-sections tests/viewer/only.c "$lib/libdmap.a" -o "$work/only"
echo 'int main(void) { return 0; }' >"$work/none.c"
cc "${flags[@]}" -ffunction-sections -fdata-sections -Wl,--gc-sections "$work/none.c" -o "$work/none"
size "$work/only"
section() { size -A "$1" | awk -v name="$2" '$1 == name || index($1, name ".") == 1 { n += $2 } END { print n + 0 }'; }
code=$(($(section "$work/only" .text) - $(section "$work/none" .text)))
constants=$(($(section "$work/only" .rodata) + $(section "$work/only" .data.rel.ro) - $(section "$work/none" .rodata) - $(section "$work/none" .data.rel.ro)))
nm "$work/only" | grep -E ' dmap_(empty|read_file|save_file|write_pages|read_pages|send|receive|release|redirect|check_mesh|next_move)$' && fail 'a call of the rack is linked'
[ "$code" -le "$most_code" ] || fail "$code bytes of code, more than $most_code"
[ "$constants" -le "$most_constants" ] || fail "$constants bytes of constants, more than $most_constants"
echo "viewer: its calls touch at most $stack bytes of stack; alone they are $code bytes of code and $constants of constants"
