#!/usr/bin/env bash
# The dispatcher's program on the basin of examples/: every command and every error prints what is stored; a run that is stopped at any call
# on a file, or meets a full disk there, leaves the old basin or the new one, and shows it before and after it is mended.
set -euo pipefail
cd "$(dirname "$0")/.."
dispatch=$PWD/crates/dispatch/out/dispatch
bin=$PWD/bin/dispatch
basin=$PWD/examples/basin
stored=$PWD/tests/dispatch
work=$(mktemp -d)
trap 'chmod -R u+w "$work"; rm -rf "$work"' EXIT
source "$stored/folders.sh"

source "$stored/commands.sh" >"$work/said" 2>&1
diff "$work/said" "$stored/said" || { echo 'dispatch: another output than is stored'; exit 1; }

# The calls on files of a save of sixteen blocks, the lock's before and behind it: those of its plan (crate saving), to the last.
planned() {
    printf '%s\n' 'open basin.lock' 'open basin.lock' 'open basin.lock' write keep
    for b in {00..15}; do printf '%s\n' "open block-$b.dmap.new" write keep; done
    printf '%s\n' 'open basin.commit.new' write keep keep 'rename basin.commit.new basin.commit' keep
    for b in {00..15}; do echo "rename block-$b.dmap.new block-$b.dmap"; done
    printf '%s\n' keep 'remove basin.commit' keep 'remove basin.lock'
}
fresh blocks
(export LD_PRELOAD="$work/stop.so" STOP_LOG="$work/calls"; "$dispatch" add 16 >/dev/null)
planned | diff - "$work/calls" || { echo 'dispatch: a save of sixteen blocks is not carried out as it is planned'; exit 1; }

# What a balance leads to.
fresh new; "$dispatch" balance all >/dev/null
fresh old
"$dispatch" check >"$work/old.check"
(cd "$work/new" && "$dispatch" check >"$work/new.check")
stops=0

# A balance stopped at a call; what a reader sees then, what a command that mends and is itself stopped leaves, and what one that is not
# stopped leaves. Whether the balance was stopped at all.
stopped() {
    fresh run
    stopping "$1" "$2" balance all >/dev/null && [ "$1" = kill ] && return 1
    "$dispatch" check >"$work/told" 2>&1
    cmp -s "$work/told" "$work/old.check" || cmp -s "$work/told" "$work/new.check" || { echo "dispatch: a reader sees neither basin after call $2 ($1)"; cat "$work/told"; exit 1; }
    stopping kill $((1 + RANDOM % 9)) play </dev/null >/dev/null || true
    "$dispatch" play </dev/null >/dev/null
    "$dispatch" check | cmp -s - "$work/told" || { echo "dispatch: mending changed what a reader sees, after call $2 ($1)"; exit 1; }
    same . "$work/old" || same . "$work/new" || { echo "dispatch: neither the old basin nor the new one after call $2 ($1)"; exit 1; }
    stops=$((stops + 1))
}

calls=0
while stopped kill $((calls + 1)); do calls=$((calls + 1)); done
for ((call = 1; call <= calls; call++)); do stopped full "$call"; done
[ "$calls" -gt 15 ] || { echo "dispatch: stopped at $calls calls only"; exit 1; }
echo "dispatch: every command prints what is stored; stopped $stops times, always the old basin or the new one"
