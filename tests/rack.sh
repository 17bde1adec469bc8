#!/usr/bin/env bash
# rack.sh [KILLS]: the driver of the rack over MPI, with 4 and with 16 nodes on this machine, against the dispatcher's program on the same lists: what
# is printed and every file; what one began the other ends; one folder and one for each node; altered messages; runs that are killed.
set -euo pipefail
cd "$(dirname "$0")/.."
root=$PWD
kills=${1:-5}
command -v mpicc >/dev/null && command -v mpirun >/dev/null || { echo 'rack: left out, there is no MPI here (libopenmpi-dev and openmpi-bin, or mpich)'; exit 0; }
dispatch=$PWD/crates/dispatch/out/dispatch
basin=$PWD/examples/basin
stored=$PWD/tests/dispatch
work=$(mktemp -d)
# Runs that are killed leave files of the MPI behind, which go with these folders.
shared=$(mktemp -d -p /dev/shm 2>/dev/null || mktemp -d)
export TMPDIR=$work
trap 'rm -rf "$work" "$shared"' EXIT
source "$stored/folders.sh"
fail() { echo "rack: $*"; exit 1; }
rack=$(rack/build.sh)
mpicc -shared -fPIC -O1 -Wall -Werror -o "$work/alter.so" tests/rack/alter.c
cc -shared -fPIC -O1 -Wall -Werror -o "$work/stop-rank.so" tests/rack/stop.c -ldl

# Open MPI: more ranks than processors, as any user, and quiet where a status is not 0. Other MPIs need none of it.
mpi=(mpirun)
if mpirun --version | grep -q 'Open MPI'; then
    mpi+=(-q --oversubscribe --mca mpi_yield_when_idle 1 --mca odls_base_sigkill_timeout 0 --mca btl_vader_backing_directory "$shared")
    [ "$(id -u)" != 0 ] || mpi+=(--allow-run-as-root)
fi
# K nodes, words; in this folder.
rack() { local k=$1; shift; "${mpi[@]}" -n $((k + 1)) "$rack" "$@"; }
# Sixteen nodes, each in its folder of this one, the coordinator in its own: a list of arguments, since it may be run beside this script.
each_alone() {
    alone=("${mpi[@]}" -n 1 -wdir "$PWD/at" "$rack" "$@")
    for b in {00..15}; do alone+=(: -n 1 -wdir "$PWD/at-$b" "$rack" "$@"); done
}
# The files of this folder, each at its node; and back.
part() { mkdir at; for b in {00..15}; do mkdir "at-$b"; mv "block-$b.dmap" "at-$b"; done; }
gather() { mv at-*/* .; rmdir at at-*; }

# A basin of K blocks, and a list that moves each of its cells on.
of_blocks() {
    fresh "$1"; "$dispatch" split "$2" >/dev/null
    for ((b = 0; b < $2; b++)); do "$dispatch" cells $b | awk -v b=$b -v k="$2" '$1 ~ /^[0-9]+$/ { print b, (b + 3) % k, $1 }'; done >"$work/$1.list"
}

# The same words by both, on two folders: the same output, status and files.
ran=0
both() {
    local k=$1 status=0 expected=0; shift
    cd "$work/one"; "$root/bin/dispatch" "$@" >"$work/said.one" 2>"$work/wrong.one" <"$work/input" || expected=$?
    cd "$work/two"; rack "$k" "$@" >"$work/said.two" 2>"$work/wrong.two" <"$work/input" || status=$?
    cmp -s "$work/said.one" "$work/said.two" || { diff "$work/said.one" "$work/said.two"; fail "$k nodes, $*: another output"; }
    [ $status = $expected ] || fail "$k nodes, $*: status $status, and dispatch $expected"
    [ "$(grep -c ^error "$work/wrong.one")" = "$(grep -c ^error "$work/wrong.two")" ] || { cat "$work/wrong.two"; fail "$k nodes, $*: other errors"; }
    same "$work/one" "$work/two" || fail "$k nodes, $*: other files"
    ran=$((ran + 1))
}
for k in 16 4; do
    of_blocks one $k; rm -rf "$work/two"; cp -r "$work/one" "$work/two"
    : >"$work/input"
    both $k check
    # Requests that are refused stand among the others: to the block itself, to one that is not there, from one, a serial that is not held.
    awk '{ print } NR % 5 == 0 { print $1, $1, $3 } NR % 7 == 0 { print $1, 99, $3; print 16, 0, 1; print 2, 1, 9999 } NR % 11 == 0 { print "# a remark"; print "" }' \
        "$work/one.list" >"$work/input"
    both $k play
    : >"$work/input"
    both $k balance plane 2 1.5
    both $k balance all
done
cp "$work/one.list" "$work/input"; both 4 play --dry-run; both 4 play --all-or-nothing
printf '0 1\n' >"$work/input"; both 4 play
: >"$work/input"; both 4 balance plane 7 1; both 4 balance box 0 0 0 1 1e23 1; both 4 balance box -0.25 0 0 2.5e-1 1 1
printf x >"$work/one/block-03.dmap"; cp "$work"/{one,two}/block-03.dmap; both 4 check
cp "$work/one/block-02.dmap" "$work/one/block-03.dmap"; cp "$work"/{one,two}/block-03.dmap; both 4 check

# Some blocks are viewers': there is room for ten cells in one. Then lines of viewers that are none, numbers of blocks that are not there, and a viewer's
# block with too many darts.
of_blocks one 4; printf '1 3\n' >viewers; rm -rf "$work/two"; cp -r "$work/one" "$work/two"
: >"$work/input"; both 4 check; both 4 balance plane 2 1.5
awk '{ print; print $1, 1, $3; print 3, $1, $3 } NR % 5 == 0 { print $1, $1, $3; print $1, 99, $3; print 1, 3, 9999 }' "$work/one.list" >"$work/input"; both 4 play
: >"$work/input"; both 4 balance all
for line in '' '1' '1 0\n' '1 1\n' '01\n' '16\n' '1  3\n' ' 1\n' '1 \n' '1\n3\n' '1,3\n' '-1\n' '\n' '3 9 15\n'; do
    printf -- "$line" >"$work/one/viewers"; cp "$work"/{one,two}/viewers; both 4 check
done
fresh one; printf '0 1\n' >viewers; rm -rf "$work/two"; cp -r "$work/one" "$work/two"; both 3 check; both 3 balance all

# Begun by one, ended by the other: a balance saved after every move and left in the middle, a save that dispatch left cut, a log that is played again.
fresh end; "$dispatch" split 4 >"$work/moves"
fresh run; "$dispatch" add 4 >/dev/null; head -n 5 "$work/moves" | rack 4 play --log "$work/log" >/dev/null; "$dispatch" balance all >/dev/null
same . "$work/end" || fail 'a list begun here and ended by dispatch leaves other files'
fresh run; "$dispatch" add 4 >/dev/null; head -n 5 "$work/moves" | "$dispatch" play >/dev/null; rack 4 balance all --every 3 >>"$work/log"
same . "$work/end" || fail 'a list begun by dispatch and ended here leaves other files'
fresh run; "$dispatch" add 4 >/dev/null; "$dispatch" play <"$work/log" >/dev/null
same . "$work/end" || fail 'logs that are played again leave other files'
fresh run; "$dispatch" add 4 >/dev/null
for call in 12 24; do
    stopping kill $call balance all >/dev/null && fail 'a balance was not stopped'
    rack 4 check >"$work/told"; "$dispatch" check | cmp -s - "$work/told" || fail 'a save that was left cut is read in another way'
    rack 4 play </dev/null >"$work/said"; [ ! -e basin.commit ] && [ ! -e block-00.dmap.new ] || fail 'a save that was left cut is not mended'
    "$dispatch" check | cmp -s - "$work/told" || fail 'mending changed the basin'
done
grep -q '^# finished a save' "$work/said" && same . "$work/end" || fail 'a save that was committed is not finished'

# Turned away while another process writes; the same basin by a run of another size is an error.
of_blocks start 16
rm -rf "$work/run"; cp -r "$work/start" "$work/run"; cd "$work/run"
read -r -a stat </proc/$$/stat; echo "$(hostname) $$ ${stat[21]}" >basin.lock
LD_PRELOAD="$work/stop.so" SHORT_WAIT=1 rack 16 balance all >"$work/said" 2>&1 && fail 'a writer was not turned away'
grep -q "^error: process $$ on .* is writing this basin" "$work/said" || fail 'a writer was turned away without a word'
rm basin.lock
rack 15 check >"$work/said" 2>&1 && fail 'fifteen nodes took sixteen blocks'
grep -q '^error: the basin has 16 blocks' "$work/said" && same . "$work/start" || fail 'fifteen nodes with sixteen blocks'

# A message that is altered on the way, by kind: a request, a transfer, an update, the answers to them. It is told, and nothing is saved.
of_blocks four 4; cp -r . "$work/unaltered"
for kind in 0 1 2 3 4 5; do
    LD_PRELOAD="$work/alter.so" ALTER_KIND=$kind ALTER=1 rack 4 play <"$work/four.list" >"$work/said" 2>&1 && fail "a packet of kind $kind that was altered is taken"
    grep -q '^error: .*altered' "$work/said" || fail "a packet of kind $kind that was altered is not told"
    same . "$work/unaltered" || fail "a packet of kind $kind was altered, and something was saved"
done
cd "$work/run"

# The coordinator, and a node, stopped at each of its calls on files, a write cut in half: a reader sees the old basin or the new one, and it is mended.
cp -r "$work/unaltered" "$work/new"
(cd "$work/unaltered"; "$dispatch" check >"$work/old.check"; cd "$work/new"; "$dispatch" play <"$work/four.list" >/dev/null; "$dispatch" check >"$work/new.check")
stops=0
stopped() {
    rm -rf "$work/run"; cp -r "$work/unaltered" "$work/run"; cd "$work/run"
    LD_PRELOAD="$work/stop-rank.so" STOP_RANK=$1 STOP_AT=$2 rack 4 play <"$work/four.list" >/dev/null 2>&1 && { same . "$work/new" || fail 'other files'; return 1; }
    "$dispatch" check >"$work/told" 2>&1 || true
    cmp -s "$work/told" "$work/old.check" || cmp -s "$work/told" "$work/new.check" || { cat "$work/told"; fail "a reader sees neither basin, rank $1 stopped at call $2"; }
    if (($2 % 3)); then "$dispatch" play </dev/null >/dev/null; else rack 4 play </dev/null >/dev/null || fail "not mended, rank $1 stopped at call $2"; fi
    "$dispatch" check | cmp -s - "$work/told" || fail "mending changed what a reader sees, rank $1 stopped at call $2"
    same . "$work/unaltered" || same . "$work/new" || fail "neither the old basin nor the new one, rank $1 stopped at call $2"
    stops=$((stops + 1))
}
for node in 0 2; do
    call=1
    while stopped $node $call; do call=$((call + 1)); done
done
[ "$stops" -gt 15 ] || fail "stopped at $stops calls only"
rm -rf "$work/run"; cp -r "$work/start" "$work/run"; cd "$work/run"

# Each node in its folder.
part; each_alone check; "${alone[@]}" | diff - <(cd "$work/start"; "$dispatch" check) || fail 'another check with a folder for each node'
each_alone play; "${alone[@]}" <"$work/start.list" >/dev/null; gather
(cd "$work/start"; cp -r . "$work/end16"; cd "$work/end16"; "$dispatch" play <"$work/start.list" >/dev/null)
same . "$work/end16" || fail 'other files with a folder for each node'

# Killed while it saves after every round: the states are those after each round of the list, and no other may be left.
cp -r "$work/start" "$work/state.0"; n=0
while read -r request; do
    cp -r "$work/state.$n" "$work/state.$((n + 1))"; n=$((n + 1)); cd "$work/state.$n"
    echo "$request" | "$dispatch" play >/dev/null || fail "no move: $request"
done <"$work/start.list"
for ((i = 0; i <= n; i++)); do (cd "$work/state.$i"; "$dispatch" check >"$work/check.$i"); done
# Which state a reader sees, and which one this folder is, from a number on.
checked() { for ((i = 0; i <= n; i++)); do cmp -s "$work/told" "$work/check.$i" && return; done; return 1; }
state_of() { for ((i = $1; i <= n; i++)); do same . "$work/state.$i" && return; done; return 1; }

# The processes of the run in a folder of this test, the coordinator first.
find_ranks() {
    ranks=()
    for p in $(pgrep -x "${rack##*/}" || true); do case $(readlink "/proc/$p/cwd") in "$work"/run*) ranks+=("$p") ;; esac; done
}

# Beside a run that saves after every round dispatch reads one of the states; while its coordinator is held, who writes is turned away.
rm -rf "$work/run"; cp -r "$work/start" "$work/run"; cd "$work/run"
rack 16 play --every 1 <"$work/start.list" >/dev/null 2>&1 &
job=$! readers=0 turned=0
while kill -0 $job 2>/dev/null; do
    if [ $turned = 0 ] && [ -e basin.lock ]; then
        find_ranks
        kill -STOP "${ranks[@]:0:1}" 2>/dev/null || true
        if [ -e basin.lock ]; then
            LD_PRELOAD="$work/stop.so" SHORT_WAIT=1 "$dispatch" play </dev/null >"$work/told" 2>&1 || true
            grep -q 'is writing this basin' "$work/told" || fail 'a writer was not turned away beside a run'
            turned=1
        fi
        kill -CONT "${ranks[@]:0:1}" 2>/dev/null || true
    fi
    "$dispatch" check >"$work/told" 2>&1 || true
    checked || { cat "$work/told"; fail 'a reader beside a run sees a mix'; }
    readers=$((readers + 1))
done
wait $job || fail 'a run beside others was not ended'
same . "$work/state.$n" || fail 'a run beside others leaves other files'

# Ends when none of these processes runs.
gone() {
    local p t
    for p; do
        for ((t = 0; t < 200; t++)); do
            [ -e "/proc/$p" ] && ! grep -q '^State:[[:space:]]*[ZX]' "/proc/$p/status" 2>/dev/null || continue 2
            sleep 0.05
        done
        kill -9 "$p" 2>/dev/null || true
        fail "process $p went on after its run was killed"
    done
}

cut=0 committed=0 between=0
for ((kill = 0; kill < kills; kill++)); do
    rm -rf "$work/run"; cp -r "$work/start" "$work/run"; cd "$work/run"
    alone=("${mpi[@]}" -n 17 "$rack" play --every 1) apart=$((kill % 5 == 4))
    if ((apart)); then part; each_alone play --every 1; fi
    "${alone[@]}" <"$work/start.list" >"$work/said" 2>/dev/null &
    job=$!
    # A moment of the run: from the lock on, a quarter of them before it.
    most=1500
    if ((RANDOM % 4)); then
        most=400
        for ((t = 0; t < 500; t++)); do [ -e basin.lock ] || [ -e at/basin.lock ] && break; sleep 0.01; done
    fi
    sleep "$((RANDOM % most))e-3"
    find_ranks
    # A node, all at once, the coordinator, mpirun alone.
    case $((kill % 4)) in
    0) dead=("${ranks[@]:RANDOM % 16 + 1:1}") ;;
    1) dead=("$job" "${ranks[@]}") ;;
    2) dead=("${ranks[@]:0:1}") ;;
    3) dead=("$job") ;;
    esac
    [ ${#dead[@]} = 0 ] || kill -9 "${dead[@]}" 2>/dev/null || true
    wait $job 2>/dev/null || true
    gone "${ranks[@]}"
    rm -rf "$shared"/* "$work"/ompi.*
    [ -z "$(find . -name '*.new' -o -name 'basin.*')" ] || cut=$((cut + 1))
    [ -z "$(find . -name basin.commit)" ] || committed=$((committed + 1))
    saved=$(grep -c '^# saved' "$work/said" || true)
    if ((apart)); then
        each_alone check; "${alone[@]}" >"$work/told" 2>&1 || true
        each_alone play; "${alone[@]}" </dev/null >/dev/null || fail "not mended after kill $kill"
        gather
    else
        "$dispatch" check >"$work/told" 2>&1 || true
        if ((RANDOM % 2)); then "$dispatch" play </dev/null >/dev/null; else rack 16 play </dev/null >/dev/null || fail "not mended after kill $kill"; fi
    fi
    checked || { cat "$work/told"; fail "a reader sees a mix after kill $kill"; }
    "$dispatch" check | cmp -s - "$work/told" || fail "mending changed what a reader sees, after kill $kill"
    state_of "$i" || fail "a mix after kill $kill"
    [ "$i" -ge "$saved" ] || fail "kill $kill lost a save that was told"
    [ "$i" = 0 ] || [ "$i" = "$n" ] || between=$((between + 1))
done
echo "rack: $ran commands with 4 and 16 nodes print and leave what dispatch does; $readers readers beside a run see one state; stopped at $stops calls on files, and $kills runs killed ($cut left files of a save or a lock, $committed a commit, $between between the first save and the last): no mix"
