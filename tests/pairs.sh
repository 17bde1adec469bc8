#!/usr/bin/env bash
# Two commands of the dispatcher's program in one folder: a balance, a play or a split is held at each of its calls on files while another
# command runs; then pairs at random. What is left is what the two leave one after the other, or one alone where the other was turned away;
# a reader always sees one of these states.
set -euo pipefail
cd "$(dirname "$0")/.."
dispatch=$PWD/crates/dispatch/out/dispatch
basin=$PWD/examples/basin
stored=$PWD/tests/dispatch
pairs=${1:-1000}
work=$(mktemp -d)
trap 'rm -rf "$work"' EXIT
source "$stored/folders.sh"
fail() { echo "pairs: $*"; exit 1; }

# A command by a letter.
command() {
    case $1 in
    b) "$dispatch" balance all ;;
    p) printf '0 2 1\n0 1 25\n' | "$dispatch" play ;;
    q) printf '1 0 500\n0 1 49\n' | "$dispatch" play ;;
    s) "$dispatch" split 4 ;;
    c) "$dispatch" check ;;
    l) "$dispatch" list 0 ;;
    d) "$dispatch" balance all --dry-run ;;
    esac
}
quick() { LD_PRELOAD="$work/stop.so" SHORT_WAIT=1 command "$1"; }

# The states that any order of two writers leads to, from the basin: a folder for each, by its letters, with what a check says of it.
for one in b p q s; do
    fresh "$one"; command $one >/dev/null
    for two in b p q s; do
        [ $one = $two ] || { rm -rf "$work/$one$two"; cp -r "$work/$one" "$work/$one$two"; cd "$work/$one$two"; command $two >/dev/null; }
    done
done
fresh none
for state in "$work"/{none,b,p,q,s,bp,bq,bs,pb,pq,ps,qb,qp,qs,sb,sp,sq}; do (cd "$state"; for reader in c l d; do command $reader >"$state.$reader"; done); done

# Whether this folder, once it is mended, is one of some states.
is_one_of() {
    "$dispatch" play </dev/null >/dev/null || return 1
    for state; do same . "$work/$state" && return; done
    return 1
}

# Whether what a reader said is what it says of one of some states.
read_one_of() {
    for state in "${@:2}"; do cmp -s "$work/said" "$work/$state.$1" && return; done
    return 1
}

# Whether two writers left what they said: both one after the other, in either order, or one alone where the other was turned away.
left() {
    local one=$1 two=$2 first said
    first=$(grep -c '^error' "$work/first") said=$(grep -c '^error' "$work/said")
    case $first$said in
    00) [ "$one" = "$two" ] && is_one_of "$one" || is_one_of "$one$two" "$two$one" ;;
    01) is_one_of "$one" ;;
    10) is_one_of "$two" ;;
    *) return 1 ;;
    esac
}

# One is stopped at a call, the other runs, the first goes on. Whether it was stopped at all.
met=0
beside() {
    local one=$1 two=$2 at=$3 job
    fresh run
    rm -f "$work/stopped"
    (export LD_PRELOAD="$work/stop.so" STOP_HOW=wait STOP_AT="$at" STOP_SAYS="$work/stopped"; command "$one" >"$work/first" 2>&1) &
    job=$!
    until [ -s "$work/stopped" ]; do
        if ! kill -0 "$job" 2>/dev/null; then wait "$job" || true; return 1; fi
        sleep 0.002
    done
    quick "$two" >"$work/said" 2>&1 || true
    kill -CONT "$(cat "$work/stopped")"
    wait "$job" || true
    case $two in
    c | l | d)
        read_one_of "$two" none "$one" || fail "$two beside $one stopped at call $at saw a mix"
        is_one_of "$one" || fail "$one, stopped at call $at while $two ran, was not saved"
        ;;
    *) left "$one" "$two" || fail "$one, stopped at call $at, and $two left a mix" ;;
    esac
    met=$((met + 1))
}
for one in b p s; do
    for two in c l d b p q s; do
        [ $one = $two ] && continue
        call=1
        while beside $one $two $call; do call=$((call + 1)); done
    done
done

# Pairs at random, at one moment.
letters=(b p q s c l d)
turned=0
for ((n = 0; n < pairs; n++)); do
    one=${letters[RANDOM % 4]} two=${letters[RANDOM % 7]}
    fresh run
    quick "$one" >"$work/first" 2>&1 &
    quick "$two" >"$work/said" 2>&1 || true
    wait || true
    grep -q 'is writing this basin' "$work/first" "$work/said" && turned=$((turned + 1))
    case $two in
    c | l | d)
        read_one_of "$two" none "$one" || fail "$two beside $one saw a mix"
        is_one_of "$one" || fail "$one, while $two ran, was not saved"
        ;;
    *) left "$one" "$two" || fail "$one and $two at one moment left a mix, or what was said to be saved is not there" ;;
    esac
done
echo "pairs: $met runs stopped beside another, $pairs pairs at random ($turned turned away): no mix, no loss"
