# Every command and every error, on copies of the basin. Sourced by tests/dispatch.sh.
run() { printf '$ dispatch %s\n' "$*"; "$bin" "$@" 2>&1 || echo "status $?"; }

fresh one
run
run check
run list 2
printf '0 2 1\n0 1 25\n\n2 0 1\r\n0 0 49\n0 2 9999\n7 0 1\n0 9 49\n' | run play
run balance all
run check
run balance all
run balance plane 0 1
run balance box 0 0 0 1 1 1
run balance box 1 0 0 -1 1 1
run balance plane 7 1
run balance plane 0 0.5
run balance box -0.25 0 0 2.5e-1 1 1
run split 5
run check
printf '' | run play

# words
run balance
run balance some
run balance all now
run balance box 1 2 3
run balance plane x 1
run balance plane 0 1.2.3
run balance box 0 0 0 1 1e23 1
run list
run list 16
run list 7
run list two
run split
run split 0
run split 17
run split 2
run check now
run nonsense
run help
printf '0 1\n' | run play
printf '0 1 5\n1 2 3 4\n' | run play
printf '0 1 4294967296\n' | run play
head -c 524288 /dev/zero | tr '\0' ' ' | run play

# files
fresh two
rm block-00.dmap
run check
fresh three
rm block-01.dmap
run check
fresh four
head -c 100 "$basin/block-01.dmap" >block-01.dmap
run check
run list 1
printf '0 2 1\n' | run play
fresh five
rm block-02.dmap
run check
run balance all
fresh six
cp block-01.dmap block-02.dmap
run check
fresh seven
head -c 262144 /dev/zero >block-02.dmap
run check
fresh eight
rm block-02.dmap
mkdir block-02.dmap
run check
fresh nine
rm block-*.dmap
run check

# a full disk, and a run that is killed before and after the commit has its name: who reads writes nothing, who writes mends
fresh ten
echo '$ dispatch balance all, the disk full at its seventh call'
stopping full 7 balance all
run check
ls
echo '$ dispatch balance all, killed at its seventh call'
stopping kill 7 balance all || ls
run check
ls
run play </dev/null
ls
echo '$ dispatch balance all, killed at its twentieth call'
stopping kill 20 balance all || ls
run check
run list 2 | tail -n 1
ls
run play </dev/null
ls

# a committed save whose files were changed since, or whose commit was: nothing is changed
fresh eleven
stopping kill 20 balance all >/dev/null || true
cp block-02.dmap.new kept
printf x >>block-02.dmap.new
run check
run play </dev/null
mv kept block-02.dmap.new
cp basin.commit kept
printf x >>basin.commit
run check
run play </dev/null
mv kept basin.commit
rm block-00.dmap.new
run check
run play </dev/null
ls

# input that is cut off or cannot be read, a pipe for a file, a block too many, a folder that cannot be written to
fresh twelve
printf '0 1 25\n0 2 4' | run play
run play </
run play <&-
printf '# a remark\n\n0 1 25\n' | run play
mkfifo block-03.dmap
run check
rm block-03.dmap
touch block-16.dmap
run check
rm block-16.dmap
run --version | wc -l

# the cells of a block, and blocks that are added without a balance
fresh thirteen
run cells 2
run cells
# one cell with the corners (-1, 1, 0), (-2.5, 0, 4e9) and the origin: darts as they stand in a file, coordinates with the lowest byte first
o='\0\0\0\0\0\0\0\0' one="\0\0\0\0\0\0\xf0\xbf\0\0\0\0\0\0\xf0\x3f$o" two="\0\0\0\0\0\0\x04\xc0$o\0\0\0\0\x65\xcd\xed\x41"
printf "\0\0\6\1\2\6\0$one\2\3\5\0$two\3\1\4\0$o$o$o\4\5\3\0$one\5\6\2\0$o$o$o\6\4\1\0$two" >block-00.dmap
run list 0
run cells 0
fresh thirteen
run cells 7
run cells x
run add 5
run check
run add 5
run add 4
run add
run add 17
run cells 4

# a dry run prints as always and leaves every name and byte of the folder as it was; so does a list of which one request is refused, where that is asked
unchanged() { sha256sum * >"$work/before"; run "$@"; sha256sum * | cmp -s - "$work/before" || echo 'the folder has changed'; }
fresh fourteen
printf '0 2 1\n0 1 25\n' | unchanged play --dry-run
printf '0 2 1\n0 0 25\n' | unchanged play --dry-run
printf '0 2 1\n0 0 25\n' | unchanged play --all-or-nothing
printf '0 2 1\n0 0 25\n' | unchanged play --all-or-nothing --dry-run
printf '0 2 1\n0 1 25\n' | unchanged play --dry-run --all-or-nothing
unchanged balance all --dry-run
unchanged balance --dry-run plane 0 0.5
unchanged balance box -0.25 --dry-run 0 0 2.5e-1 1 1
unchanged split --dry-run 5
unchanged add 4 --dry-run
unchanged --dry-run add 2
unchanged play --dry
unchanged balance all --all-or-nothing
unchanged balance --dry-run
unchanged check --dry-run
unchanged list 2 --dry-run
unchanged help --all
printf '0 2 1\n0 1 25\n' | run play --all-or-nothing
run check

# over a save that was cut: a dry run shows what was committed, and mends nothing
fresh fifteen
stopping kill 20 balance all >/dev/null || true
unchanged balance all --dry-run
unchanged cells 2 | tail -n 1

# blocks that are viewers': served and refused rounds, a balance that a viewer has no room for, a block with too many darts
fresh eighteen
echo 2 >viewers
run check
printf '0 2 1\n2 0 1\n' | run play
unchanged balance all --dry-run
run balance all
run check
run cells 2 | tail -n 1
unchanged split 4 --dry-run
fresh eighteen
echo 1 2 >viewers
unchanged check
printf '0 1 1\n1 2 529\n' | run play
echo 0 2 >viewers
unchanged check
printf '0 2 1\n' | unchanged play
unchanged balance all
unchanged add 4
unchanged list 0
unchanged cells 0
unchanged cells 2 | tail -n 1

# a cell of 66 darts, two faces back to back with all corners at the origin, and an empty block: too large for a viewer, at either end
rm -r "$work/eighteen"; mkdir "$work/eighteen"; cd "$work/eighteen"
octal() { printf '\\%03o' "$@"; }
printf "\0\0$(octal 66)" >block-00.dmap
for ((d = 0; d < 66; d++)); do printf "$(octal $((d + 1)) $((d / 33 * 33 + (d + 1) % 33 + 1)) $((66 - d)))\0$o$o$o"; done >>block-00.dmap
run add 2
echo 1 >viewers
printf '0 1 1\n' | unchanged play
unchanged balance all
echo 0 >viewers
printf '0 1 1\n' | unchanged play
rm viewers
printf '0 1 1\n' | run play

# the file `viewers`: right lines, wrong ones, and no file; nothing is done where it is wrong, also over a save that was cut
fresh nineteen
for line in '\n' '15\n' '1 2 10 15\n' '0 1 2 3 4 5 6 7 8 9 10 11 12 13 14 15\n'; do printf "$line" >viewers; run check; done
for line in '' '2' '16\n' '02\n' '2 1\n' '2 2\n' '1  2\n' ' 2\n' '2 \n' '1,2\n' '1\t2\n' '2\r\n' '2\n\n' '2\n1\n' 'two\n' '-1\n' '0 1 2 3 4 5 6 7 8 9 10 11 12 13 14 15 16\n'; do
    printf -- "$line" >viewers
    printf '%s: ' "$line"
    "$bin" check 2>&1 || true
done
head -c 1000 /dev/zero >viewers
run check
rm viewers
stopping kill 20 balance all >/dev/null || true
echo 2 1 >viewers
printf '0 2 1\n' | unchanged play
unchanged balance all
unchanged balance all --dry-run
unchanged split 4
unchanged add 4
unchanged list 2
unchanged cells 2
rm viewers
mkdir viewers
run check
rmdir viewers
mkfifo viewers
run check
rm viewers
run check

# a user who may not write, not read a file, not search the folder
guest() {
    local status as=()
    [ "$(id -u)" != 0 ] || as=(setpriv --reuid=65534 --regid=65534 --clear-groups)
    printf '$ dispatch %s, by a guest\n' "$*"
    { status=$("${as[@]}" "$work/program" --status 3 "$@" 3>&1 >&4 4>&-); } 4>&1
    [ "$status" = 0 ] || echo "status $status"
}
fresh sixteen
cp "$dispatch" "$work/program"
chmod 755 "$work" "$work/program"
echo 2 >viewers
chmod 000 viewers
guest check
guest list 1
rm -f viewers
chmod 555 .
guest check
printf '0 2 1\n' | guest play --dry-run
guest balance all
chmod 000 block-01.dmap
guest check
guest list 1
chmod 644 .
guest check
guest list 0
guest balance all
chmod 755 "$work/sixteen"
chmod 644 block-01.dmap

# the program by itself: descriptors that are closed, and a stack that is too small
fresh seventeen
echo '$ dispatch balance all, its output closed'
"$dispatch" balance all >&-
"$dispatch" check 2>&-
echo '$ dispatch play, its input closed'
"$dispatch" play <&-
echo '$ dispatch check, its stack too small'
(ulimit -s 4096; "$dispatch" --status 3 check 3>&1)
echo
