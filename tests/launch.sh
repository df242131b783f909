#!/bin/sh
# tests/launch.sh: bin/aes3, bin/aes3-cells and bin/aes3-spoil in a copy of the sources, with a program and a bin/build of its own that
# prove nothing: they have it built once for each source that was edited, added, removed or moved, and not otherwise; by whatever path they
# are called; where nothing can be written; and without the toolchain. Then what a call costs: at most 25 ms of processor time.
#
# The last line is `N passed, M failed`, and the status 0 where none failed.

root=$(dirname "$(dirname "$(realpath "$0")")")
# shellcheck source=examples/words.sh
. "$root/examples/words.sh"
take_words 0 0 "$@"
# shellcheck source=tests/judging.sh
. "$root/tests/judging.sh"
tree="$work/a tree"
mkdir -p "$tree/bin" "$work/rt" "$work/else where"
cp "$root/bin/aes3" "$root/bin/aes3-cells" "$root/bin/aes3-spoil" "$tree/bin"
cp "$root/crates.txt" "$tree"
# shellcheck disable=SC2013 # they are words
for name in $(sed 's/#.*//; s/[ :].*//' "$root/crates.txt"); do
    mkdir -p "$tree/crates/$name"
    for part in src specs proofs; do
        [ ! -d "$root/crates/$name/$part" ] || cp -r "$root/crates/$name/$part" "$tree/crates/$name"
    done
done
# The program says where it runs and its words; the build says so, and makes it.
cat >"$tree/bin/build" <<'BUILD'
#!/bin/sh
echo "built $1"
out=$(dirname "$(dirname "$(realpath "$0")")")/crates/$1/out
mkdir -p "$out"
printf '#!/bin/sh\necho "$PWD" "$@"\n' >"$out/$1"
chmod +x "$out/$1"
BUILD
printf '#!/bin/sh\n' >"$work/rt/rt"
chmod +x "$tree/bin/build" "$work/rt/rt"
PATH=$work/rt:$PATH
cd "$work/else where" || exit 2

# says LINES COMMAND..: the command writes these lines and ends with status 0.
says() {
    printf '%s\n' "$1" >"$work/wanted"
    shift
    "$@" >"$work/got" 2>&1 && cmp "$work/got" "$work/wanted"
}
# An edit now is newer than the program, of whatever grain the times are: those of the tree and the program go an hour back.
go_back() { find "$tree" -exec touch -d '1 hour ago' {} + && touch -d '59 minutes ago' "$tree"/crates/*/out/* 2>/dev/null; }
# once WHAT: the next call has the program built, and those after it have not.
ran="$work/else where a b"
once() {
    judge "$1: it is built" says "built aes3
$ran" "$tree/bin/aes3" a b
    judge "$1: it is built once" says "$ran" "$tree/bin/aes3" a b
    go_back
    judge "$1: nor where its names are to be written" says "$ran" "$tree/bin/aes3" a b
    judge "$1: nor where they are" says "$ran" "$tree/bin/aes3" a b
}

crates=$tree/crates
once "no program"
judge "the names are written" test -s "$crates/aes3/out/sources"
echo >>"$crates/aes3_level/src/lib.rt"
once "an edit of the lowest crate"
echo >>"$crates/aes3/src/main.rt"
once "an edit of the program's own"
touch "$crates/aes3_cell/src/a file with spaces"
once "a new file"
rm "$crates/aes3_cell/src/a file with spaces"
once "a file removed"
mkdir "$crates/aes3_cell/proofs/more"
touch -d '2 hours ago' "$crates/aes3_cell/proofs/more/Old.antt" "$work/Moved.antt"
once "a folder"
mv "$work/Moved.antt" "$crates/aes3_cell/proofs/more"
once "an old file moved in"
rm -r "$crates/aes3_cell/proofs/more"
once "a folder removed"
mkdir "$crates/aes3/specs"
once "a part that a crate did not have"
rmdir "$crates/aes3/specs"
judge "a part gone that nothing else was in" says "$ran" "$tree/bin/aes3" a b
echo >>"$tree/crates.txt"
once "an edit of crates.txt"
touch "$crates/aes3_workloads/src/lib.rt" "$crates/aes3_cells_program/src/main.rt" "$tree/README.md"
judge "an edit of what it does not stand on" says "$ran" "$tree/bin/aes3" a b

for each in cells=aes3_cells_program spoil=aes3_spoil_program; do
    judge "bin/aes3-${each%=*}" says "built ${each#*=}
$ran" "$tree/bin/aes3-${each%=*}" a b
    judge "bin/aes3-${each%=*}, built" says "$ran" "$tree/bin/aes3-${each%=*}" a b
done

# By other paths, each a call and then one that has to notice an edit.
ln -s "$tree/bin" "$work/linked bin"
ln -s "$tree/bin/aes3" "$work/linked aes3"
ln -s "linked aes3" "$work/linked again"
ln -s "$tree/bin/aes3-cells" "$work/linked cells"
go_back
for path in "../linked bin/aes3" "$work/linked aes3" "../linked again" "../a tree/bin/aes3"; do
    judge "by $path" says "$ran" "$path" a b
    touch "$crates/aes3_level/src/lib.rt"
    judge "by $path, after an edit" says "built aes3
$ran" "$path" a b
    go_back
done
judge "aes3-cells by a link" says "$ran" "../linked cells" a b
cd "$tree/bin" || exit 2
judge "in bin/" says "$tree/bin a b" sh aes3 a b
judge "in bin/, aes3-cells" says "$tree/bin a b" sh aes3-cells a b
cd .. || exit 2
judge "in the root, where cd looks elsewhere" says "$tree a b" env CDPATH="$work:/tmp" bin/aes3 a b

# Where nothing can be written (root can all the same), and with a find that knows no list of names.
rm -f "$crates"/aes3/out/sources*
mkdir "$crates/aes3/out/sources"
touch -d '2 hours ago' "$crates/aes3/out/sources"
judge "the names can't be written" says "$tree a b" bin/aes3 a b
rm -r "$crates"/aes3/out/sources*
printf '#!/bin/sh\ncase $* in *files0*) echo "find: unknown predicate" >&2; exit 1 ;; esac\nexec %s "$@"\n' "$(command -v find)" >"$work/rt/find"
chmod +x "$work/rt/find"
for _ in 1 2; do judge "a find of another make" says "$tree a b" bin/aes3 a b; done
touch "$crates/aes3_level/src/lib.rt"
judge "a find of another make, after an edit" says "built aes3
$tree a b" bin/aes3 a b
rm "$work/rt/find"

# The program's own status; a build that fails; no toolchain.
printf '#!/bin/sh\nexit 7\n' >"$crates/aes3/out/aes3"
ends_with() { status=$1; shift; "$@" >"$work/got" 2>&1; [ $? = "$status" ]; }
judge "the status is the program's" ends_with 7 bin/aes3
touch "$crates/aes3_level/src/lib.rt"
mkdir "$work/tools"
for tool in sh awk dirname find mv realpath sed tr; do ln -s "$(command -v $tool)" "$work/tools/$tool"; done
judge "no toolchain, an old program" ends_with 7 env PATH="$work/tools" bin/aes3
judge "it warns" grep -q '^bin/aes3: warning: ' "$work/got"
rm "$crates/aes3_cells_program/out/aes3_cells_program"
judge "no toolchain, no program" ends_with 127 env PATH="$work/tools" bin/aes3-cells
judge "it says so" grep -q '^bin/aes3-cells: the program must be built' "$work/got"
printf '#!/bin/sh\nexit 1\n' >bin/build
judge "a build that fails" ends_with 126 bin/aes3

# What a call costs, with a program that does nothing: of processor time, which other programs change least.
if command -v python3 >/dev/null; then
    printf '#!/bin/sh\n' >"$crates/aes3/out/aes3"
    go_back
    cost=$(python3 - "$tree/bin/aes3" <<'END'
import resource, subprocess, sys

for _ in range(40):
    subprocess.run(sys.argv[1:], check=True)
used = resource.getrusage(resource.RUSAGE_CHILDREN)
print(round((used.ru_utime + used.ru_stime) / 40 * 1000))
END
    )
    echo "a call of bin/aes3 takes $cost ms of processor time"
    judge "a call takes $cost ms" test "$cost" -le 25
else
    echo "left out: what a call costs (python3 is not installed)"
fi
tell
