#!/bin/sh
# tests/build.sh: bin/build in a repository of its own, with five crates and an rt that proves nothing: which crates it builds after an edit,
# a copy of all of it, a change that is taken back, a check by rt itself, and an edit of what came of a build; what it says before it begins;
# and that bin/install builds nothing in a copy of what is built.
#
# The last line is `N passed, M failed`, and the status 0 where none failed.

root=$(dirname "$(dirname "$(realpath "$0")")")
# shellcheck source=examples/words.sh
. "$root/examples/words.sh"
take_words 0 0 "$@"
# shellcheck source=tests/judging.sh
. "$root/tests/judging.sh"
command -v python3 >/dev/null || { echo "left out: tests/build.sh (python3 is not installed)" && tell; }
tree="$work/a tree"
mkdir -p "$tree/bin" "$work/kit"
cp "$root/bin/build" "$tree/bin"
cat >"$tree/crates.txt" <<'CRATES'
low:
other:
middle: low
archive staticlib: middle other
aes3: middle clap # the program
CRATES
for name in low other middle archive; do
    mkdir -p "$tree/crates/$name/src"
    echo "$name" >"$tree/crates/$name/src/lib.rt"
done
mkdir -p "$tree/crates/aes3/src" "$tree/crates/low/proofs/deep"
echo aes3 >"$tree/crates/aes3/src/main.rt"
echo lemma >"$tree/crates/low/proofs/deep/Lemma.antt"
# As rt leaves what it is asked for, in a crate's folder: with its proofs where it is not told `--statements`.
cat >"$tree/bin/rt" <<'RT'
#!/bin/sh
name=$(basename "$PWD")
stamp=stamp
[ "$1" != --statements ] || { stamp=; shift; }
[ ! -e src/wrong ] || { echo "no proof"; exit 1; }
echo "$name${stamp:+ with proofs}" >>"$CALLS"
case $1 in
    run) mkdir -p out && cat src/* >"out/$name" && chmod +x "out/$name" ;;
    lib)
        if grep -q "^$name staticlib" ../../crates.txt; then
            mkdir -p out && cat src/* >"out/lib$name.a"
        else
            rm -rf out/rlib
            mkdir -p "out/rlib/$name.rlib"
            cat src/* >"out/rlib/$name.rlib/statements.oantt"
            [ -z "$stamp" ] || : >out/rlib/stamp
        fi
        ;;
esac
RT
chmod +x "$tree/bin/rt"
printf '#!/bin/sh\n' >"$work/kit/rt"
chmod +x "$work/kit/rt"
PATH=$work/kit:$PATH CALLS=$work/calls
export CALLS

# An edit is newer than all that was built before, whatever the grain of the times.
later() { sleep 0.02; }
# builds "CRATES" WORDS..: these are built by that, as rt is called for them, and none by the next call.
builds() {
    printf '%s\n' "$1" | tr ' ' '\n' | sed '/^$/d; s/+/ with proofs/' | sort >"$work/wanted"
    shift
    later
    for _ in first again; do
        : >"$CALLS"
        "$tree/bin/build" "$@" >"$work/told" 2>&1 || { cat "$work/told" && return 1; }
        sort "$CALLS" | diff - "$work/wanted" || { cat "$work/told" && return 1; }
        : >"$work/wanted"
    done
}
crates=$tree/crates
says() { "$tree/bin/build" 2>&1 | grep '^bin/build: .* to be proved and built'; }

on_processors="[1-9][0-9]* processors\{0,1\} with nothing else to do"
says >"$work/told"
judge "it says how many at first" grep -qx "bin/build: no program yet: 3 crates are to be proved and built: about [1-9][0-9]* minutes\{0,1\} on $on_processors, and 1 GB of disk, once" "$work/told"
rm -r "$crates"/*/out
judge "all at first" builds "low middle aes3"
judge "the library, of which some is built" builds "other archive" aes3 --library archive
later
echo "a word of help" >>"$crates/aes3/src/main.rt"
says >"$work/told"
judge "it says that it is one" grep -qx "bin/build: the sources are newer than the program: 1 crate is to be proved and built: about [1-9][0-9]* minutes\{0,1\} on $on_processors" "$work/told"
later
echo edit >>"$crates/middle/src/lib.rt"
judge "an edit" builds "middle aes3"
judge "of which the library knows" builds archive archive
later
echo edit >>"$crates/low/proofs/deep/Lemma.antt"
judge "an edit of a lemma" builds "low middle aes3 archive" aes3 archive
: >"$crates/low/proofs/deep/More.antt"
judge "a new file" builds "low middle aes3 archive" aes3 archive
rm "$crates/low/proofs/deep/More.antt"
judge "a file removed" builds "low middle aes3 archive" aes3 archive
mv "$crates/low/proofs/deep" "$crates/low/proofs/moved"
judge "a folder of another name" builds "low middle aes3 archive" aes3 archive
later
echo 'wires: low' >>"$tree/crates.txt"
mkdir -p "$crates/wires/src"
echo wires >"$crates/wires/src/lib.rt"
judge "a crate more in crates.txt" builds "" aes3 archive
judge "that crate" builds wires wires
later
sed -i 's/^archive staticlib: middle other/archive staticlib: middle/' "$tree/crates.txt"
judge "another row in crates.txt" builds archive aes3 archive
cp "$crates/middle/src/lib.rt" "$work/kept"
echo edit >>"$crates/middle/src/lib.rt"
later
cp "$work/kept" "$crates/middle/src/lib.rt"
judge "an edit that is taken back" builds "" aes3 archive
touch "$crates"/*/src/* "$crates"/*/src "$tree/crates.txt"
judge "files of a new time" builds "" aes3 archive
echo edit >>"$crates/middle/src/lib.rt"
judge "an edit after that" builds "middle aes3 archive" aes3 archive

# Copies of what is built, with the times of the files and without.
for how in -rp -r; do
    mv "$tree" "$work/kept tree"
    cp $how "$work/kept tree" "$tree"
    judge "a copy by cp $how" builds "" aes3 archive
    later
    echo edit >>"$crates/middle/src/lib.rt"
    judge "an edit in it" builds "middle aes3 archive" aes3 archive
    rm -r "$tree"
    mv "$work/kept tree" "$tree"
done

# What came of a build is another, and the sources are those of it.
later
echo edit >>"$crates/low/src/lib.rt"
(cd "$crates/low" && ../../bin/rt --statements lib)
sed -i '$d' "$crates/low/src/lib.rt"
judge "a library of other sources" builds "low middle aes3 archive" aes3 archive
later
echo edit >>"$crates/archive/src/lib.rt"
judge "an edit of the archive" builds archive aes3 archive
echo other >>"$crates/archive/out/libarchive.a"
touch -d '1 hour ago' "$crates/archive/out/libarchive.a"
judge "another archive" builds archive aes3 archive
rm "$crates/middle/out/rlib/statements"
judge "a library without its mark" builds "middle aes3 archive" aes3 archive

# Programs are for the processor at hand, or for those that are asked for; the library is for any but where that is asked for.
cpus() { printf '%s ' "$(cat "$crates/aes3/out/cpu")" "$(cat "$crates/archive/out/cpu")"; }
"$tree/bin/build" aes3 archive 2>"$work/told"
here=$(cat "$crates/aes3/out/cpu")
case $here in x86-64-v[23]) ;; *) judge "the processor at hand, $here" false ;; esac
judge "the library is for any" [ "$(cpus)" = "$here x86-64-v2 " ]
for cpu in x86-64-v2 x86-64-v3 x86-64-v2; do
    other=aes3
    [ "$(cat "$crates/aes3/out/cpu")" != $cpu ] || other=
    [ "$(cat "$crates/archive/out/cpu")" = $cpu ] || other="$other archive"
    judge "the processors $cpu" builds "$other" --cpu $cpu aes3 archive
    judge "they are noted: $cpu" [ "$(cpus)" = "$cpu $cpu " ]
done
judge "an edit for the processors that are asked for" eval 'later; echo edit >>"$crates/aes3/src/main.rt"; builds aes3 --cpu x86-64-v3'
rm "$crates/aes3/out/cpu"
judge "a program that rt itself built is for x86-64-v2" builds "" --cpu x86-64-v2
! "$tree/bin/build" --cpu x86-64-v4 >"$work/told" 2>&1
judge "processors that it does not know" grep -q "invalid choice: 'x86-64-v4'" "$work/told"
"$tree/bin/build" aes3 archive 2>"$work/told"

# rt itself has left a library with its proofs: those above it can't be used over it, and are built with theirs.
later
(cd "$crates/low" && ../../bin/rt lib)
says >"$work/told"
judge "it says how many after a check by rt" grep -q ": 2 crates are to be proved and built: about [1-9]" "$work/told"
later
(cd "$crates/low" && ../../bin/rt lib)
judge "a check by rt itself" builds "middle+ aes3+ archive+" aes3 archive
judge "with --proofs" builds "other+" --proofs aes3 archive other
later
echo edit >>"$crates/low/src/lib.rt"
judge "an edit of what has its proofs" builds "low+ middle+ aes3+ archive+" aes3 archive

# What fails stays so, and what is edited meanwhile is for the next build.
: >"$crates/middle/src/wrong"
judge "a crate that is refused" sh -c '! "$0" aes3 >"$1" 2>&1 && grep -q "^bin/build: the build failed at middle" "$1"' "$tree/bin/build" "$work/told"
judge "and again" sh -c '! "$0" aes3 >"$1" 2>&1' "$tree/bin/build" "$work/told"
rm "$crates/middle/src/wrong"
judge "a crate that there is not" sh -c '"$0" nothing 2>"$1"; [ $? = 2 ] && grep -q "names no crate nothing" "$1"' "$tree/bin/build" "$work/told"
tell
