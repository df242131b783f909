#!/bin/sh
# tests/packages.sh: makes the Debian packages of what is built (bin/package --as-built), has lintian look at them, and installs them in
# a root made anew (mmdebstrap), with what they depend on and compilers, and nothing of this clone: there the program and its manual page,
# the commands of README, tutorial and docs/COMMANDS.md over the examples that the package brought, the examples in C, C++, Python and Rust over the
# packages, by pkg-config and CMake, the page for a browser and the links between the pages in HTML. Removed, they leave nothing.
#
# With AES3_ROOT in the environment the root is that folder's, which has to be one that a run of this made with AES3_ROOT=FOLDER. It
# wants a Debian, root's rights and a mirror of packages, and some minutes. The last line is `N passed, M failed`.

root=$(dirname "$(dirname "$(realpath "$0")")")
# shellcheck source=examples/words.sh
. "$root/examples/words.sh"
take_words 0 0 "$@"
# shellcheck disable=SC1091
release=$(. /etc/os-release && echo "${VERSION_CODENAME:-stable}")
# shellcheck source=tests/judging.sh
. "$root/tests/judging.sh"
place=${AES3_ROOT:-$work/root}
trap 'umount "$place/proc" 2>/dev/null; rm -rf "$work"' EXIT
lacks() { ! command -v "$1" >/dev/null; }

for tool in dpkg-deb cc python3 pandoc; do
    if lacks $tool; then
        echo "left out: the Debian packages ($tool is not installed)"
        tell
    fi
done
mkdir "$work/debs"
# Packages of programs that are built for x86-64-v3 are called so.
cpu=$(cat "$root/crates/aes3/out/cpu" 2>/dev/null || echo x86-64-v2)
only=''
[ "$cpu" = x86-64-v2 ] || only=-$cpu
judge "bin/package" "$root/bin/package" --as-built --cpu "$cpu" "$work/debs"
packages="aes3$only libaes3-1$only libaes3-dev$only python3-aes3 sigrok-aes3"
for package in $packages; do
    judge "the package $package" test -e "$work"/debs/${package}_*.deb
done
judge "and no other" test "$(find "$work/debs" -name '*.deb' | wc -l)" = 5
if [ -n "$only" ]; then
    judge "aes3$only looks at the processor first" sh -c 'dpkg-deb --ctrl-tarfile "$1" | tar -xO ./preinst | grep -q "for feature in .* avx2 .* bmi2 "' - "$work"/debs/aes3${only}_*.deb
    judge "it takes the place of aes3" sh -c 'dpkg-deb -f "$1" Conflicts Replaces Provides | grep -c "aes3" | grep -qx 3' - "$work"/debs/aes3${only}_*.deb
elif [ -e "$root/crates/aes3_c/out/x86-64-v3/libaes3_c.a" ]; then
    judge "the library for x86-64-v3" sh -c 'dpkg-deb -c "$1" | grep -q "/glibc-hwcaps/x86-64-v3/libaes3.so.1$"' - "$work"/debs/libaes3-1_*.deb
else
    echo "left out: the library for x86-64-v3 in the packages (it is not built: bin/library-for x86-64-v3)"
fi
if [ -n "$only" ]; then
    echo "left out: lintian (it knows no packages for some processors alone)"
elif lacks lintian; then
    echo "left out: lintian (it is not installed)"
else
    judge "lintian" lintian --fail-on error,warning "$work"/debs/*.deb
fi

if lacks mmdebstrap || [ "$(id -u)" != 0 ]; then
    echo "left out: the packages in a root of their own (mmdebstrap is not installed, or this is not root)"
    tell
fi
if [ ! -e "$place/bin/sh" ]; then
    mkdir -p "$place"
    if ! timeout 900 mmdebstrap --quiet --variant=minbase \
        --include=python3,python3-numpy,gcc,g++,libc6-dev,pkg-config,cmake,make,cargo,man-db,sox,parallel "$release" "$place" >"$work/said" 2>&1; then
        echo "left out: the packages in a root of their own (mmdebstrap makes none: $(tail -n 1 "$work/said"))"
        tell
    fi
fi

# inside COMMAND..: in the root, in a folder of a user's, with nothing of this environment.
inside() { chroot "$place" /usr/bin/env -i PATH=/usr/bin:/bin:/usr/sbin:/sbin HOME=/walk LC_ALL=C.UTF-8 sh -c "cd /walk && $1"; }
rm -rf "$place/walk"
mkdir -p "$place/walk/debs" "$place/walk/docs" "$place/walk/tests" "$place/walk/src"
cp "$work"/debs/*.deb "$place/walk/debs"
# sigrok is not in this root.
rm "$place"/walk/debs/sigrok-aes3_*.deb
judge "dpkg -i" inside "dpkg -i debs/*.deb"
judge "the program" inside "aes3 --version"
judge "the manual page" inside "man -w aes3"
judge "the completion for bash" inside "bash -c '. /usr/share/bash-completion/completions/aes3 && complete -p aes3'"
judge "the linker knows the library" inside "ldconfig -p | grep -q libaes3.so.1"
judge "the page for a browser" cmp "$place/usr/share/doc/aes3/aes3.html" "$root/web/aes3.html"

# What the pages name is in the package: each file below examples/ that a command of them has.
grep -ohE 'examples/[a-z]+/[a-z_.]+|examples/[a-z]+\.block' "$root/README.md" "$root/docs/TUTORIAL.md" "$root/docs/COMMANDS.md" | grep -v '^examples/own/' | sort -u >"$work/named"
grep -ohE '`(many|watch|neighbours)/[a-z0-9_@.-]+' "$root/examples/README.md" | sed 's/^`/examples\//' | grep -v '/run$' | sort -u >>"$work/named"
while IFS= read -r file; do
    judge "$file" test -e "$place/usr/share/doc/aes3/$file"
done <"$work/named"
# And each page to which one of them links.
links() {
    cd "$place/usr/share/doc/aes3" || return 1
    find . -name '*.html' ! -name aes3.html | while IFS= read -r page; do
        grep -oE '(href|src)="[^"#:]+' "$page" | sed 's/.*"//' | while IFS= read -r target; do
            [ -e "$(dirname "$page")/$target" ] || echo "$page: $target"
        done
    done >"$work/dead"
    cat "$work/dead"
    [ ! -s "$work/dead" ]
}
judge "the links between the pages" links

# rustc and GNU parallel look themselves up in /proc.
has_proc=
if mount -t proc proc "$place/proc" 2>/dev/null; then
    has_proc=1
else
    inside "rm -f /usr/bin/parallel"
fi

# The commands of README, tutorial and docs/COMMANDS.md, over the package's examples.
cp "$root/README.md" "$place/walk"
cp "$root/docs/TUTORIAL.md" "$root/docs/COMMANDS.md" "$place/walk/docs"
cp "$root/tests/readme.sh" "$place/walk/tests"
cp -r "$place/usr/share/doc/aes3/examples" "$place/walk/examples"
judge "the commands of README, tutorial and docs/COMMANDS.md" inside "CELLS=/usr/bin/aes3-cells SPOIL=/usr/bin/aes3-spoil sh tests/readme.sh /usr/bin/aes3"
grep -aE '^left out: |passed' "$work/said" | sed 's/^left out: /left out, in a root of its own: /'

brought=$place/usr/share/doc
cp "$brought"/libaes3-dev/examples/c/*.c "$brought"/libaes3-dev/examples/cpp/*.cpp "$brought"/python3-aes3/examples/*.py "$place/walk/src"
cp -r "$brought/libaes3-dev/examples/rust" "$place/walk/rust"
cat >"$place/walk/src/CMakeLists.txt" <<'CMAKE'
cmake_minimum_required(VERSION 3.13)
project(own C)
find_package(aes3 REQUIRED)
add_executable(shared check.c)
target_link_libraries(shared aes3::aes3)
add_executable(static check.c)
target_link_libraries(static aes3::static)
CMAKE
inside "aes3 encode <examples/speech.block | sed '48200s/^1/0/' | tail -c +12538 >line.txt; aes3 check <line.txt >want
    aes3 encode --packed-out <examples/speech.block >line.packed; aes3 check --packed-in <line.packed >want.packed"
tells() { inside "{ $1 <line.txt || [ \$? = 1 ]; } >got && cmp got want"; }
tells_packed() { inside "$1 <line.packed >got && cmp got want.packed"; }
judge "a program in C" inside 'cc -o check src/check.c $(pkg-config --cflags --libs aes3)'
judge "a program in C, run" tells ./check
if [ -z "$only" ] && grep -q '^flags.* avx2\b' /proc/cpuinfo && [ -e "$place$(inside "ldconfig -p" | sed -n 's/.*hwcap.*x86-64-v3.*=> \(.*libaes3\.so\.1\)$/\1/p')" ]; then
    judge "over the library for x86-64-v3" inside "LD_DEBUG=libs ./check <line.txt 2>&1 >/dev/null | grep -q 'calling init: .*/glibc-hwcaps/x86-64-v3/libaes3.so.1$'"
fi
if inside "command -v aes3-cells" >/dev/null; then
    judge "a capture in C" inside 'cc -o capture src/capture.c $(pkg-config --cflags --libs aes3)
        examples/neighbours/samples.py 3.90625 0.3 <line.txt >samples.bin
        ./capture <samples.bin >got.packed && aes3-cells --packed-out <samples.bin >want.cells && cmp got.packed want.cells'
else
    echo "left out: a capture in C, in a root of its own (no aes3-cells was built: bin/build aes3_cells_program)"
fi
judge "a program in C++" inside 'c++ -std=c++11 -o checkpp src/check.cpp $(pkg-config --cflags --libs aes3)'
judge "a program in C++, run" tells_packed ./checkpp
judge "CMake" inside "cmake -S src -B made && cmake --build made"
judge "a program by CMake" tells made/shared
judge "a program by CMake, static" tells made/static
judge "the module for Python, compiled" inside "ls /usr/lib/python3/dist-packages/aes3/__pycache__/*.pyc"
judge "a program in Python" tells "python3 src/check.py"
judge "user bits beside a WAV in Python" inside 'sox -R -n -r 48000 -b 24 -c 2 tone.wav synth 0.4 sine 997
    sox tone.wav -t s32 - | aes3 from-pcm | python3 src/user.py README.md | aes3 encode --packed-out >line.user
    head -c 2400 README.md >sent && aes3 to-bits user 1 --packed-in line.user >got && cmp got sent
    sox tone.wav -t s32 sent && aes3 to-pcm --packed-in line.user >got && cmp got sent'
if [ -n "$has_proc" ]; then
    judge "a program in Rust" inside "cd rust && cargo build --offline -q --example check && cp target/debug/examples/check ../checkrs"
    judge "a program in Rust, run" tells ./checkrs
    judge "the tests in Rust" inside "cd rust && cargo test --offline -q"
else
    echo "left out: Rust over the packages (no /proc can be mounted in their root)"
fi

judge "the packages removed" inside "dpkg -P python3-aes3 libaes3-dev$only libaes3-1$only aes3$only"
judge "what is left of them" test -z "$(find "$place/usr" "$place/etc" -name '*aes3*' | head -n 1)"
tell
