#!/bin/sh
# tests/install.sh: installs what is built in a scratch folder (bin/install --as-built), and there: the program and the header
# tell one version; the shared library has its soname and shows the calls of the header and no other name; a program in C
# is built over it by pkg-config and by CMake, and tells of a damaged line what the installed program tells; the first program of
# docs/C.md prints its whole blocks, also built by the commands there; a struct of another size than the library's is refused by C11 and C++11; a prefix below DESTDIR
# is told without it, and libraries in another folder are found; the loader takes the library for x86-64-v3 on such a processor.
#
# The last line is `N passed, M failed`, and the status 0 where none failed.

root=$(dirname "$(dirname "$(realpath "$0")")")
# shellcheck source=examples/words.sh
. "$root/examples/words.sh"
take_words 0 0 "$@"
# shellcheck source=tests/judging.sh
. "$root/tests/judging.sh"
judge_not() {
    what=$1
    shift
    if "$@" >"$work/said.last" 2>&1; then judge "$what" false; else judge "$what" true; fi
}
lacks() { ! command -v "$1" >/dev/null; }
# The processors that the programs here are built for.
cpu=$(cat "$root/crates/aes3/out/cpu" 2>/dev/null || echo x86-64-v2)
if [ "$cpu" = x86-64-v2 ]; then other=x86-64-v3; else other=x86-64-v2; fi

to=$work/to
judge "bin/install" "$root/bin/install" --as-built --cpu "$cpu" "$to"
cp "$work/said" "$work/files"
grep '^left out: ' "$work/files"
while IFS= read -r file; do
    case $file in "$to"/*) judge "$file" test -e "$file" ;; esac
done <"$work/files"
version=$("$to/bin/aes3" --version | cut -d' ' -f2)

judge_not "programs for other processors than are asked for" "$root/bin/install" --as-built --cpu "$other" "$work/none"
judge "it says so" grep -q "^install: aes3 is built for $cpu: bin/build --cpu $other aes3$" "$work/said.last"
judge "nothing is installed" test ! -e "$work/none"

# What was there before stays, and with it what is changed afterwards; all else of it goes.
old="$work/an old place"
mkdir -p "$old/share/man/man1" "$old/lib"
echo other >"$old/share/man/man1/other.1"
echo other >"$old/lib/libaes3.a"
(cd "$old" && find . | sort) >"$work/before"
judge "over what is there" "$root/bin/install" --as-built --cpu "$cpu" "$old"
judge "once more" "$root/bin/install" --as-built --cpu "$cpu" "$old"
echo changed >>"$old/share/man/man1/aes3.1"
rm "$old/lib/libaes3.so" "$old/lib/libaes3_c.a"
ln -s elsewhere "$old/lib/libaes3_c.a"
judge_not "a file that has changed is told by the status" "$root/bin/install" --uninstall "$old"
judge "it is named" grep -qx "left: $old/share/man/man1/aes3.1 (it has changed since)" "$work/said.last"
judge "a link of another's" test "$(readlink "$old/lib/libaes3_c.a")" = elsewhere
rm "$old/share/man/man1/aes3.1" "$old/lib/libaes3_c.a"
echo other >"$old/lib/libaes3.a"
(cd "$old" && find . | sort) >"$work/after"
judge "what was there before is there" cmp "$work/before" "$work/after"
judge_not "nothing is installed any more" "$root/bin/install" --uninstall "$old"
judge "it says so" grep -q "^install: nothing is installed below $old: " "$work/said.last"
new="$work/a new place"
judge "below a new folder, with LIBDIR" env LIBDIR="lib/some where" "$root/bin/install" --as-built --cpu "$cpu" "$new"
judge "the library there" test -e "$new/lib/some where/libaes3.a"
judge "removed again" "$root/bin/install" --uninstall "$new"
judge "the folder too" test ! -e "$new"
mkdir "$work/here"
judge "a name beside" sh -c 'cd "$1" && "$0" --as-built --cpu "$2" place && cd place && "$0" --uninstall "$PWD" && [ ! -e "$PWD" ]' \
    "$root/bin/install" "$work/here" "$cpu"
for words in --no-such-word "--as-built --uninstall" "--uninstall one two" --cpu "--cpu x86-64-v4"; do
    # shellcheck disable=SC2086 # they are words
    judge "$words" sh -c '"$0" "$@" 2>&1 | grep -q "^usage: bin/install "' "$root/bin/install" $words
done
judge "no folder of such a name" test ! -e ./--no-such-word

judge "a prefix below DESTDIR" env DESTDIR="$work/tree" "$root/bin/install" --as-built --cpu "$cpu" /opt/aes3
judge "the prefix in aes3.pc" grep -qx 'prefix=/opt/aes3' "$work/tree/opt/aes3/lib/pkgconfig/aes3.pc"
judge "LIBDIR" env LIBDIR=lib/some/where "$root/bin/install" --as-built --cpu "$cpu" "$work/other"
judge "the folder in aes3.pc" grep -qx 'libdir=${prefix}/lib/some/where' "$work/other/lib/some/where/pkgconfig/aes3.pc"

cat >"$work/version.c" <<'C'
#include <aes3.h>
#include <stdio.h>

int main(void) {
    printf("%s %d.%d.%d\n", AES3_VERSION, AES3_VERSION_MAJOR, AES3_VERSION_MINOR, AES3_VERSION_PATCH);
    return 0;
}
C
cat >"$work/CMakeLists.txt" <<CMAKE
cmake_minimum_required(VERSION 3.13)
project(own C)
find_package(aes3 $version REQUIRED)
add_executable(check "$root/examples/c/check.c")
target_link_libraries(check aes3::aes3)
add_executable(check_static "$root/examples/c/check.c")
target_link_libraries(check_static aes3::static)
CMAKE

"$to/bin/aes3" encode <"$root/examples/speech.block" | sed '48200s/^1/0/' | tail -c +12538 >"$work/line.txt"
"$to/bin/aes3" check <"$work/line.txt" >"$work/want"
tells() {
    "$@" <"$work/line.txt" >"$work/got"
    cmp "$work/got" "$work/want"
}

# The functions that the header declares, and those that the library shows.
sed -n '/^static/d; s/^[a-z][a-z0-9_ ]*[ *]\(aes3_[a-z_]*\)(.*/\1/p' "$to/include/aes3.h" | sort >"$work/declared"
if [ -e "$to/lib/libaes3.so.1" ]; then
    if lacks nm || lacks readelf; then
        echo "left out: the names of libaes3.so.1 (nm and readelf are not installed)"
    else
        nm -D --defined-only "$to/lib/libaes3.so.1" | sed 's/.* //' | sort >"$work/shown"
        judge "the names of libaes3.so.1" cmp "$work/declared" "$work/shown"
        readelf -d "$to/lib/libaes3.so.1" >"$work/dynamic"
        judge "the soname" grep -q 'soname: \[libaes3.so.1\]' "$work/dynamic"
    fi
    cc -I"$to/include" -o "$work/version" "$work/version.c"
    # Those that include the header are whole files; the others are parts of one.
    awk -v to="$work/example" '
        /^```c$/ { inside = 1; next }
        /^```/ { inside = name = 0; next }
        inside && /^#include "aes3.h"$/ { name = to (++count) ".c" }
        name { print > name }
    ' "$root/docs/C.md"
    judge "docs/C.md has a program that is a whole file" test -e "$work/example1.c"
    for example in "$work"/example*.c; do
        judge "$(basename "$example") of docs/C.md" cc -std=c99 -Wall -Wextra -pedantic -Werror -I"$to/include" -fsyntax-only "$example"
    done
    # The first one prints the whole blocks of a damaged line, the last of which ends with its cells.
    "$to/bin/aes3" encode --packed-out <"$root/examples/speech.block" | head -c -1 | tail -c +1568 >"$work/line.raw"
    printf ab | dd of="$work/line.raw" bs=1 seek=300000 conv=notrunc 2>/dev/null
    "$to/bin/aes3" check --raw-in <"$work/line.raw" | grep '^whole ' >"$work/whole"
    judge "the whole blocks of a damaged line" test "$(wc -l <"$work/whole")" = 248
    cc -I"$to/include" -o "$work/first" "$work/example1.c" "$to/lib/libaes3.a"
    judge "the program of docs/C.md prints them" sh -c '"$1/first" <"$1/line.raw" | cmp - "$1/whole"' - "$work"
    # The commands of that page, in a folder like a clone in which the library is built.
    mkdir -p "$work/clone/bin" "$work/clone/out" "$work/clone/crates/aes3_c/out"
    ln -s "$root/include" "$root/examples" "$work/clone"
    ln -s "$to/lib/libaes3.a" "$work/clone/crates/aes3_c/out/libaes3_c.a"
    ln -s "$to/bin/aes3" "$work/clone/bin/aes3"
    printf '#!/bin/sh\n' >"$work/clone/bin/build"
    printf '#!/bin/sh\nexec "%s" --as-built --cpu %s "$@"\n' "$root/bin/install" "$cpu" >"$work/clone/bin/install"
    chmod +x "$work/clone/bin/build" "$work/clone/bin/install"
    cp "$work/example1.c" "$work/clone/out/whole.c"
    commands() { # KIND NUMBER: of the page's blocks of this kind
        awk -v kind="$1" -v number="$2" '/^```/ { inside = $0 == "```" kind && ++count == number; next } inside' "$root/docs/C.md"
    }
    "$to/bin/aes3" encode "-i$root/examples/speech.block" | "$to/bin/aes3" check >"$work/all"
    commands sh 1 >"$work/clone/first"
    judge "the commands of docs/C.md that build the program" sh -c 'cd "$1" && sh -e ./first | cmp - "$2"' - "$work/clone" "$work/all"
    if ! lacks pkg-config; then
        commands sh 2 >"$work/clone/second"
        echo 'out/whole <"$1"' >>"$work/clone/second"
        judge "the commands of docs/C.md that install the library" \
            sh -c 'cd "$1" && HOME=$1/home sh -e ./second "$2" | grep "^whole" | cmp - "$3"' - "$work/clone" "$work/line.raw" "$work/whole"
    fi
    if ! lacks cmake; then
        { printf 'cmake_minimum_required(VERSION 3.13)\nproject(own C)\n' && commands cmake 1; } >"$work/clone/CMakeLists.txt"
        judge "CMake takes the lines of docs/C.md" cmake -S "$work/clone" -B "$work/clone/made" -DCMAKE_PREFIX_PATH="$to"
        judge "CMake builds by the lines of docs/C.md" cmake --build "$work/clone/made"
    fi
    judge "the version of the header" test "$("$work/version")" = "$version $version"
    sed 's/state\[388\]/state[389]/' "$to/include/aes3.h" >"$work/aes3.h"
    echo '#include "aes3.h"' >"$work/size.c"
    for standard in c99 c11 c17; do
        judge "the header by $standard" cc -std=$standard -Wall -Wextra -pedantic -Werror -fsyntax-only -include "$to/include/aes3.h" -x c /dev/null
    done
    judge "another size by C99" cc -std=c99 -fsyntax-only "$work/size.c"
    judge_not "another size by C11" cc -std=c11 -fsyntax-only "$work/size.c"
    lacks c++ || judge_not "another size by C++11" c++ -std=c++11 -fsyntax-only -x c++ "$work/size.c"
    export LD_LIBRARY_PATH="$to/lib"
    if lacks pkg-config; then
        echo "left out: a program by pkg-config (it is not installed)"
    else
        export PKG_CONFIG_PATH="$to/lib/pkgconfig"
        judge "the version of aes3.pc" test "$(pkg-config --modversion aes3)" = "$version"
        # shellcheck disable=SC2046
        cc -o "$work/check" "$root/examples/c/check.c" $(pkg-config --cflags --libs aes3)
        judge "a program by pkg-config" tells "$work/check"
        judge "it wants the shared library" sh -c "readelf -d '$work/check' | grep -q 'libaes3.so.1'"
    fi
    # The loader takes the library for the processor at hand; with a mask of x86-64-v2, or on such a processor, the other.
    newer=$to/lib/glibc-hwcaps/x86-64-v3/libaes3.so.1
    loader=$(readelf -l "$work/version" 2>/dev/null | sed -n 's/.*interpreter: \(.*\)]$/\1/p')
    loaded() { LD_DEBUG=libs "$@" 2>&1 >/dev/null <"$work/line.txt" | sed -n 's/.*calling init: \(.*libaes3\.so\.1\)$/\1/p'; }
    if [ ! -e "$newer" ]; then
        echo "left out: the library for x86-64-v3 (it is not installed beside the other)"
    elif ! "$loader" --help 2>/dev/null | grep -q -e --glibc-hwcaps-mask; then
        echo "left out: the library for x86-64-v3 (this loader is not that of glibc 2.33 or later)"
    else
        cc -o "$work/beside" "$root/examples/c/check.c" -I"$to/include" -L"$to/lib" -laes3
        if "$loader" --help | grep -q 'x86-64-v3 (supported'; then wanted=$newer; else wanted=$to/lib/libaes3.so.1; fi
        judge "the loader takes $wanted" test "$(loaded "$work/beside")" = "$wanted"
        judge "a program over it" tells "$work/beside"
        judge "with a mask it takes the other" test "$(loaded "$loader" --glibc-hwcaps-mask x86-64-v2 "$work/beside")" = "$to/lib/libaes3.so.1"
        judge "a program over the other" tells "$loader" --glibc-hwcaps-mask x86-64-v2 "$work/beside"
        judge "the one for x86-64-v3 has its instructions" sh -c 'objdump -d "$1" | grep -q "%ymm"' - "$newer"
        judge "the other has none of them" sh -c '! objdump -d "$1" | grep -q "%ymm"' - "$to/lib/libaes3.so.1"
        judge "both show the same names" sh -c '[ "$(nm -D --defined-only "$1" | cut -d" " -f3)" = "$(nm -D --defined-only "$2" | cut -d" " -f3)" ]' - "$newer" "$to/lib/libaes3.so.1"
    fi
    if lacks cmake; then
        echo "left out: a program by CMake (it is not installed)"
    else
        judge "CMake finds it" cmake -S "$work" -B "$work/cmake" -DCMAKE_PREFIX_PATH="$to"
        judge "CMake builds over it" cmake --build "$work/cmake"
        judge "a program by CMake" tells "$work/cmake/check"
        judge "a program by CMake, static" tells env -u LD_LIBRARY_PATH "$work/cmake/check_static"
        judge "CMake finds it in LIBDIR" cmake -S "$work" -B "$work/where" -Daes3_DIR="$work/other/lib/some/where/cmake/aes3"
        judge "CMake builds over it in LIBDIR" cmake --build "$work/where"
        judge "a program by CMake over it in LIBDIR" tells "$work/where/check_static"
        sed -i 's/find_package(aes3 .* REQ/find_package(aes3 99 REQ/' "$work/CMakeLists.txt"
        judge_not "a version that there is not" cmake -S "$work" -B "$work/other" -DCMAKE_PREFIX_PATH="$to"
    fi
fi
tell
