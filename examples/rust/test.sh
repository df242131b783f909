#!/bin/sh
# test.sh [PROGRAM [LIBRARY]]: the crates aes3-sys and aes3 over an installed library, which they find by pkg-config: their tests over
# the shared library and over the static one, the examples in their docs, and the lines that their example tells of whole and damaged
# lines, which have to be those of PROGRAM. Their docs are made without a warning, and every public item has some. Nothing is asked of a registry. PROGRAM is bin/aes3 where none is given, LIBRARY what `bin/build aes3_c` makes.
# The last line is `N passed, M failed`; status 1 where one differs.
here=$(dirname "$(realpath "$0")")
root=$(realpath "$here/../..")
# shellcheck source=examples/words.sh
. "$here/../words.sh"
take_words 0 2 "$@"
find_program aes3 "${1:-$root/bin/aes3}"
library=$(realpath "${2:-$root/crates/aes3_c/out/libaes3_c.a}") || exit 2
[ -e "$library" ] || { echo "test: no $library; run bin/build aes3_c"; exit 2; }
for tool in pkg-config cc; do
    command -v $tool >/dev/null || { echo "left out: the crates in Rust ($tool is not installed)" && echo "0 passed, 0 failed" && exit 0; }
done
folder=$(mktemp -d) || exit 2
trap 'rm -rf "$folder"' EXIT
passed=0 failed=0

# judge WHAT COMMAND..
judge() {
    what=$1
    shift
    if "$@" >"$folder/said" 2>&1; then
        passed=$((passed + 1))
    else
        failed=$((failed + 1))
        echo "test: $what differs" >&2
        cat "$folder/said" >&2
    fi
}

to=$folder/to
mkdir -p "$to/lib/pkgconfig" "$folder/rust"
cp "$library" "$to/lib/libaes3.a"
"$root/bin/link-shared" "$to/lib/libaes3.so.1" "$library" || exit 2
ln -s libaes3.so.1 "$to/lib/libaes3.so"
version=$("$program" --version | cut -d' ' -f2)
for crate in aes3 aes3-sys; do
    judge "the version of $crate" grep -qx "version = \"$version\"" "$here/$crate/Cargo.toml"
done
printf 'libdir=%s/lib\nName: aes3\nDescription: codec\nVersion: %s\nLibs: -L${libdir} -laes3\n' "$to" "$version" >"$to/lib/pkgconfig/aes3.pc"
export PKG_CONFIG_PATH="$to/lib/pkgconfig" CARGO_TARGET_DIR="$folder/target" CARGO_NET_OFFLINE=true
# A copy, so that cargo leaves no file here.
cp -r "$here/aes3" "$here/aes3-sys" "$here/Cargo.toml" "$here/rustfmt.toml" "$folder/rust"
cd "$folder/rust" || exit 2

"$program" encode <"$root/examples/speech.block" >line.txt
sed '48200s/^1/0/' line.txt | tail -c +12538 >damaged.txt
# In the other polarity, cut by the end; and with the last parity bit of all wrong.
head -c 3200000 line.txt | tr 01 10 >turned.txt
head -n 1152 line.txt | sed '$ { s/0$/x/; s/1$/0/; s/x$/1/; }' >marked.txt
for name in line damaged turned marked; do
    { "$program" check <$name.txt && echo 0 || echo $?; } >$name.want
done
tells() { # PROGRAM NAME
    { "$1" <"$2.txt" && echo 0 || echo $?; } >got
    cmp got "$2.want"
}

# The examples in `///` docs run, and there are some.
documented() { cargo test -q --doc -p aes3 >doc 2>&1 && grep -Eq '^test result: ok\. [1-9][0-9]+ passed' doc || { cat doc && false; }; }

examples() { # HOW
    judge "the tests over the $1 library" cargo test -q --lib --tests
    judge "the examples in the docs over the $1 library" documented
    judge "the example over the $1 library" cargo build -q --example check
    for name in line damaged turned marked; do
        judge "the example over the $1 library on $name" tells "$CARGO_TARGET_DIR/debug/examples/check" $name
    done
}

# The example of docs/C.md, as a program.
{ sed -n '/^## From Rust/,/^## From Rattle/p' "$root/docs/C.md" | sed -n '/^```rust$/,/^```$/p' | sed '/^```/d'; echo 'fn main() { tell_blocks(&[0; 4]).unwrap(); print_reports(&[0][..]).unwrap() }'; } >aes3/examples/shown.rs
judge "the example of docs/C.md" env LD_LIBRARY_PATH="$to/lib" cargo run -q --example shown
rm aes3/examples/shown.rs

wants() { readelf -d "$CARGO_TARGET_DIR/debug/examples/check" | grep -c 'libaes3.so.1'; }
LD_LIBRARY_PATH=$to/lib
export LD_LIBRARY_PATH
examples shared
judge "it wants the shared library" test "$(wants)" = 1
unset LD_LIBRARY_PATH
AES3_STATIC=1
export AES3_STATIC
examples static
judge "it wants no shared library" test "$(wants)" = 0
judge "no warning" env RUSTFLAGS="-D warnings" cargo check -q --all-targets
judge "without std" env RUSTFLAGS="-D warnings" cargo check -q --lib --no-default-features
for features in "" --no-default-features; do
    # shellcheck disable=SC2086
    judge "the docs, with no warning${features:+, $features}" env RUSTDOCFLAGS="-D warnings" cargo doc -q --no-deps $features
done
for crate in aes3 aes3-sys; do
    judge "$crate warns of public items without docs" grep -qx '#!\[warn(missing_docs)\]' $crate/src/lib.rs
done
if cargo clippy --version >/dev/null 2>&1; then
    judge "clippy" cargo clippy -q --all-targets -- -D warnings
fi
if cargo fmt --version >/dev/null 2>&1; then
    judge "cargo fmt" cargo fmt --check
fi
judge "a library that is not there" sh -c '! PKG_CONFIG_PATH=/nowhere PKG_CONFIG_LIBDIR=/nowhere cargo build -q 2>said && grep -q "finds no libaes3" said'

echo "$passed passed, $failed failed"
[ "$failed" = 0 ]
