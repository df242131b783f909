#!/bin/sh
# tests/python.sh [LIBRARY]: the module of python/ as its callers get it right and wrong: tests/python/values.py, with numpy and without it,
# and the types that it has, by mypy: its own, those of a caller (tests/python/caller.py) and wrong calls (misuse.py). LIBRARY is what
# `bin/build aes3_c` makes where none is given.
#
# The last line is `N passed, M failed`, and the status 0 where none failed.

root=$(dirname "$(dirname "$(realpath "$0")")")
# shellcheck source=examples/words.sh
. "$root/examples/words.sh"
take_words 0 1 "$@"
# shellcheck source=tests/judging.sh
. "$root/tests/judging.sh"
leave_out() {
    echo "left out: tests/python.sh ($1)"
    tell
}
library=$(realpath -m "${1:-$root/crates/aes3_c/out/libaes3_c.a}")
[ -e "$library" ] || leave_out "there is no C library: bin/build aes3_c"
command -v cc >/dev/null || leave_out "cc is not installed"
cd "$work" || exit 2
export AES3_LIB="$work/libaes3.so.1" PYTHONPATH="$root/python" PYTHONDONTWRITEBYTECODE=1
"$root/bin/link-shared" "$AES3_LIB" "$library" || exit 2

# Runs a file of tests/python, and adds what it counted.
count() { # PYTHON FILE
    "$1" "$root/tests/python/$2" >said 2>&1
    status=$?
    counts=$(tail -n 1 said | grep -E '^[0-9]+ passed, [0-9]+ failed$')
    [ $status = 0 ] || head -n -1 said >&2
    if [ -n "$counts" ]; then
        failures=${counts#* passed, }
        passed=$((passed + ${counts%% *}))
        failed=$((failed + ${failures%% *}))
    else
        failed=$((failed + 1))
        echo "python: $2 by $1 ended with status $status" >&2
        cat said >&2
    fi
}

# Without numpy, also where it is installed.
printf '#!/bin/sh\nexec python3 -c "import runpy, sys; sys.modules[\\"numpy\\"] = None; del sys.argv[0]; runpy.run_path(sys.argv[0], run_name=\\"__main__\\")" "$@"\n' >plain
chmod +x plain
with=
for python in python3 /usr/bin/python3; do
    [ -n "$with" ] || ! "$python" -c 'import numpy' 2>/dev/null || with=$python
done
[ -n "$with" ] || echo "left out: tests/python/values.py with arrays of numpy (it is not installed)"
for python in "$work/plain" $with; do
    count "$python" values.py
    judge "caller.py by $python" "$python" "$root/tests/python/caller.py"
done

echo 'import numpy' >imports.py
if mypy --cache-dir=/dev/null imports.py >/dev/null 2>&1; then
    judge "the types of the module" mypy --strict --cache-dir=/dev/null "$root/python/aes3"
    for name in caller misuse; do
        judge "the types of $name.py" env MYPYPATH="$root/python" mypy --strict --cache-dir=/dev/null "$root/tests/python/$name.py"
    done
else
    echo "left out: the types of the module for Python (mypy is not installed, or numpy for its Python)"
fi
tell
