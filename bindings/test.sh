#!/bin/sh
# Builds librelc, tests it from C and from Rust, and runs the examples, where gcc or clang, cargo
# and valgrind are there; what is left out is said. Its last line is 'N passed, M failed', in which
# each step of the building counts, each program, each example, and all tests of the crate as one.
here=$(CDPATH= cd -- "$(dirname "$0")" && pwd)
out=$here/out
passed=0
failed=0
run() {
    if "$@"; then passed=$((passed + 1)); else
        failed=$((failed + 1))
        echo "failed: $*" >&2
        return 1
    fi
}
has() {
    command -v "$1" >/dev/null 2>&1 && return
    echo "left out, since there is no $1: $2" >&2
    return 1
}
compile() {
    run ${CC:-cc} -std=c11 -D_POSIX_C_SOURCE=200809L -O2 -Wall -Wextra "$@" -lpthread
}
installed=$(mktemp -d) || exit 1
trap 'rm -rf "$installed"; echo "$passed passed, $failed failed"' EXIT

run "$here/build.sh" --check || exit 1
# the shared library has each function that a header declares
sed -n 's/^[a-z].*[ *]\(relc_[a-z_]*\)(.*/\1/p' "$here"/c/relc.h "$here"/c/relc_wait.h "$here"/c/relc_texts.h |
    sort >"$out/declared"
nm -D --defined-only "$out/librelc.so" | sed 's/.* //' | grep '^relc_' | sort >"$out/exported"
run cmp "$out/declared" "$out/exported"
compile -o "$out/test" "$here/c/test.c" "$out/librelc.a" || exit 1
run "$out/test"
compile -o "$out/test-shared" "$here/c/test.c" -L"$out" -lrelc -Wl,-rpath,"$out" || exit 1
run "$out/test-shared"
compile -o "$out/plans" "$here/c/plans.c" "$out/librelc.a" || exit 1
run "$out/plans"
compile -o "$out/shapes" "$here/c/shapes.c" "$out/librelc.a" || exit 1
run "$out/shapes"
compile -o "$out/resume" "$here/c/resume.c" "$out/librelc.a" || exit 1
run "$out/resume"
compile -o "$out/wakes" "$here/c/wakes.c" "$out/librelc.a" || exit 1
run "$out/wakes"
compile -o "$out/patience" "$here/c/patience.c" "$out/librelc.a" || exit 1
run "$out/patience"
compile -o "$out/cancel" "$here/c/cancel.c" "$out/librelc.a" || exit 1
run "$out/cancel"
compile -o "$out/sessions" "$here/c/sessions.c" "$out/librelc.a" || exit 1
run "$out/sessions"
compile -o "$out/largest" "$here/c/largest.c" "$out/librelc.a" || exit 1
run "$out/largest"
# a library that looks at its handles tells wrong ones, and does what the other one does
compile -o "$out/wrong" "$here/c/wrong.c" "$out/librelc-check.a" || exit 1
run "$out/wrong"
compile -o "$out/test-check" "$here/c/test.c" "$out/librelc-check.a" || exit 1
run "$out/test-check"
compile -o "$out/plans-check" "$here/c/plans.c" "$out/librelc-check.a" || exit 1
run "$out/plans-check"
compile -o "$out/shapes-check" "$here/c/shapes.c" "$out/librelc-check.a" || exit 1
run "$out/shapes-check"
compile -o "$out/resume-check" "$here/c/resume.c" "$out/librelc-check.a" || exit 1
run "$out/resume-check"
compile -o "$out/sessions-check" "$here/c/sessions.c" "$out/librelc-check.a" || exit 1
run "$out/sessions-check"
compile -o "$out/texts" "$here/c/texts.c" "$out/librelc.a" || exit 1
run "$out/texts"
compile -o "$out/memory" "$here/c/memory.c" "$out/librelc.a" || exit 1
run "$out/memory"
run env CALLS=1000 SEEDS=1 sh "$here/../bench/agree.sh"
if has python3 "the page of refusals and what is made of its text"; then
    run python3 "$here/../checks/refusals.py" --check
    if [ -x "$here/../crates/relc/out/relc" ]; then
        run python3 "$here/../checks/refusals.py" --try "$here/../crates/relc/out/relc"
    fi
fi
if has valgrind "the tests in C once more, for memory"; then
    run valgrind -q --error-exitcode=1 --leak-check=full "$out/test"
    run valgrind -q --error-exitcode=1 --leak-check=full "$out/plans"
    run valgrind -q --error-exitcode=1 --leak-check=full "$out/shapes"
    run valgrind -q --error-exitcode=1 --leak-check=full "$out/resume"
    run valgrind -q --error-exitcode=1 --leak-check=full "$out/memory"
    run valgrind -q --error-exitcode=1 --leak-check=full "$out/texts"
fi
if has make "installing"; then
    # (outside of the repository, in which rt ci takes no links)
    run make -s -C "$here" install DESTDIR="$installed" PREFIX=/usr
    if has c++ "the headers in C++"; then
        cat >"$installed/try.cpp" <<'END_OF_CPP'
#include <relc.h>
#include <relc_texts.h>
#include <relc_wait.h>
int main() { return relc_version() != RELC_VERSION; }
END_OF_CPP
        run c++ -Wall -Wextra -o "$installed/try" "$installed/try.cpp" -I"$installed/usr/include" \
            -L"$installed/usr/lib" -lrelc -Wl,-rpath,"$installed/usr/lib" && run "$installed/try"
    fi
fi
if has cargo "the tests in Rust"; then
    run sh -c "cd '$here/rust' && cargo test --offline --release"
fi
RELC_BUILT=1 "$here/examples.sh" | tee "$out/examples.log"
tally=$(tail -n 1 "$out/examples.log")
case $tally in
*" passed, "*" failed")
    passed=$((passed + ${tally%% *}))
    tally=${tally#*, }
    failed=$((failed + ${tally%% *}))
    ;;
*)
    failed=$((failed + 1))
    echo "failed: examples.sh" >&2
    ;;
esac
[ "$failed" -eq 0 ]
