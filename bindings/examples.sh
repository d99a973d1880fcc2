#!/bin/sh
# Builds the examples and runs each: rust/examples, and c/graph.c, c/jobs.c and c/index.c, whose
# specifications stand in rust/examples or beside them. Each compares what it finds with what it did,
# and fails where that differs. It builds librelc first by build.sh, but where RELC_BUILT says that
# this was done just now. Its last line is 'N passed, M failed', in which each step of the building
# counts, and each example.
here=$(CDPATH= cd -- "$(dirname "$0")" && pwd)
out=$here/out
passed=0
failed=0
run() {
    if "$@"; then passed=$((passed + 1)); else
        failed=$((failed + 1))
        echo "failed: $*" >&2
        return 1
    fi
}
trap 'echo "$passed passed, $failed failed"' EXIT

if [ -z "$RELC_BUILT" ]; then
    run "$here/build.sh" || exit 1
fi
for name in graph jobs index; do
    run ${CC:-cc} -std=c11 -D_POSIX_C_SOURCE=200809L -O2 -Wall -Wextra -I"$here/c" -o "$out/$name" \
        "$here/c/$name.c" "$out/librelc.a" -lpthread || exit 1
done
run "$out/graph" "$here/rust/examples/graph.relc"
run "$out/jobs" "$here/c/jobs.relc"
run "$out/index" "$here/c/index.relc"
if command -v cargo >/dev/null 2>&1; then
    cd "$here/rust" || exit 1
    for name in scheduler states cache directory graph accounts payments connections expiry; do
        run cargo run --quiet --offline --release --example "$name"
    done
    # (of a refusal the first sentence)
    run sh -c 'test "$(printf "+ src dst = 1 2 10\n? dst = 2 -> src\n- src = 1\n? dst = 2 -> src weight\n- dst src = 2 1\n" |
        cargo run --quiet --offline --release --example shell -- examples/graph.relc |
        cut -d . -f 1)" = "insert src dst [1, 2, 10]: Added
query dst -> src [2]: [[1]]
remove src [1]: refused W4 line 2 (\`remove src\`)
query dst -> src weight [2]: [[1, 10]]
remove dst src [2, 1]: Removed([1, 2, 10])"'
    if [ -x "$here/../crates/relc/out/relc" ]; then
        run cargo run --quiet --offline --release --example judged -- "$here/../crates/relc/out/relc"
    else
        echo "left out, since crates/relc/out/relc isn't built: the example judged" >&2
    fi
else
    echo "left out, since there is no cargo: the examples in Rust" >&2
fi
[ "$failed" -eq 0 ]
