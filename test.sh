#!/bin/sh
# The tests: the Rattle gate, then the comparison with the Rust and the C example over the static library.
set -eu
cd "$(dirname "$0")"
last=$(mktemp)
ended=$(mktemp)
trap 'rm -f "$last" "$ended"' EXIT

# The gate comes first, on the checkout as it stands. All that it says is shown, its last line when all else has passed. It fails nothing where a must-fail edit no
# longer fits its source, and only counts it as bad on its line 'rt: ok': here that fails.
bad=0
{
    status=0
    rt ci || status=$?
    echo "$status" >"$ended"
} | awk -v last="$last" '
    /^rt: ok/ && match($0, /, [0-9]+ bad/) { bad += substr($0, RSTART + 2) }
    /^[0-9]+ passed, [0-9]+ failed/ { print >last; next }
    { print; fflush() }
    END {
        if (bad > 0) print "test.sh: FAILED: must-fail edits that are bad: " bad
        exit (bad > 0)
    }
' || bad=1
status=$(cat "$ended")
if [ "$status" != 0 ] || [ "$bad" != 0 ]; then
    cat "$last"
    [ "$status" = 0 ] || exit "${status:-1}"
    exit 1
fi

sh c/build.sh
(cd rust && cargo test --release && cargo run --release -q -p vectors -- ../crates/replay/stdin check)
sh c/check.sh
cat "$last"
