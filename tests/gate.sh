#!/usr/bin/env bash
# The whole gate: `rt ci` over every listed crate, then the executed tests. The last line counts both.
set -u
cd "$(dirname "$0")/.."
export CARGO_TARGET_DIR=${CARGO_TARGET_DIR:-$PWD/target/tests} NULDWICH_LIB_DIR=${NULDWICH_LIB_DIR:-$PWD/target/staticlib}
log=$(mktemp)
trap 'rm -f "$log"' EXIT
passed=0 failed=0

# Runs a command whose last line is 'N passed, M failed' and adds it up; anything else, and nothing passed, is one failure.
counted() {
    "$@" 2>&1 | tee "$log"
    local status=${PIPESTATUS[0]} good=0 bad=1
    if [[ $(tail -n 1 "$log") =~ ^([0-9]+)\ passed,\ ([0-9]+)\ failed$ ]]; then
        good=${BASH_REMATCH[1]} bad=${BASH_REMATCH[2]}
        [ "$status" -eq 0 ] && [ "$good" -gt 0 ] || [ "$bad" -gt 0 ] || bad=1
    fi
    passed=$((passed + good)) failed=$((failed + bad))
}

# Runs a command that passes by its exit status: one test.
single() {
    if "$@"; then
        passed=$((passed + 1))
    else
        echo "failed: $*"
        failed=$((failed + 1))
    fi
}

build() {
    cargo build --quiet --release --offline --locked --manifest-path tests/Cargo.toml "$@"
}

# The desk's test programs.
build_desk() {
    CARGO_TARGET_DIR=$PWD/target/desk-build cargo build --quiet --release --offline --locked --manifest-path desk/Cargo.toml -p desk_tests -p grown
}

# The solver's numbers, sums and lattices.
test_solver() {
    CARGO_TARGET_DIR=$PWD/target/desk-build cargo test --quiet --release --offline --locked --manifest-path desk/Cargo.toml -p solver
}

# Every crate passed, and by the logic that the prover was built for: it says pinned=no where that is another one. A crate that a run on this machine has passed is
# kept, and has no line of its own.
own_logic() {
    grep -q '^rt: ok' "$log" && ! grep -q 'pinned=no' "$log"
}

# Every edit on file was refused: one that does not fit its text is bad, and `rt ci` passes all the same.
edits_refused() {
    local edits
    edits=$(find crates -path '*/must-fail/*.edit' | wc -l)
    grep -qE "^rt: ok.*must-fail edits: $edits refused" "$log" && ! grep -qE '^rt: ok.*, [1-9][0-9]* bad' "$log"
}

counted tests/statements.sh
counted tests/floors.sh
counted python3 tools/name_paths.py --check
counted python3 tools/functions.py --check
counted python3 tools/believe.py --check
counted rt ci
single own_logic
single edits_refused
if [ "$failed" -eq 0 ]; then
    single cargo test --quiet --release --offline --locked --manifest-path tests/Cargo.toml -p nuldwich_reference -p compare -p bench
    single make --no-print-directory host
    single build -p compare --features library
    counted "$CARGO_TARGET_DIR/release/compare" judge
    counted "$CARGO_TARGET_DIR/release/compare" check
    counted "$CARGO_TARGET_DIR/release/compare" need
    counted "$CARGO_TARGET_DIR/release/compare" same
    single make --no-print-directory program
    counted "$CARGO_TARGET_DIR/release/compare" program target/bin/verdict
    single make --no-print-directory desk
    single build_desk
    single test_solver
    counted target/desk-build/release/show_test
    counted target/desk-build/release/desk_test target/desk/nuldwich
    counted target/desk-build/release/grown
    counted target/desk-build/release/smt_test target/desk/nuldwich
    counted target/desk-build/release/draw_test target/desk/nuldwich
    counted tests/host.sh target/host
    counted tests/install.sh
    counted tests/evidence.sh
fi

echo "$passed passed, $failed failed"
[ "$failed" -eq 0 ]
