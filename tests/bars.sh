#!/usr/bin/env bash
# Runs Draw with the bar list, which is no export for C, on the tape and on a label, against the model: the program bars_run, which calls it, is tried on the
# interpreter and compiled with the compiler's checks, and is built with optimisation and without it. The calls and their answers are those of
# src/bin/bar_cases.rs; those that rt ci runs it on are the first.
# The last line is 'N passed, M failed'.
set -u
cd "$(dirname "$0")/.."
root=$PWD
export CARGO_TARGET_DIR="${CARGO_TARGET_DIR:-$root/target/cargo}"
. tools/kit.sh
work=$(mktemp -d)
trap 'rm -rf "$work"' EXIT
passed=0
failed=0

# is WHAT COMMAND...: the command must succeed
is() {
    local what=$1
    shift
    if "$@" >"$work/said" 2>&1; then
        passed=$((passed + 1))
    else
        failed=$((failed + 1))
        echo "failed: $what"
        head -c 1000 "$work/said"
    fi
}

mkdir "$work/cases"
cases=()
for case in "tape small" "tape shapes" "tape large" "tape limit" "label small" "label shapes" "label large" "label limit"; do
    name=${case/ /_}
    cases+=("$name")
    cargo run --quiet --release --manifest-path tests/Cargo.toml --bin bar_cases -- $case "$work/cases/$name" "$work/cases/$name.stdout" || exit 1
done
is 'what rt ci gives the program' cmp "$work/cases/tape_small" crates/bars_run/stdin
is 'what rt ci wants of the program' cmp "$work/cases/tape_small.stdout" crates/bars_run/stdout

tools/build.sh bars_run >"$work/log" 2>&1 || { cat "$work/log"; exit 1; }
build_plain bars_run "$work/plain" >"$work/log" 2>&1 || { cat "$work/log"; exit 1; }
(cd crates/bars_run && rt try --steps 2000000000 --cases "$work/cases") >"$work/tried" 2>&1
cat "$work/tried"
for name in "${cases[@]}"; do
    line=$(grep "^case=$name " "$work/tried")
    is "$name, compiled with checks" test "${line/ output=expected/}" != "$line"
    is "$name, interpreted as well" test "${line/ run=ended status=0 runners=2 /}" != "$line"
    "$work/plain" <"$work/cases/$name" >"$work/answer"
    is "$name, without optimisation" cmp "$work/answer" "$work/cases/$name.stdout"
    target/bin/bars_run <"$work/cases/$name" >"$work/answer"
    is "$name, with optimisation" cmp "$work/answer" "$work/cases/$name.stdout"
done

echo "$passed passed, $failed failed"
[ "$failed" -eq 0 ]
