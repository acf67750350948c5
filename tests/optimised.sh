#!/usr/bin/env bash
# Builds the program bend without optimisation as well, and holds its lines and charts to those of target/bin/bend, which is built with it.
# The sheets are the samples and 200 generated ones, of up to 1,024 corners. The last line is 'N passed, M failed'.
set -euo pipefail
cd "$(dirname "$0")/.."
root=$PWD
export CARGO_TARGET_DIR="${CARGO_TARGET_DIR:-$root/target/cargo}"
. tools/kit.sh
work=$(mktemp -d)
trap 'rm -rf "$work"' EXIT
passed=0
failed=0

# is WHAT COMMAND...: the command must succeed
is() {
    local what=$1
    shift
    if "$@"; then
        passed=$((passed + 1))
    else
        failed=$((failed + 1))
        echo "failed: $what"
    fi
}

tools/build.sh bend >"$work/log" 2>&1 || { cat "$work/log"; exit 1; }
build_plain bend "$work/bend" >"$work/log" 2>&1 || { cat "$work/log"; exit 1; }
is 'the program without optimisation is the larger one' test "$(wc -c <"$work/bend")" -gt "$(wc -c <target/bin/bend)"

mkdir "$work/sheets" "$work/plain" "$work/optimised"
cargo run --quiet --release --manifest-path tests/Cargo.toml --bin sheets -- "$work/sheets"

# runs PROGRAM FOLDER SHEET: in the folder, the line and, if the sheet is not refused, the chart
runs() {
    rm -f "$2/bend.chart"
    (cd "$2" && "$1" <"$3" >line)
}
charts=0
for sheet in "$root"/samples/*.sheet "$work"/sheets/*.sheet; do
    runs "$work/bend" "$work/plain" "$sheet"
    runs "$root/target/bin/bend" "$work/optimised" "$sheet"
    is "$(basename "$sheet")" diff -r "$work/plain" "$work/optimised"
    [ ! -f "$work/plain/bend.chart" ] || charts=$((charts + 1))
done
is 'most sheets have a chart' test "$charts" -ge 190

echo "$passed passed, $failed failed"
[ "$failed" -eq 0 ]
