#!/usr/bin/env bash
# Builds crates of this repository, named as in crates.txt: a program to target/bin/NAME, a static library to target/staticlib/libNAME.a.
# Only what is proved is built. Behind rt ci, what it proved and left in crates/*/out serves; else rt proves what has changed.
set -euo pipefail
cd "$(dirname "$0")/.."
. tools/kit.sh

for crate in "$@"; do
    out=crates/$crate/out
    if [ -f "crates/$crate/src/main.rt" ]; then
        # rt has no word that builds a program and does not run it: here it runs on an input that is refused
        if ! left_by_ci "$crate" || [ ! -x "$out/$crate" ]; then
            (cd "crates/$crate" && rt run </dev/null >/dev/null)
        fi
        mkdir -p target/bin
        cp "$out/$crate" "target/bin/$crate"
    else
        if left_by_ci "$crate"; then
            words_for "$crate"
            mkdir -p "$out"
            (cd "crates/$crate" && "$kit/bin/rattle" build "${words[@]}" --crate-type staticlib --toolchain "$kit/toolchain" -o "out/lib$crate.a")
        else
            (cd "crates/$crate" && rt lib)
        fi
        mkdir -p target/staticlib
        cp "$out/lib$crate.a" "target/staticlib/lib$crate.a"
    fi
done
