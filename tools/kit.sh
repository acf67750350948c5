# Sourced, at the top of the repository: where the kit is, and what its rattle takes for a crate of this repository.
kit=$(cd "$(dirname "$(rt doc)")" && pwd)

# below NAME: the repository's libraries below the crate, by crates.txt, each once
below() {
    local name of
    for name in $(sed -nE "s/^$1( staticlib)?: *//p" crates.txt); do
        if [ -d "crates/$name" ]; then
            echo "$name"
            below "$name"
        fi
    done | sort -u
}

# left_by_ci NAME: whether the last rt ci left the libraries below the crate in crates/*/out, as they and the crate itself stand now. What other commands leave there has a stamp beside it
left_by_ci() {
    local name at
    for name in $(below "$1"); do
        at=crates/$name/out/rlib
        [ -d "$at/$name.rlib" ] && [ ! -e "$at/stamp" ] && [ -z "$(find "crates/$name" "crates/$1" -path '*/out' -prune -o -type f -newer "$at/$name.rlib" -print -quit)" ] || return 1
    done
}

# words_for NAME: into `words`, what rattle is called with in the crate's folder, over the libraries in crates/*/out
words_for() {
    local name root=src/lib.rt
    [ ! -f "crates/$1/src/main.rt" ] || root=src/main.rt
    words=(--crate-name "$1" "$root" --extern "std=$kit/rlibs/std.rlib" -L "dependency=$kit/rlibs")
    for name in $(sed -nE "s/^$1( staticlib)?: *//p" crates.txt); do
        if [ -d "crates/$name" ]; then
            words+=(--extern "$name=$PWD/crates/$name/out/rlib/$name.rlib")
        else
            words+=(--extern "$name=$kit/rlibs/$name.rlib")
        fi
    done
    for name in $(below "$1"); do
        words+=(-L "dependency=$PWD/crates/$name/out/rlib")
    done
    words+=(--antt-project "$kit/rattle/logic/antt-project.json" --logic-built "$kit/logic_built" --backend llvm)
}

# build_plain NAME OUT: into OUT, the program NAME as it is built but without optimisation; OUT.o is its object file.
# The kit has no word for the level: its toolchain's clang is called with -O3. The toolchain made here, OUT.toolchain, differs in that word alone.
build_plain() {
    local tool made="$2.toolchain"
    mkdir -p "$made/bin"
    ln -s "$kit/toolchain/lib" "$made/lib"
    for tool in ld.lld llvm-ar rattle-x64; do ln -s "$kit/toolchain/bin/$tool" "$made/bin/$tool"; done
    cat >"$made/bin/clang" <<EOF
#!/usr/bin/env bash
exec "$kit/toolchain/bin/clang" "\${@/#-O3/-O0}"
EOF
    chmod +x "$made/bin/clang"
    words_for "$1"
    (cd "crates/$1" && "$kit/bin/rattle" build "${words[@]}" --toolchain "$made" -o "$2.o") &&
        "$kit/bin/rattle-link" --target x86_64-unknown-linux-gnu --toolchain "$kit/toolchain" -o "$2" "$2.o" "$kit/c/libos_c.a" "$kit/c/liblibc_c.a"
}
