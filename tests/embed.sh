#!/usr/bin/env bash
# Builds the archive that C and C++ programs take, and with each compiler at hand the program of embed/ over it. Each must
# print embed/example.out.
set -uo pipefail
archive=crates/embedded/out/libembedded.a folder=target/embed
bad=0 ran=0

complain() {
    printf 'tests/embed.sh: %s\n' "$1" >&2
    bad=1
}

# The crates below the archive, and whether the full check left a library of each: such a library has no stamp beside it.
read -ra below <<<"$(sed -n 's/^embedded staticlib: //p' crates.txt)"
are_left() {
    local name
    for name in "${below[@]}"; do
        [[ -d crates/$name/out/rlib/$name.rlib && ! -e crates/$name/out/rlib/stamp ]] || return 1
    done
}

# `rt lib` proves each library once more, since it takes none that the full check left. Over those, the archive alone is
# proved and built.
build() {
    local name kit words=()
    rm -f -- "$archive"
    are_left || {
        (cd crates/embedded && rt lib)
        return
    }
    kit=$(dirname -- "$(dirname -- "$(readlink -f -- "$(command -v rt)")")")
    for name in "${below[@]}"; do
        words+=(--extern "$name=../$name/out/rlib/$name.rlib" -L "dependency=../$name/out/rlib")
    done
    mkdir -p -- "${archive%/*}" && cd crates/embedded &&
        "$kit/bin/rattle" build --crate-name embedded src/lib.rt --crate-type staticlib "${words[@]}" \
            --extern "std=$kit/rlibs/std.rlib" -L "dependency=$kit/rlibs" --links embedded= --jobs 2 \
            --antt-project "$kit/rattle/logic/antt-project.json" --logic-built "$kit/logic_built" \
            --toolchain "$kit/toolchain" --backend llvm -o "${archive#crates/embedded/}"
}

# run NAME COMPILER ARGUMENT..: compiles with these arguments, if the compiler is there, and runs what came of it.
run() {
    local name=$1 program=$folder/$1
    shift
    command -v "$1" >/dev/null || return 0
    ran=$((ran + 1))
    if ! "$@" -o "$program"; then
        complain "$name: not compiled"
    elif ! "$program" | cmp -- - embed/example.out; then
        complain "$name: not as expected"
    fi
}

mkdir -p -- "$folder" || exit 1
(build) >"$folder/log" 2>&1 || {
    tail -n 20 -- "$folder/log" >&2
    complain 'the archive was not built'
    exit 1
}
warnings=(-Wall -Wextra -Werror -pedantic -O1)
run gcc gcc -std=c99 "${warnings[@]}" embed/example.c "$archive"
run g++ g++ "${warnings[@]}" -x c++ embed/example.c -x none "$archive"
run clang clang -std=c99 "${warnings[@]}" embed/example.c "$archive"
run clang++ clang++ "${warnings[@]}" -x c++ embed/example.c -x none "$archive"
run rustc rustc --edition 2024 -O -D warnings -C "link-arg=$archive" embed/example.rs

if ((ran == 0)); then
    echo 'tests/embed.sh: skipped: no compiler'
elif ((bad == 0)); then
    echo "tests/embed.sh: $ran programs, all as expected"
fi
exit "$bad"
