# Writes crates/icon_cache_c/out/libicon_cache_c.a over the libraries in crates/*/out/rlib, as `rt ci`
# leaves them in a clean checkout. `rt lib` would build, and so prove, each of them anew. The crate
# itself is proved once more: only a proved crate is built.
set -eu
cd "$(dirname "$0")/.."
name=icon_cache_c
kit=$(dirname "$(rt doc)")

set -- --crate-name "$name" --crate-type staticlib src/lib.rt
set -- "$@" --extern "std=$kit/rlibs/std.rlib" -L "dependency=$kit/rlibs"
for crate in $(sed -n "s/^$name staticlib://p" crates.txt); do
    set -- "$@" --extern "$crate=../$crate/out/rlib/$crate.rlib"
done
for folder in crates/*/out/rlib; do
    set -- "$@" -L "dependency=../../$folder"
done
set -- "$@" --antt-project "$kit/rattle/logic/antt-project.json" --logic-built "$kit/logic_built"
set -- "$@" --links "$name=" --toolchain "$kit/toolchain" --backend llvm

cd "crates/$name"
mkdir -p out
"$kit/bin/rattle" build "$@" -o "out/lib$name.a"
