# Compiles the C example against the static library, as C99 and as C++11 and with every warning an
# error, and compares what both programs print: c_example.sh FOLDER, where the programs may be
# written.
set -eu
cd "$(dirname "$0")/.."
library=crates/icon_cache_c/out/libicon_cache_c.a
strict='-Wall -Wextra -Wpedantic -Wconversion -Werror -O2'
gcc -std=c99 $strict -o "$1/example_c" bindings/c/example.c "$library"
g++ -std=c++11 $strict -o "$1/example_cpp" -x c++ bindings/c/example.c -x none "$library"

# The path of directory 1 begins at its zero byte.
sh tests/patched.sh 104 '\000\000\000\161' > "$1/bad_path.cache"
# The name of cow runs off the end.
head -c 125 tests/caches/farm.cache > "$1/cut_off.cache"
# The farm cache, at the limit and one byte above.
cp tests/caches/farm.cache "$1/largest.cache"
truncate -s 16777216 "$1/largest.cache"
cp "$1/largest.cache" "$1/too_large.cache"
truncate -s 16777217 "$1/too_large.cache"

# A cache with notes, and the same whose first display name of cow begins at its zero byte.
notes=bindings/rust/tests/data/notes.cache
{ head -c 252 "$notes"; printf '\000\000\001\023'; tail -c +257 "$notes"; } > "$1/bad_note.cache"

# Runs a program on one cache and one name; a status other than 0 is printed too.
answer() {
    "$@" 2>&1 || echo "status $?"
}

answers() {
    answer "$1" tests/caches/farm.cache cow
    answer "$1" tests/caches/farm.cache oat
    answer "$1" tests/caches/farm.cache pig
    answer "$1" tests/caches/damaged.cache oat
    answer "$1" "$2/bad_path.cache" cow
    answer "$1" "$2/cut_off.cache" cow
    answer "$1" "$notes" cow
    answer "$1" "$2/bad_note.cache" cow
    answer "$1" "$2/largest.cache" oat
    answer "$1" "$2/too_large.cache" oat
    answer "$1" tests/caches/no_such.cache oat
    answer "$1" tests/caches oat
}

for program in example_c example_cpp; do
    answers "$1/$program" "$1" | diff bindings/c/example.stdout -
done
