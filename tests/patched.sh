# Writes the farm cache with some bytes replaced to standard output: patched.sh OFFSET BYTES, the
# bytes as printf writes them.
set -eu
farm=$(dirname "$0")/caches/farm.cache
length=$(printf "$2" | wc -c)
head -c "$1" "$farm"
printf "$2"
tail -c +$(($1 + length + 1)) "$farm"
